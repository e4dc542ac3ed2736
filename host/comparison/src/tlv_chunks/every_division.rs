//! Every division of every short string over the bytes that decide: as the first, second or third byte of a tag, and as
//! the first byte of a length. Each division is really handed in, with chunks of no bytes at random places. And each
//! part of a string that can be a chunk is compared by itself, in the state that the bytes before it lead to.

use super::labels::{BY_RUST, EVERY_DIVISION};
use super::operations::closed;
use super::player::Player;
use super::sessions::one_call;
use super::whole::Whole;
use crate::random::Random;
use crate::tally::Tally;

/// The bytes on both sides of every boundary in document 01, "BER records", crate reading; and some tags and lengths.
const DECIDING: [u8; 17] =
    [0x00, 0x01, 0x1E, 0x1F, 0x80, 0x81, 0x82, 0xFF, 0x1D, 0x7F, 0x83, 0xFE, 0x02, 0x5F, 0xC1, 0xDF, 0x20];

/// How many of these bytes are in the strings of each length, from none to six bytes.
const ALPHABETS: [usize; 7] = [17, 17, 17, 17, 17, 12, 8];

/// The strings of a length over some bytes.
fn strings(bytes: &[u8], len: usize) -> impl Iterator<Item = Vec<u8>> + '_ {
    let n = bytes.len();
    (0..n.pow(len as u32)).map(move |i| (0..len).map(|at| bytes[i / n.pow(at as u32) % n]).collect())
}

/// The ends of the chunks in a division: where a bit is set, there is a border. At random ends, and at the beginning,
/// there is a chunk of no bytes too.
fn division(random: &mut Random, len: usize, borders: usize, ends: &mut Vec<usize>) {
    let bits = random.number();
    ends.clear();
    ends.extend((bits & 3 == 0).then_some(0));
    for at in 1..=len {
        if at == len || borders >> (at - 1) & 1 == 1 {
            ends.push(at);
            ends.extend((bits >> (2 * at) & 3 == 0).then_some(at));
        }
    }
}

/// Every part at the end of a string, as a chunk in the state before it, and the closing call. The other parts are
/// those of shorter strings.
fn every_part(tally: &mut Tally, random: &mut Random, whole: &Whole) {
    let len = whole.record.len();
    for at in 0..=len {
        one_call(tally, random, whole, at, len);
    }
    let state = whole.state_at(len);
    closed(tally, random, BY_RUST.of_close(state), state, whole.close(len));
}

pub fn compare(tally: &mut Tally, random: &mut Random) {
    let (mut player, mut ends) = (Player::new(), Vec::new());
    for (len, n) in ALPHABETS.into_iter().enumerate() {
        for string in strings(&DECIDING[..n], len) {
            let whole = Whole::of(&string);
            every_part(tally, random, &whole);
            let joined = whole.joined();
            for borders in 0..1 << len.saturating_sub(1) {
                division(random, len, borders, &mut ends);
                player.compare(tally, (EVERY_DIVISION, &[]), &string, &ends, &joined);
            }
        }
    }
    player.count(tally, (EVERY_DIVISION, &[]));
}
