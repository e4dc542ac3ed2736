//! Objects with values around the lengths at which the form of the length changes, and the longest ones: in each form
//! of the length, with chunks that end at every place in and around the header, and around the end of the value.

use super::sessions::divided;
use crate::loops::{pairs, triples};
use crate::random::Random;
use crate::tally::Tally;
use crate::tlv::records::{length_forms, tag_bytes};

/// Lengths of values.
const LENGTHS: [usize; 12] = [0, 1, 2, 3, 127, 128, 129, 255, 256, 257, 65_534, 65_535];

/// Tags of one, two and three bytes.
const TAGS: [u32; 3] = [0xC1, 0x5F24, 0xDF8101];

/// What stands before the object, and behind it: nothing, an object, or one that cannot be read.
const BEFORE: [&[u8]; 2] = [&[], &[0x5A, 0x01, 0xAA]];
const BEHIND: [&[u8]; 3] = [&[], &[0xC2, 0x00], &[0x5F, 0x80]];

/// A record with this object: in three chunks, some of no bytes, with borders around its edges; and a byte too short.
fn object(tally: &mut Tally, random: &mut Random, parts: [&[u8]; 4]) {
    let record = parts.concat();
    let [before, header, value, _] = parts.map(<[u8]>::len);
    let (start, end) = (before + header, before + header + value);
    let near_start = before.saturating_sub(1)..=(start + 2).min(end);
    let near_end = end.saturating_sub(2).max(start + 3)..=(end + 2).min(record.len());
    let places: Vec<usize> = near_start.chain(near_end).collect();
    let borders = pairs(&places, &places).filter(|(one, other)| one <= other);
    let divisions: Vec<Vec<usize>> = borders.map(|(&one, &other)| vec![one, other, record.len()]).collect();
    divided(tally, random, &record, &divisions);
    if end > 0 {
        divided(tally, random, &record[..end - 1], &[vec![end - 1], vec![start.min(end - 1), end - 1]]);
    }
}

/// Values of these lengths.
fn every_border(tally: &mut Tally, random: &mut Random) {
    let long = random.long_string();
    for (tag, n) in pairs(TAGS, LENGTHS) {
        let (tag, forms) = (tag_bytes(tag), length_forms(n));
        for (form, before, behind) in triples(&forms, BEFORE, BEHIND) {
            let header = [&tag[..], form].concat();
            object(tally, random, [before, &header, &long[..n], behind]);
        }
    }
}

/// Values of every length up to 300, in each form: in one chunk, in two, and byte by byte.
fn every_length(tally: &mut Tally, random: &mut Random) {
    for n in 0..=300 {
        let value = random.bytes(n);
        for form in length_forms(n) {
            let record = [&tag_bytes(random.one_of(&TAGS)), &form, &value[..], &[0xC2, 0x00]].concat();
            let (len, cut) = (record.len(), random.below(record.len()));
            divided(tally, random, &record, &[vec![len], vec![cut, len], (1..=len).collect()]);
        }
    }
}

/// The longest value, byte by byte.
fn longest(tally: &mut Tally, random: &mut Random) {
    let record = [&[0x5F, 0x24, 0x82, 0xFF, 0xFF], &random.long_string()[..65_535]].concat();
    divided(tally, random, &record, &[(1..=record.len()).collect()]);
}

pub fn compare(tally: &mut Tally, random: &mut Random) {
    every_border(tally, random);
    every_length(tally, random);
    longest(tally, random);
}
