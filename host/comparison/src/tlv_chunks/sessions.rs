//! A record that comes in chunks, from its first byte to the closing call and further, compared call by call. A chunk
//! is handed in until more bytes are needed, each time without the bytes that were taken; after a refusal, once more.

use std::iter;

use gorvisclen::{ChunkWalk, CHUNK_NUMBERS};

use super::labels::{BY_RUST, SOME_DIVISIONS};
use super::model;
use super::operations::{closed, taken};
use super::player::{Player, AFTERWARDS};
use super::told::{stopped, Tells, TAKEN};
use super::whole::Whole;
use crate::hex::Hex;
use crate::random::Random;
use crate::tally::Tally;
use crate::tlv::check_model;

/// Compares every call on the way through a record with what the Rust reads in it, with which the model must agree.
/// Then calls after the refusal.
pub fn every_call(tally: &mut Tally, random: &mut Random, whole: &Whole, ends: &[usize]) {
    let mut start = 0;
    for &end in ends {
        let mut at = start;
        loop {
            let (stopped, numbers) = (whole.has_stopped_at(at), one_call(tally, random, whole, at, end));
            at += numbers[TAKEN] as usize;
            if stopped || (at == end && numbers[..2] == [0, 0]) {
                break;
            }
        }
        start = end;
    }
    let (state, told) = (whole.state_at(start), whole.close(start));
    check_model(&told, &model::close(state), || state);
    closed(tally, random, BY_RUST.of_close(state), state, told);
    let (Ok(numbers) | Err((_, numbers))) = told;
    repeated(tally, random, ChunkWalk::after(numbers));
}

/// Compares one call on the way through a record: the bytes from a place to another are handed in. Returns the numbers
/// that it must write.
pub fn one_call(tally: &mut Tally, random: &mut Random, whole: &Whole, at: usize, end: usize) -> [u64; CHUNK_NUMBERS] {
    let (state, chunk, told) = (whole.state_at(at), &whole.record[at..end], whole.take(at, end));
    check_model(&told, &model::take(state, chunk), || (state, Hex(chunk)));
    taken(tally, random, BY_RUST.of_take(state, &told), (state, chunk), told);
    let (Ok(numbers) | Err((_, numbers))) = told;
    numbers
}

/// Every call in a state in which the walk has stopped gives the same refusal, and changes nothing.
fn repeated(tally: &mut Tally, random: &mut Random, state: ChunkWalk) {
    let number = if state == stopped(11) { 11 } else { 12 };
    let told = Err((number, Tells::only(0).numbers(state)));
    let n = random.below(5);
    let some = random.bytes(n);
    for chunk in [&AFTERWARDS, &some[..], &[]] {
        taken(tally, random, BY_RUST.of_take(state, &told), (state, chunk), told);
    }
    closed(tally, random, BY_RUST.of_close(state), state, told);
}

/// A record in some divisions: each call, and all replies joined.
pub fn divided(tally: &mut Tally, random: &mut Random, record: &[u8], divisions: &[Vec<usize>]) {
    let whole = Whole::of(record);
    let (joined, mut player) = (whole.joined(), Player::new());
    for ends in divisions {
        every_call(tally, random, &whole, ends);
        player.compare(tally, (SOME_DIVISIONS, &[]), record, ends, &joined);
    }
    player.count(tally, (SOME_DIVISIONS, &[]));
}

/// The ends of a record's chunks: at once; byte by byte; the same with chunks of no bytes between; at random places,
/// close together or not; around the places where headers and values end.
pub fn random_ends(random: &mut Random, whole: &Whole) -> Vec<usize> {
    let len = whole.record.len();
    let mut ends: Vec<usize> = match random.below(8) {
        0 => vec![],
        1 => (1..len).collect(),
        2 => (0..=len).flat_map(|at| [at; 2]).collect(),
        3 => vec![random.below(len + 1)],
        4 | 5 => {
            let edges = whole.edges().into_iter().filter(|_| random.below(3) > 0).collect::<Vec<_>>();
            edges.into_iter().map(|at| (at + random.below(3)).saturating_sub(1).min(len)).collect()
        }
        _ => {
            let most = random.one_of(&[2, 3, 9, 300]);
            let next = |at: &usize| Some(at + random.below(most)).filter(|&at| at <= len);
            iter::successors(Some(0), next).take(4 * len + 8).collect()
        }
    };
    ends.sort();
    ends.push(len);
    ends
}
