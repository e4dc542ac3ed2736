//! Any three numbers as a state, also those that no record leads to, with chunks of every kind: the model says what is
//! right. A tag that is no tag, a part of a tag that begins none, numbers in fields that mean nothing.

use gorvisclen::{ChunkWalk, CHUNK_NUMBERS};

use super::operations::{by_model, close, closed_by_model, take};
use super::told::stopped;
use super::whole::Whole;
use crate::call::Call;
use crate::loops::{pairs, triples, up_to_two_bytes};
use crate::random::Random;
use crate::tally::Tally;

/// Numbers as tags, or as parts of them: some are tags, some have more bytes than a tag.
const TAGS: [u32; 14] = [
    0x00, 0x1F, 0xC1, 0xFF, 0x0100, 0x5F24, 0xDF81, 0xFFFF, 0xDF8101, 0x01005F, 0xFFFFFF, 0x0100001F, 0x01005F81,
    0xFFFFFFFF,
];

/// Further numbers: high bytes of a length, and missing bytes.
const NUMBERS: [u16; 11] = [0, 1, 0x7F, 0x80, 0xFE, 0xFF, 0x100, 0x1FF, 0x8000, 0xFFFE, 0xFFFF];

/// Chunks that decide in some state.
const CHUNKS: [&[u8]; 17] = [
    &[],
    &[0x00],
    &[0x01],
    &[0x1D],
    &[0x1E],
    &[0x7F],
    &[0x80],
    &[0x81],
    &[0x82],
    &[0x83],
    &[0xFE],
    &[0xFF],
    &[0x81, 0x80],
    &[0x24, 0x00],
    &[0x82, 0x01, 0x00],
    &[0x81, 0x01, 0x82, 0xFF, 0xFF, 0x00],
    &[0xC1, 0x00, 0xC1, 0x01, 0xAA, 0x5F, 0x80, 0x00],
];

/// Bytes that decide somewhere, to make random chunks from.
const BYTES: [u8; 20] = [
    0x00, 0x00, 0x01, 0x02, 0x1D, 0x1E, 0x1F, 0x20, 0x24, 0x5F, 0x7F, 0x80, 0x81, 0x81, 0x82, 0x82, 0x83, 0xC1, 0xFE,
    0xFF,
];

/// Every kind with all these numbers and chunks.
fn every_kind(tally: &mut Tally, random: &mut Random) {
    for (kind, tag, number) in triples(0..=255, TAGS, NUMBERS) {
        let state = ChunkWalk { kind, tag, number };
        closed_by_model(tally, random, state);
        let chunks = if kind < 10 { CHUNKS.len() } else { 2 };
        let from = random.below(CHUNKS.len() - chunks + 1);
        for chunk in &CHUNKS[from..from + chunks] {
            by_model(tally, random, state, chunk);
        }
    }
}

/// Every chunk of up to two bytes, in each kind of state: one that a record leads to, and another one.
fn every_short_chunk(tally: &mut Tally, random: &mut Random) {
    let tags = [0, 0x5F, 0xDF81, 0xC1, 0x5F24, 0xDF8101, 0x5F, 0, 0, 0];
    for (kind, tag) in (0..).zip(tags) {
        let any = ChunkWalk { kind, tag: random.number() as u32, number: random.number() as u16 };
        for (state, chunk) in pairs([ChunkWalk { kind, tag, number: u16::from(kind == 7) }, any], up_to_two_bytes()) {
            take(state, &chunk).compare_numbers(tally, CHUNK_NUMBERS + random.below(2));
        }
    }
}

/// Every pair of a byte that a state holds and a byte that comes next: the first and the second byte of a tag, the
/// second and the third one, and both bytes after 82. The rest of the state is random. Then tags in one chunk.
fn every_two_bytes(tally: &mut Tally, random: &mut Random) {
    for n in 0..=u16::MAX {
        let [held, next] = n.to_be_bytes();
        let (tag, number) = (random.number() as u32, random.number() as u16);
        let (in_tag, in_len) = (tag & !0xFF | u32::from(held), number & 0xFF00 | u16::from(held));
        for (kind, tag, number) in [(1, in_tag, number), (2, in_tag, number), (6, tag, in_len)] {
            take(ChunkWalk { kind, tag, number }, &[next]).compare_numbers(tally, CHUNK_NUMBERS);
        }
        for first in [0x1F, 0xDF] {
            take(ChunkWalk::START, &[first, held, next]).compare_numbers(tally, CHUNK_NUMBERS);
        }
    }
}

/// Every length of `out` up to more than is needed.
fn every_out(tally: &mut Tally) {
    for ((kind, tag), out_len) in pairs(pairs(0..=11, [0x1F, 0xC1, 0x01005F81]), 0..=10) {
        let state = ChunkWalk { kind, tag, number: 0x0102 };
        close(state).compare_numbers(tally, out_len);
        for chunk in CHUNKS {
            take(state, chunk).compare_numbers(tally, out_len);
        }
    }
}

/// Values with every number of missing bytes up to 300 and around the most, and chunks that end around there. Then
/// numbers around the powers of two, of missing bytes and of bytes in the chunk.
fn every_missing(tally: &mut Tally, random: &mut Random) {
    let bytes = random.long_string();
    for number in (0..=300).chain(0xFF00..=0xFF03).chain(0xFFF8..=0xFFFF) {
        let state = ChunkWalk { kind: 7, tag: random.one_of(&TAGS), number };
        let missing = usize::from(number) + 1;
        let around = missing.saturating_sub(3)..=missing + 3;
        for len in around.chain([0, 1, missing / 2, missing + 9, random.below(missing + 1)]) {
            by_model(tally, random, state, &bytes[..len]);
        }
    }
    let powers = (3..=16).flat_map(|n| (1 << n) - 2..=(1 << n) + 1);
    for (missing, len) in pairs(powers.clone(), powers) {
        if let Ok(number) = u16::try_from(missing - 1) {
            by_model(tally, random, ChunkWalk { kind: 7, tag: 0, number }, &bytes[..len]);
        }
    }
}

/// A state with random numbers.
fn any_state(random: &mut Random) -> ChunkWalk {
    let kind = match random.below(6) {
        0 => random.byte(),
        _ => random.below(10) as u8,
    };
    let tag = match random.below(3) {
        0 => random.number() as u32,
        1 => random.number() as u32 >> random.one_of(&[8, 16, 24]),
        _ => random.one_of(&TAGS),
    };
    let number = match random.below(3) {
        0 => random.number() as u16,
        1 => random.below(12) as u16,
        _ => random.one_of(&NUMBERS),
    };
    ChunkWalk { kind, tag, number }
}

/// Random bytes of those that decide.
fn random_chunk(random: &mut Random) -> Vec<u8> {
    let n = random.below(12);
    match random.below(4) {
        0 => random.bytes(n),
        _ => (0..n).map(|_| random.one_of(&BYTES)).collect(),
    }
}

/// A state that some record leads to: after some bytes, near the end of a value, or after the end of the record.
fn state_of_record(random: &mut Random) -> ChunkWalk {
    match random.below(8) {
        0 => stopped(11),
        1 => ChunkWalk { kind: 7, tag: 0, number: random.below(12) as u16 },
        _ => {
            let record = random_chunk(random);
            Whole::of(&record).state_at(random.below(record.len() + 1))
        }
    }
}

/// A random chunk in a random state.
pub fn random_state(tally: &mut Tally, random: &mut Random) {
    let state = match random.below(2) {
        0 => any_state(random),
        _ => state_of_record(random),
    };
    let chunk = random_chunk(random);
    by_model(tally, random, state, &chunk);
    closed_by_model(tally, random, state);
}

pub fn compare(tally: &mut Tally, random: &mut Random) {
    every_kind(tally, random);
    every_short_chunk(tally, random);
    every_two_bytes(tally, random);
    every_out(tally);
    every_missing(tally, random);
    for _ in 0..300_000 {
        random_state(tally, random);
    }
}
