//! Commands that are cut: single steps in every mode; whole chains in short mode, piece by piece, with their bytes.
//! They are compared with the Rust. If the Rust panics, the library refuses with 13 or 14. A chain for a buffer under
//! 10, which the Rust may cut, is refused with 14.

mod benchmark;
mod chains;
mod document_cases;
mod steps;

use std::hint::black_box;

use gorvisclen::{EXPECTED_MAX, SPLIT_NUMBERS};

pub use self::benchmark::bench;
use self::steps::{compare_parts, should_split};
use crate::builder::{random_expected_len, random_mode, BuilderInput};
use crate::call::Call;
use crate::loops::{pairs, triples};
use crate::random::Random;
use crate::tally::Tally;

/// Headers. The class of the last one is refused. The pieces of the one before it have that class.
const HEADERS: [[u8; 4]; 7] = [
    [0x00, 0xA4, 0x04, 0x00],
    [0x80, 0xDB, 0x3F, 0xFF],
    [0x10, 0x00, 0xFF, 0x01],
    [0x84, 0x61, 0x01, 0x02],
    [0xFE, 0x61, 0x01, 0x02],
    [0xEF, 0xFF, 0x00, 0x00],
    [0xFF, 0xA4, 0x04, 0x00],
];

/// The headers whose class is not refused.
const ACCEPTED_HEADERS: &[[u8; 4]] = HEADERS.split_at(6).0;

/// Expected lengths around each boundary. Two numbers mean Max.
const EXPECTED_LENGTHS: [u32; 10] = [0, 1, 255, 256, 257, 258, 65_534, 65_535, EXPECTED_MAX, u32::MAX];

/// Buffers around each boundary.
fn buffers() -> impl Iterator<Item = usize> + Clone {
    (0..=12).chain(255..=265).chain(65_530..=65_545).chain([131_072, 1 << 32, usize::MAX])
}

/// Lengths of data around each boundary. The last five are too long.
fn lengths() -> impl Iterator<Item = usize> + Clone {
    (0..=12).chain(250..=260).chain(65_520..=65_540)
}

fn random_header(random: &mut Random) -> [u8; 4] {
    match random.below(3) {
        0 => random.one_of(&HEADERS),
        _ => (random.number() as u32).to_be_bytes(),
    }
}

/// A random number, more often a small one or one around a boundary.
fn random_len(random: &mut Random) -> usize {
    match random.one_of(&[0, 65_546, 5_000, 20, 20, 700, 700, 700]) {
        0 => buffers().nth(random.below(buffers().count())).unwrap(),
        most => random.below(most),
    }
}

/// Compares a step. Its data are compared only if they are shorter than `longest`.
fn compare_step(tally: &mut Tally, longest: usize, input: BuilderInput, available: usize, len: usize) {
    match input.data.len() < longest {
        true => should_split(input, available).compare_numbers(tally, len),
        false => should_split(input, available).compare_output_only(tally, len),
    }
}

/// Steps around each boundary, in every mode.
fn every_boundary(tally: &mut Tally, random: &mut Random) {
    let string = random.bytes(65_540);
    let before = string.clone();
    for (n, available, le) in triples(lengths(), buffers(), EXPECTED_LENGTHS) {
        for mode in 0..3 {
            let input = BuilderInput::new(random_header(random), le, mode, &string[..n]);
            let len = SPLIT_NUMBERS + random.below(2);
            compare_step(tally, 300, input, available, len);
            if random.below(8) == 0 {
                let len = random.below(SPLIT_NUMBERS);
                should_split(input, available).compare_output_only(tally, len);
            }
            if available > 12 && n <= 65_535 && (n < 300 || random.below(64) == 0) {
                compare_parts(tally, input, available);
            }
        }
    }
    assert!(*black_box(&string) == before, "a call changed data");
}

/// Every length of data and every buffer up to 300; and for the longest data, every buffer up to 65,545.
fn every_small_step(tally: &mut Tally, random: &mut Random) {
    let string = random.bytes(65_535);
    for mode in 0..3 {
        for le in [0, 1, 256, 257] {
            let header = random.one_of(ACCEPTED_HEADERS);
            for n in 0..=300 {
                let input = BuilderInput::new(header, le, mode, &string[..n]);
                for available in 0..=300 {
                    if available >= 10 || !(10..=250).contains(&n) || random.below(10) == 0 {
                        should_split(input, available).compare_output_only(tally, SPLIT_NUMBERS);
                    }
                }
            }
        }
        for le in [0, 256, EXPECTED_MAX] {
            let input = BuilderInput::new(HEADERS[1], le, mode, &string);
            for available in 0..=65_545 {
                should_split(input, available).compare_output_only(tally, SPLIT_NUMBERS);
            }
        }
    }
}

/// Every class byte, and every mode byte.
fn every_class_and_mode(tally: &mut Tally, random: &mut Random) {
    let string = random.bytes(300);
    for (byte, n, available) in triples(0..=u8::MAX, [0, 1, 5, 255, 256, 300], [9, 10, 12, 100, 261, 400]) {
        let le = random_expected_len(random, &EXPECTED_LENGTHS);
        let header = [byte, byte ^ 0x55, byte.wrapping_add(1), 0];
        for mode in [0, 1, 2, byte] {
            let input = BuilderInput::new(header, le, mode, &string[..n]);
            should_split(input, available).compare_numbers(tally, SPLIT_NUMBERS);
        }
        chains::ChainInput::new(header, &string[..n], le as u16, available).compare_whole(tally, (1, 1), 5);
    }
}

/// A random step.
pub fn random_step(tally: &mut Tally, random: &mut Random) {
    let string = random.long_string();
    let n = random_len(random).min(string.len());
    let mode = random_mode(random);
    let (header, le) = (random_header(random), random_expected_len(random, &EXPECTED_LENGTHS));
    let start = random.below(string.len() - n + 1);
    let input = BuilderInput::new(header, le, mode, &string[start..start + n]);
    let available = random_len(random);
    let len = random.below(SPLIT_NUMBERS + 2);
    compare_step(tally, 700, input, available, len);
    if available > 12 && n < 700 {
        compare_parts(tally, input, available);
    }
}

/// Whole chains with every expected length up to 257: data and buffers around each boundary, and the longest data.
fn every_expected_length(tally: &mut Tally, random: &mut Random) {
    let string = random.bytes(65_535);
    let before = string.clone();
    let lengths = [0, 1, 4, 5, 300, 261, 255, 256, 257, 600, 600, 600, 2_000, 65_535];
    let buffers = [10, 10, 10, 10, 10, 11, 261, 261, 261, 261, 260, 300, 100, 261];
    for le in 0..=257 {
        for (n, available) in lengths.into_iter().zip(buffers) {
            let header = random.one_of(ACCEPTED_HEADERS);
            let input = chains::ChainInput::new(header, &string[65_535 - n..], le, available);
            input.compare_whole(tally, (random.below(3), random.below(3)), 1 + random.below(40));
        }
        let (n, available) = (random.below(65_536), 60 + random.below(700));
        let input = chains::ChainInput::new(random_header(random), &string[..n], le, available);
        input.compare_whole(tally, (random.below(3), 1), 20);
    }
    assert!(*black_box(&string) == before, "a call changed data");
}

/// Whole chains of many pieces: the longest data in the smallest buffers.
fn most_pieces(tally: &mut Tally, random: &mut Random) {
    let string = random.bytes(65_535);
    for (le, available) in [(0, 10), (1, 10), (256, 10), (65_535, 10), (0, 11), (5, 12)] {
        chains::ChainInput::new(HEADERS[1], &string, le, available).compare_whole(tally, (0, 1), 1_000);
    }
}

/// Whole chains for every buffer from 10 to 270, and large ones.
fn every_buffer(tally: &mut Tally, random: &mut Random) {
    let string = random.bytes(65_535);
    let buffers = (10..=270).chain([511, 512, 65_535, 65_536, 70_000, 1 << 32, usize::MAX]);
    let lengths = [0, 1, 2, 9, 250, 254, 255, 256, 257, 510, 511, 512, 766];
    for (available, n, le) in triples(buffers, lengths, [0, 1, 256, 257, 65_535]) {
        let input = chains::ChainInput::new(random.one_of(ACCEPTED_HEADERS), &string[..n], le, available);
        input.compare_whole(tally, (random.below(3), random.below(2)), 30);
    }
    for _ in 0..40 {
        let (n, available) = (random.below(65_536), 10 + random.below(65_600));
        let le = random_expected_len(random, &EXPECTED_LENGTHS) as u16;
        let input = chains::ChainInput::new(random_header(random), &string[..n], le, available);
        input.compare_whole(tally, (random.below(3), 1), 50);
    }
}

/// Chains that are refused: 3, 13, and 14 for every buffer under 10.
fn refused_chains(tally: &mut Tally, random: &mut Random) {
    let string = random.bytes(131_072);
    let lengths = lengths().chain([65_791, 65_792, 131_072]);
    let cases = triples(lengths, (0..=10).chain([261]), [HEADERS[0], HEADERS[5], HEADERS[6]]);
    for ((n, available, header), le) in pairs(cases, [0, 1, 257]) {
        if n <= 300 || available != 10 {
            let mut input = chains::ChainInput::new(header, &string[..n], le, available);
            input.compare_whole(tally, (1, 1), 9);
            input.pieces.place = random.below(4);
            chains::write_next(input, random.below(3)).compare(tally, 20, random.below(7));
        }
    }
}

/// A single piece of a random chain at a random place, in a random buffer.
fn random_piece(tally: &mut Tally, random: &mut Random) {
    let string = random.long_string();
    let n = random_len(random).min(string.len());
    let le = random_expected_len(random, &EXPECTED_LENGTHS) as u16;
    let available = random_len(random);
    let mut input = chains::ChainInput::new(random_header(random), &string[..n], le, available);
    input.pieces.place = match random.below(8) {
        0 => n + random.below(3),
        1 => random.one_of(&[usize::MAX, 1 << 32, 65_536, 70_000]),
        2..=3 => n.saturating_sub(random.below(300)),
        _ => random.below(n + 1),
    };
    input.pieces.done = random.below(16) == 0;
    let most = random.one_of(&[20, 300, 300, 300]);
    let buffer_len = random.below(most);
    let at = match random.below(16) {
        0 => buffer_len + random.below(3),
        1 => usize::MAX - random.below(12),
        _ => random.below(8),
    };
    let len = if random.below(8) == 0 { random.below(5) } else { 5 + random.below(2) };
    chains::write_next(input, at).compare(tally, buffer_len, len);
}

/// A whole chain of random data, and single pieces of other chains.
pub fn random_chain(tally: &mut Tally, random: &mut Random) {
    for _ in 0..20 {
        random_piece(tally, random);
    }
    let string = random.long_string();
    let available = match random.below(4) {
        0 => random_len(random),
        1 => random.below(30),
        _ => 10 + random.below(300),
    };
    // Not too many pieces; none if the data are too long.
    let n = match random.below(64) {
        0 => 65_536 + random.below(string.len() - 65_535),
        1..=8 => random_len(random).min(available.saturating_mul(40)),
        _ => random.below(2_000),
    };
    let n = n.min(string.len());
    let le = random_expected_len(random, &EXPECTED_LENGTHS) as u16;
    let input = chains::ChainInput::new(random_header(random), &string[..n], le, available);
    input.compare_whole(tally, (random.below(3), random.below(3)), 1 + random.below(40));
}

/// The short run.
pub fn compare(tally: &mut Tally, random: &mut Random) {
    document_cases::steps(tally);
    document_cases::pieces(tally);
    every_boundary(tally, random);
    every_small_step(tally, random);
    every_class_and_mode(tally, random);
    for _ in 0..150_000 {
        random_step(tally, random);
    }
    every_expected_length(tally, random);
    most_pieces(tally, random);
    every_buffer(tally, random);
    refused_chains(tally, random);
    for _ in 0..150_000 {
        random_piece(tally, random);
    }
}
