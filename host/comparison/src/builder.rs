//! Commands to build: every expected length, every length of the data up to 65,540, every mode byte, and the other
//! tests below. They are compared with the Rust. No caller can make the Rust build a command that is short only and has
//! more than 255 bytes or Max: a model says what it must be.

mod benchmark;
mod document_cases;
mod field_values;
mod input;
mod model;
mod operations;

use std::hint::black_box;

use gorvisclen::{EXPECTED_MAX, EXTENDED_FORCED, EXTENDED_SUPPORTED};

pub use self::benchmark::{bench, write_built};
use self::field_values::REFUSED_COMMANDS;
pub use self::field_values::{
    random_expected_len, random_header, random_mode, DATA_LENGTHS, EXPECTED_LENGTHS, HEADERS, MODES, TOO_LONG_LENGTHS,
};
pub use self::input::{bytes_of, expected_number, unless_too_long, Builder, BuilderInput};
pub use self::operations::written_by_rust;
use self::operations::{equals, force_extended, read_back, required_len, serialize_into};
use crate::call::Call;
use crate::lent::places_past;
use crate::loops::{pairs, triples};
use crate::random::Random;
use crate::tally::Tally;

/// Both lengths of a command, with `out` long enough and too short.
fn every_number(tally: &mut Tally, random: &mut Random, input: BuilderInput) {
    required_len(input).compare_numbers(tally, 1 + random.below(2));
    force_extended(input).compare_numbers(tally, 1 + random.below(2));
    match random.below(2) {
        0 => required_len(input).compare_numbers(tally, 0),
        _ => force_extended(input).compare_numbers(tally, 0),
    }
}

/// Buffers that the command fits exactly, that are a byte too short and a byte longer; and places around the end.
fn around_the_end(tally: &mut Tally, random: &mut Random, input: BuilderInput, before: usize) {
    let need = input.required_len();
    let exact = before + need;
    for buffer_len in [exact, exact - 1, exact + 1] {
        serialize_into(input, before).compare(tally, buffer_len, 1 + random.below(2));
        serialize_into(input, before + 1).compare(tally, buffer_len, 1);
    }
    serialize_into(input, before).compare(tally, exact + random.below(2), 0);
    for at in places_past(before, need) {
        serialize_into(input, at).compare(tally, exact, 1);
    }
}

/// Commands with another header or another expected length.
fn other_numbers(random: &mut Random, input: BuilderInput) -> Vec<Vec<u8>> {
    let mut apdus = vec![];
    for i in 0..4 {
        let mut other = input;
        other.header[i] ^= 1 + random.below(255) as u8;
        apdus.push(other.bytes());
    }
    let lengths = [input.le.saturating_sub(1), input.le + 1, 0, 256, 65_535, EXPECTED_MAX];
    apdus.extend(lengths.map(|le| BuilderInput { le, ..input }.bytes()));
    apdus
}

/// Commands with other data.
fn other_data(random: &mut Random, input: BuilderInput) -> Vec<Vec<u8>> {
    let BuilderInput { header, le, data, .. } = input;
    let with = |data: &[u8]| BuilderInput { data, ..input }.bytes();
    let mut apdus = vec![];
    if let n @ 1.. = data.len() {
        for at in [0, random.below(n), n - 1] {
            let mut other = data.to_vec();
            other[at] ^= 1 << random.below(8);
            apdus.push(with(&other));
        }
        apdus.extend([&data[1..], &data[..n - 1]].map(with));
    } else {
        // An extended Lc of zero, which the crate's reading takes.
        let [.., high, low] = le.to_be_bytes();
        apdus.push([&header[..], &[0, 0, 0, high, low]].concat());
    }
    if data.len() < 65_535 {
        apdus.push(with(&[data, &[random.byte()]].concat()));
    }
    apdus
}

/// Equality with commands that are equal, that differ in one field, and that are refused. Among them are its own bytes,
/// in which Le is lowered and Max is 65,536, and its fields in both forms.
fn every_comparison(tally: &mut Tally, random: &mut Random, input: BuilderInput) {
    let in_form = |mode| BuilderInput { le: input.compared_expected_len(), mode, ..input };
    let mut apdus = vec![input.bytes(), in_form(EXTENDED_SUPPORTED).bytes(), in_form(EXTENDED_FORCED).bytes()];
    let other = in_form(1 + random.below(2) as u8);
    apdus.extend(other_numbers(random, other));
    apdus.extend(other_data(random, other));
    apdus.push(random.damaged(&apdus[1]));
    apdus.push(random.one_of(&REFUSED_COMMANDS).to_vec());
    for apdu in &apdus {
        equals(input, apdu).compare_numbers(tally, 1 + random.below(2));
    }
    equals(input, &apdus[random.below(apdus.len())]).compare_numbers(tally, 0);
}

/// Every operation on an input.
fn every_operation(tally: &mut Tally, random: &mut Random, input: BuilderInput) {
    every_number(tally, random, input);
    let before = random.below(4);
    around_the_end(tally, random, input, before);
    if input.header[0] != 0xFF {
        read_back(tally, input, before);
    }
    every_comparison(tally, random, input);
}

/// Lengths of data and expected lengths around each boundary, in every mode.
pub fn every_boundary(tally: &mut Tally, random: &mut Random) {
    let string = random.bytes(65_535);
    for (n, le, mode) in triples(DATA_LENGTHS, EXPECTED_LENGTHS, MODES) {
        for _ in 0..if n < 1_000 { 4 } else { 1 } {
            let header = random_header(random);
            let start = random.below(65_536 - n);
            let input = BuilderInput::new(header, le, mode, &string[start..start + n]);
            every_operation(tally, random, input);
        }
    }
}

/// Long commands, written from a large place.
fn far_places(tally: &mut Tally, random: &mut Random) {
    let string = random.bytes(65_535);
    for (n, le, mode) in triples([0, 256, 65_535], [0, 256, EXPECTED_MAX], MODES) {
        let input = BuilderInput::new(HEADERS[1], le, mode, &string[..n]);
        for before in [255, 65_532, 66_000] {
            around_the_end(tally, random, input, before);
        }
    }
}

/// Every expected length up to more than Max: without data, with one byte, and with the most bytes of a short command
/// and one more.
fn every_expected_length(tally: &mut Tally, random: &mut Random) {
    let header = HEADERS[0];
    let string = random.bytes(256);
    for (le, mode, n) in triples(0..=65_540, MODES, [0, 1, 255, 256]) {
        let input = BuilderInput::new(header, le, mode, &string[..n]);
        required_len(input).compare_numbers(tally, 1);
        if n < 2 {
            serialize_into(input, 1).compare(tally, 12, 1);
            read_back(tally, input, 0);
        }
        if mode > 0 || le % 64 == 0 {
            force_extended(input).compare_numbers(tally, 1);
        }
    }
}

/// Every length of data up to 65,540. The bytes of the data are compared only at the end.
fn every_length(tally: &mut Tally, random: &mut Random) {
    let header = HEADERS[1];
    let string = random.bytes(65_540);
    let before = string.clone();
    for (n, mode, le) in triples(0..=65_540, MODES, [0, 1, 256, 257, EXPECTED_MAX]) {
        let input = BuilderInput::new(header, le, mode, &string[..n]);
        required_len(input).compare_output_only(tally, 1);
        if mode > 0 {
            force_extended(input).compare_output_only(tally, 1);
        }
    }
    assert!(*black_box(&string) == before, "a call changed data");
}

/// Every mode byte.
fn every_mode(tally: &mut Tally, random: &mut Random) {
    let string = random.bytes(256);
    for (mode, n, le) in triples(0..=255, [0, 1, 255, 256], [0, 1, 256, 257, 65_535, EXPECTED_MAX]) {
        let input = BuilderInput::new(random_header(random), le, mode, &string[..n]);
        every_operation(tally, random, input);
    }
}

/// Every byte in each place of the header.
fn every_header(tally: &mut Tally, random: &mut Random) {
    for (i, byte, mode) in triples(0..4, 0..=255, MODES) {
        let mut header = [0x00, 0xA4, 0x04, 0x0C];
        header[i] = byte;
        let n = random.below(4);
        let data = &random.bytes(n);
        let le = random_expected_len(random, &EXPECTED_LENGTHS);
        let input = BuilderInput::new(header, le, mode, data);
        every_operation(tally, random, input);
    }
}

/// Every two bytes in each place of the header: one of the command to build, one of the command that is read.
fn every_two_bytes(tally: &mut Tally) {
    for (i, both) in pairs(0..4, 0..=u16::MAX) {
        let [mut header, mut other] = [HEADERS[0]; 2];
        [header[i], other[i]] = both.to_be_bytes();
        let input = BuilderInput::new(header, 5, EXTENDED_SUPPORTED, &[0x24]);
        let apdu = BuilderInput { header: other, ..input }.bytes();
        equals(input, &apdu).compare_numbers(tally, 1);
    }
}

/// Small buffers: every place from the beginning to past the end, `out` of every length up to 2.
fn every_place(tally: &mut Tally, random: &mut Random) {
    for (mode, n, le) in triples(MODES, [0, 1, 5], [0, 1, 256, 257, EXPECTED_MAX]) {
        let data = &random.bytes(n);
        let header = HEADERS[random.below(HEADERS.len() - 1)];
        let input = BuilderInput::new(header, le, mode, data);
        for buffer_len in 0..=16 {
            for (at, len) in pairs((0..=buffer_len + 3).chain([usize::MAX - 1, usize::MAX]), 0..=2) {
                serialize_into(input, at).compare(tally, buffer_len, len);
            }
        }
    }
}

/// Commands around each boundary, with every place from the beginning to past the end. For the longest: the places at
/// both ends, and every 1,021st between them.
fn every_place_at_a_boundary(tally: &mut Tally, random: &mut Random) {
    let string = random.bytes(65_535);
    let fields = [(0, 5), (1, 0), (1, 256), (1, 257), (2, EXPECTED_MAX)];
    for (n, (mode, le)) in pairs([0, 1, 254, 255, 256, 257, 65_535], fields) {
        let input = BuilderInput::new(HEADERS[1], le, mode, &string[..n]);
        let need = input.required_len();
        for buffer_len in [need - 1, need, need + 3] {
            let taken = |at: &usize| n <= 257 || *at <= 16 || at + 16 >= buffer_len || at.is_multiple_of(1_021);
            for at in (0..=buffer_len + 3).filter(taken) {
                serialize_into(input, at).compare(tally, buffer_len, 1);
            }
        }
    }
}

/// Data that are too long: 13 comes before 16 and after 3. Equality with commands that are refused, too.
fn too_long(tally: &mut Tally, random: &mut Random, header: [u8; 4], mode: u8, data: &[u8]) {
    let n = data.len();
    let le = random.one_of(&EXPECTED_LENGTHS);
    let input = BuilderInput::new(header, le, mode, data);
    for len in 0..=2 {
        required_len(input).compare_numbers(tally, len);
        force_extended(input).compare_numbers(tally, len);
    }
    for (buffer_len, at) in [(n + 20, 3), (0, 0), (0, 1), (n, 0), (8, usize::MAX)] {
        serialize_into(input, at).compare(tally, buffer_len, random.below(3));
    }
    let own = BuilderInput::new(header, 0, mode, &data[..n % 65_536]).bytes();
    for apdu in REFUSED_COMMANDS.into_iter().chain([&own[..]]) {
        equals(input, apdu).compare_numbers(tally, random.below(3));
    }
}

/// Lengths of data that are too long, in every mode.
fn every_too_long(tally: &mut Tally, random: &mut Random) {
    let string = random.bytes(131_072);
    for (n, mode, header) in triples(TOO_LONG_LENGTHS, MODES, [HEADERS[0], HEADERS[5]]) {
        too_long(tally, random, header, mode, &string[..n]);
    }
}

/// Equality with each refused command, for inputs that can be built and inputs that are refused.
fn every_refused(tally: &mut Tally) {
    for (apdu, header, mode) in triples(REFUSED_COMMANDS, HEADERS, MODES) {
        for len in 0..=2 {
            let input = BuilderInput::new(header, 0, mode, &[]);
            equals(input, apdu).compare_numbers(tally, len);
        }
    }
}

/// Random header, mode, expected length and data; sometimes data that are too long.
pub fn random_cases(tally: &mut Tally, random: &mut Random) {
    if random.below(1_000) == 0 {
        let (string, header) = (random.long_string(), random_header(random));
        let (n, mode) = (65_536 + random.below(string.len() - 65_535), random_mode(random));
        too_long(tally, random, header, mode, &string[..n]);
    }
    let most = if random.below(1_000) == 0 { 65_536 } else { random.one_of(&[2, 20, 300, 700]) };
    let n = random.below(most);
    let data = &random.bytes(n);
    let (header, le) = (random_header(random), random_expected_len(random, &EXPECTED_LENGTHS));
    let input = BuilderInput::new(header, le, random_mode(random), data);
    every_operation(tally, random, input);
    // Buffers that end in the header, or in Lc.
    for _ in 0..2 {
        let buffer_len = random.below(9);
        serialize_into(input, random.below(3)).compare(tally, buffer_len, 1);
    }
}

/// The short run.
pub fn compare(tally: &mut Tally, random: &mut Random) {
    document_cases::serialized(tally);
    document_cases::compared(tally);
    every_boundary(tally, random);
    far_places(tally, random);
    every_expected_length(tally, random);
    every_length(tally, random);
    every_mode(tally, random);
    every_header(tally, random);
    every_two_bytes(tally);
    every_place(tally, random);
    every_place_at_a_boundary(tally, random);
    every_too_long(tally, random);
    every_refused(tally);
    for _ in 0..15_000 {
        random_cases(tally, random);
    }
}
