//! Responses of the card: every response of up to two bytes, every status word, and random ones around each boundary.
//! The Rust's status.rs has the names of the listed words. For all else a model of request 1 says what is right.

mod benchmark;
mod document_cases;
pub mod model;
mod operations;
mod samples;

use gorvisclen::{RESPONSE_NUMBERS, STATUS_NUMBERS};

pub use self::benchmark::bench;
use self::model::{WORDS, WORDS_OF_CLASS};
use self::operations::{append, data, name, place_by_rust, split, status};
pub use self::samples::{random_held, random_out_len, random_response, random_status, EDGES, LONG};
use crate::call::Call;
use crate::loops::{pairs, triples, up_to_two_bytes};
use crate::random::Random;
use crate::tally::Tally;

/// Every word: with all its numbers, with more, and with too few; with and without room for a name.
fn every_word(tally: &mut Tally) {
    let mut words_of_class = [0; WORDS_OF_CLASS.len()];
    for word in 0..=u16::MAX {
        words_of_class[model::class(word) as usize] += 1;
        assert_eq!(model::place(word), place_by_rust(word), "the model is not the Rust: {word:04X}");
        let other_len = [0, 1, 2, 4, 5][usize::from(word % 5)];
        status(word).compare_numbers(tally, STATUS_NUMBERS);
        status(word).compare_numbers(tally, other_len);
        name(word).compare(tally, 40, 1);
        name(word).compare(tally, usize::from(word % 3), usize::from(word / 3 % 3));
    }
    assert_eq!(words_of_class, WORDS_OF_CLASS, "the model is not document 02");
}

/// The name of every listed word, in a room of every length up to a few bytes more.
fn every_name(tally: &mut Tally) {
    for (word, letters) in WORDS {
        for (to_len, out_len) in pairs(0..=letters.len() + 3, 0..=2) {
            name(word).compare(tally, to_len, out_len);
        }
    }
}

/// Every response of up to two bytes: there are no data.
fn every_short_response(tally: &mut Tally) {
    let held = [(0, 0), (1, 1), (1, 3), (2, 1), (usize::MAX, 1)];
    for (i, response) in up_to_two_bytes().enumerate() {
        split(&response).compare_numbers(tally, RESPONSE_NUMBERS);
        data(&response).compare(tally, i % 3, 1);
        append(&response, 0).compare(tally, 0, RESPONSE_NUMBERS);
        let (held, room_len) = held[i % held.len()];
        append(&response, held).compare(tally, room_len, RESPONSE_NUMBERS);
    }
}

/// Responses of three bytes, in rooms of every length up to three.
fn every_response_of_three(tally: &mut Tally) {
    let bytes = [0x00, 0x61, 0x6C, 0x90, 0xFF];
    for (byte, sw1, sw2) in triples(0..=255, bytes, bytes) {
        let response = [byte, sw1, sw2];
        split(&response).compare_numbers(tally, RESPONSE_NUMBERS);
        data(&response).compare(tally, usize::from(byte % 3), 1);
        append(&response, 1).compare(tally, usize::from(byte % 4), RESPONSE_NUMBERS);
    }
    let held = (0..=4).chain([usize::MAX - 1, usize::MAX]);
    for (held, room_len, out_len) in triples(held, 0..=4, 0..=5) {
        for response in [&[][..], &[0x90], &[0x90, 0x00], &[0x0A, 0x61, 0x00], &[0x0A, 0x0B, 0x6C, 0x02]] {
            append(response, held).compare(tally, room_len, out_len);
            data(response).compare(tally, room_len, out_len);
            split(response).compare_numbers(tally, out_len);
        }
    }
}

/// Long responses and long rooms: each is exact, or a byte too short.
fn every_long_room(tally: &mut Tally, random: &mut Random) {
    let mut string = random.bytes(131_074);
    for (held, n) in LONG {
        string[n..n + 2].copy_from_slice(&[0x90, 0x00]);
        let response = &string[..n + 2];
        split(response).compare_numbers(tally, RESPONSE_NUMBERS);
        for less in [0, 1] {
            append(response, held).compare(tally, held + n - less, RESPONSE_NUMBERS);
            data(response).compare(tally, n.saturating_sub(less), 1);
        }
    }
}

/// A random response, with held bytes and rooms around its length; then a random word.
pub fn random_cases(tally: &mut Tally, random: &mut Random) {
    let response = random_response(random);
    let n = response.len().saturating_sub(2);
    split(&response).compare_numbers(tally, random_out_len(random, RESPONSE_NUMBERS));
    for to_len in [n, n.saturating_sub(1), n + 1] {
        data(&response).compare(tally, to_len, random_out_len(random, 1));
    }
    for _ in 0..3 {
        let (held, room_len) = random_held(random, n);
        append(&response, held).compare(tally, room_len, random_out_len(random, RESPONSE_NUMBERS));
    }
    let word = u16::from_be_bytes(random_status(random));
    status(word).compare_numbers(tally, random_out_len(random, STATUS_NUMBERS));
    let name_len = model::place(word).map_or(0, |place| WORDS[place].1.len());
    name(word).compare(tally, (name_len + random.below(3)).saturating_sub(1), random_out_len(random, 1));
}

/// The short run.
pub fn compare(tally: &mut Tally, random: &mut Random) {
    document_cases::compare(tally);
    every_word(tally);
    every_name(tally);
    every_short_response(tally);
    every_response_of_three(tally);
    every_long_room(tally, random);
    for _ in 0..20_000 {
        random_cases(tally, random);
    }
}
