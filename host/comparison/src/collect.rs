//! Responses that are collected in a room. The Rust has no such operation. So each step is compared with a model of
//! request 1, with the whole room and the state, and what is sent with the Rust's builder. And simulated cards answer
//! commands, where all that is sent and collected must be as the whole history says.

mod benchmark;
mod card;
mod document_cases;
mod history;
mod model;
mod operations;

use gorvisclen::{Collection, COLLECTION_NUMBERS, COLLECT_NUMBERS, COMMAND, EXTENDED_FORCED, GET_RESPONSE, SHORT_ONLY};

pub use self::benchmark::bench;
use self::operations::{collected, sent_after, sent_len, start, step, write};
use crate::builder::{
    random_expected_len, random_header, random_mode, BuilderInput, DATA_LENGTHS, EXPECTED_LENGTHS, HEADERS, MODES,
    TOO_LONG_LENGTHS,
};
use crate::call::Call;
use crate::lent::places_past;
use crate::loops::{pairs, triples};
use crate::random::Random;
use crate::response::{random_held, random_out_len, random_response, EDGES, LONG};
use crate::tally::Tally;

/// A state that no step gives: GET RESPONSE with a header and a mode of its own.
const OTHER: Collection = Collection { kind: GET_RESPONSE, header: HEADERS[1], le: 7, mode: EXTENDED_FORCED, held: 1 };

/// A state in which a command was sent.
const SENT: Collection = Collection { kind: COMMAND, header: HEADERS[0], le: 300, mode: 1, held: 1 };

/// Every status word, as the status of a response without and with a data byte, to a command and to GET RESPONSE.
fn every_status(tally: &mut Tally) {
    for (word, state) in pairs(0..=u16::MAX, [SENT, OTHER]) {
        let [sw1, sw2] = word.to_be_bytes();
        step(state, &[sw1, sw2]).compare(tally, 1, COLLECT_NUMBERS);
        step(state, &[sw2, sw1, sw2]).compare(tally, 3, COLLECT_NUMBERS);
    }
}

/// Every byte as the kind, as each byte of the header and as the mode of a state.
fn every_state_byte(tally: &mut Tally) {
    for (at, byte, status) in triples(0..6, 0..=255, EDGES) {
        let mut state = Collection { held: 0, ..SENT };
        match at {
            0 => state.kind = byte,
            1 => state.mode = byte,
            _ => state.header[at - 2] = byte,
        }
        step(state, &status.to_be_bytes()).compare(tally, 0, COLLECT_NUMBERS);
        if status == EDGES[0] {
            write(state, &[0xAB], 1).compare(tally, 16, 1);
        }
    }
}

/// Every pair of held bytes and the room's length, up to four, with `out` of every length; and a state of class FF.
fn every_room(tally: &mut Tally) {
    let held = (0..=4).chain([usize::MAX - 2, usize::MAX - 1, usize::MAX]);
    let responses: [&[u8]; 6] =
        [&[], &[0x61], &[0x90, 0x00], &[1, 0x61, 0x00], &[1, 2, 0x6C, 0x00], &[1, 2, 0x6A, 0x82]];
    for (held, room_len, response) in triples(held, 0..=4, responses) {
        for (state, out_len) in pairs([SENT, OTHER], 0..=COLLECT_NUMBERS + 1) {
            step(Collection { held, ..state }, response).compare(tally, room_len, out_len);
        }
        for out_len in [0, COLLECT_NUMBERS] {
            step(Collection { held, header: HEADERS[5], ..OTHER }, response).compare(tally, room_len, out_len);
        }
    }
}

/// Long responses and long rooms: each is exact, or a byte too short.
fn every_long_room(tally: &mut Tally, random: &mut Random) {
    let mut string = random.bytes(131_074);
    for ((held, n), status) in pairs(LONG, [[0x61, 0x00], [0x6C, 0x00], [0x90, 0x00]]) {
        string[n..n + 2].copy_from_slice(&status);
        step(Collection { held, ..SENT }, &string[..n + 2]).compare(tally, held + n, COLLECT_NUMBERS);
        step(Collection { held, ..OTHER }, &string[..n + 2]).compare(tally, held + n - 1, COLLECT_NUMBERS);
    }
    for (len, room_len) in pairs([65_535, 65_536, 65_537, usize::MAX], [65_535, 65_536, 65_537]) {
        collected(len, &string[..room_len]).compare(tally, room_len, 1);
    }
}

/// The start: every expected length and every byte of a field; then lengths of data around each boundary.
fn every_start(tally: &mut Tally, random: &mut Random) {
    for le in (0..=65_540).chain(EXPECTED_LENGTHS) {
        let mode = MODES[le as usize % MODES.len()];
        start(BuilderInput::new(HEADERS[1], le, mode, &[])).compare_numbers(tally, COLLECTION_NUMBERS);
    }
    for (at, byte, out_len) in triples(0..5, 0..=255, [COLLECTION_NUMBERS, COLLECTION_NUMBERS - 1]) {
        let (mut header, mut mode) = (HEADERS[0], SHORT_ONLY);
        *header.get_mut(at).unwrap_or(&mut mode) = byte;
        start(BuilderInput::new(header, 5, mode, &[0xAB])).compare_numbers(tally, out_len);
    }
    let string = random.bytes(131_072);
    let lengths = DATA_LENGTHS.into_iter().chain(TOO_LONG_LENGTHS);
    for (n, header, out_len) in triples(lengths, HEADERS, 0..=COLLECTION_NUMBERS + 1) {
        let le = random.one_of(&EXPECTED_LENGTHS);
        start(BuilderInput::new(header, le, random_mode(random), &string[..n])).compare_numbers(tally, out_len);
    }
}

/// What is sent in a state, in buffers that it fits exactly, that are a byte too short and a byte longer; and from
/// places around the end.
fn around_the_end(tally: &mut Tally, state: Collection, data: &[u8], before: usize) {
    let need = sent_len(state, data);
    let exact = before + need;
    for buffer_len in [exact, exact - 1, exact + 1] {
        write(state, data, before).compare(tally, buffer_len, 1);
    }
    write(state, data, before).compare(tally, exact, 0);
    write(state, data, before).compare(tally, exact + 3, 2);
    for at in places_past(before, need) {
        write(state, data, at).compare(tally, exact, 1);
    }
}

/// Lengths of data and expected lengths around each boundary, of every kind and in every mode. GET RESPONSE is written
/// without data, also if they are too long for a command.
fn every_boundary(tally: &mut Tally, random: &mut Random) {
    let string = random.bytes(65_537);
    for (n, le, mode) in triples([0, 1, 5, 255, 256, 257], EXPECTED_LENGTHS, MODES) {
        for kind in [COMMAND, GET_RESPONSE, 2, 255] {
            let (header, held) = (random_header(random), random.number() as usize);
            around_the_end(tally, Collection { kind, header, le, mode, held }, &string[..n], random.below(4));
        }
    }
    for (n, kind, mode) in triples([65_534, 65_535, 65_536, 65_537], [COMMAND, GET_RESPONSE], MODES) {
        for header in [HEADERS[1], HEADERS[5]] {
            let le = random.one_of(&EXPECTED_LENGTHS);
            around_the_end(tally, Collection { kind, header, le, mode, held: 0 }, &string[..n], random.below(4));
        }
    }
}

/// Every class byte, and every length that a status asks for: GET RESPONSE is five bytes in every mode, and so is a
/// command without data that is sent again, unless extended length is forced.
fn every_asked_length(tally: &mut Tally) {
    for (class, xx) in pairs(0..=254, 0..=255) {
        let mode = MODES[usize::from(class ^ xx) % MODES.len()];
        let state = Collection { header: [class, 0xB0, 0x01, 0x02], mode, held: 0, ..SENT };
        sent_after(state, [0x61, xx]).compare(tally, 6, 1);
        sent_after(Collection { mode: mode.min(1), ..state }, [0x6C, xx]).compare(tally, 5, 1);
    }
}

/// A random state: any kind, header, expected length, mode and number of held bytes.
fn random_state(random: &mut Random, held: usize) -> Collection {
    let kind = match random.below(3) {
        2 => random.byte(),
        kind => kind as u8,
    };
    let (header, le) = (random_header(random), random_expected_len(random, &EXPECTED_LENGTHS));
    Collection { kind, header, le, mode: random_mode(random), held }
}

/// Random responses in random states; what is sent in them; and copies of what is collected.
fn random_steps(tally: &mut Tally, random: &mut Random, _: usize) {
    for _ in 0..8 {
        let response = random_response(random);
        let (held, room_len) = random_held(random, response.len().saturating_sub(2));
        let state = random_state(random, held);
        step(state, &response).compare(tally, room_len, random_out_len(random, COLLECT_NUMBERS));
        let data = &response[..response.len().min(300)];
        let buffer_len = sent_len(state, data) + random.below(5);
        write(state, data, random.below(4)).compare(tally, buffer_len, random_out_len(random, 1));
        let len = random.one_of(&[held, data.len(), data.len() + 1, data.len().saturating_sub(1)]);
        let to_len = (len.min(data.len()) + random.below(3)).saturating_sub(1);
        collected(len, data).compare(tally, to_len, random_out_len(random, 1));
        let command = BuilderInput::new(state.header, state.le, state.mode, data);
        start(command).compare_numbers(tally, random_out_len(random, COLLECTION_NUMBERS));
    }
}

/// What is compared in turns: how many turns in the short run, how many at a time in a random job, and the function.
type Turns = (usize, usize, fn(&mut Tally, &mut Random, usize));
const TURNS: [Turns; 2] = [(4_000, 10, random_steps), (3_000, 10, card::random_exchange)];

/// The short run.
pub fn compare(tally: &mut Tally, random: &mut Random) {
    document_cases::compare(tally);
    every_status(tally);
    every_state_byte(tally);
    every_room(tally);
    every_long_room(tally, random);
    every_start(tally, random);
    every_boundary(tally, random);
    every_asked_length(tally);
    card::endless(tally, random);
    for (turns, _, compare) in TURNS {
        (0..turns).for_each(|turn| compare(tally, random, turn));
    }
}

/// Random steps, and random cards.
pub fn random_cases(tally: &mut Tally, random: &mut Random) {
    for (_, turns, compare) in TURNS {
        let first = random.below(1_200);
        (first..first + turns).for_each(|turn| compare(tally, random, turn));
    }
}
