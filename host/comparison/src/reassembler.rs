//! Pieces that are joined. The Rust has no reassembler. So each piece is compared with a model of document 01, with the
//! whole room and the state. Chains of one header are compared with the Rust's `extend_from_command_view`. And lists of
//! commands that the library cuts, with refused pieces between theirs, must come back.

mod against_rust;
mod benchmark;
mod model;
mod operations;
mod pieces;
mod roundtrip;

use gorvisclen::{Reassembler, JOIN_NUMBERS};

pub use self::benchmark::bench;
use self::model::CHAINING_BIT;
use self::operations::{data, join, reset, Reassembly};
use self::pieces::{number_around, random_header, random_piece, HEADERS};
use crate::call::Call;
use crate::loops::{pairs, triples, up_to_two_bytes};
use crate::random::Random;
use crate::tally::Tally;

/// A random state, with any number of held bytes.
fn random_state(random: &mut Random, header: [u8; 4], room_len: usize) -> Reassembler {
    let held = match random.below(4) {
        0 => random.number() as usize,
        1 => usize::MAX - random.below(300),
        2 => room_len + random.below(3),
        _ => random.below(room_len + 1),
    };
    let mut header = header;
    match random.below(6) {
        0 => header[0] = 0xFF,
        1 => header = (random.number() as u32).to_be_bytes(),
        _ => (),
    }
    let open = match random.below(3) {
        2 => random.byte(),
        n => n as u8,
    };
    Reassembler { open, header, held }
}

/// A sequence of pieces in one room, with resets between them, and with states that no sequence of pieces gives.
fn sequence(tally: &mut Tally, random: &mut Random, turn: usize) {
    let room_len = match turn % 100 {
        0 => 65_530 + random.below(12),
        _ => random.one_of(&[0, 1, 2, 5, 16, 255, 300, 1_000, 2_500]),
    };
    let mut reassembly = Reassembly::closed(room_len);
    let header = random_header(random);
    for _ in 0..12 {
        let held = reassembly.state.held;
        match random.below(24) {
            0 => reassembly.state = random_state(random, header, room_len),
            1 => {
                reset(reassembly.state).compare_numbers(tally, 0);
                reassembly.state = Reassembler::CLOSED;
            }
            2 => {
                let joined = number_around(random, held.min(room_len));
                let to_len = number_around(random, joined);
                data(joined, reassembly.room.part()).compare(tally, to_len, random.below(3));
            }
            _ => {
                // If more is held than the room has: also data for which the sum of both overflows.
                let free = room_len.checked_sub(held).unwrap_or(300);
                let piece = random_piece(random, header, free);
                let len = match random.below(12) {
                    0 => random.below(JOIN_NUMBERS),
                    1 => JOIN_NUMBERS - 1,
                    n => JOIN_NUMBERS + n % 3,
                };
                reassembly.join(tally, &piece, len);
            }
        }
    }
}

/// One piece in a room of three bytes: if no chain is open, and if an open chain holds one byte.
fn both_states(tally: &mut Tally, header: [u8; 4], piece: &[u8]) {
    let open = Reassembler { open: 1, header, held: 1 };
    for state in [Reassembler::CLOSED, open] {
        join(state, piece).compare(tally, 3, JOIN_NUMBERS);
    }
}

/// Every body of up to two bytes, after a header with the chaining bit and without it; bodies of three bytes that start
/// with 0, 1 or 2; and every part of a header.
fn short_pieces(tally: &mut Tally) {
    let header = HEADERS[0];
    let threes = triples(0..3, 0..=255, [0, 1, 2, 255]).map(|(a, b, c)| vec![a, b, c]);
    let bodies = up_to_two_bytes().chain(threes);
    for (body, class) in pairs(bodies, [0x00, CHAINING_BIT]) {
        both_states(tally, header, &[&[class], &header[1..], &body].concat());
    }
    for len in 0..4 {
        both_states(tally, header, &header[..len]);
    }
}

/// Every pair of class bytes, of the state and of the piece; and the same for each other byte of the header.
fn headers(tally: &mut Tally) {
    for (at, state_byte, piece_byte) in triples(0..4, 0..=255, 0..=255) {
        let (mut header, mut piece) = (HEADERS[0], HEADERS[0]);
        (header[at], piece[at]) = (state_byte, piece_byte);
        let state = Reassembler { open: 1, header, held: 2 };
        let piece = [&piece[..], &[1, 0xAA]].concat();
        join(state, &piece).compare(tally, 3, JOIN_NUMBERS);
    }
}

/// What is compared in turns: how many turns in the short run, how many at a time in a random job, and the function.
type Turns = (usize, usize, fn(&mut Tally, &mut Random, usize));
const TURNS: [Turns; 3] =
    [(9_000, 12, sequence), (6_000, 8, against_rust::random_chain), (700, 1, roundtrip::random_list)];

/// The short run.
pub fn compare(tally: &mut Tally, random: &mut Random) {
    short_pieces(tally);
    headers(tally);
    for (turns, _, compare) in TURNS {
        (0..turns).for_each(|turn| compare(tally, random, turn));
    }
    roundtrip::longest(tally, random);
}

/// Random sequences, chains compared with the Rust, and lists of commands.
pub fn random_cases(tally: &mut Tally, random: &mut Random) {
    for (_, turns, compare) in TURNS {
        let first = random.below(2_100);
        (first..first + turns).for_each(|turn| compare(tally, random, turn));
    }
}
