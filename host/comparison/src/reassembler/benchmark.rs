//! Times joining: a call joins all pieces of a command of 65,535 bytes in a room. The Rust parses each piece and
//! extends an owned command, which has no data at first. The library is called once for each piece, with the state
//! after the piece before it.

use std::hint::black_box;
use std::time::Instant;

use gorvisclen::{Reassembler, Refused, BUFFER_LEN, JOIN_NUMBERS};
use original::command::{Command, CommandView};

use super::roundtrip;
use crate::benchmark::{best_of, check, Table, HEADER};
use crate::command::owned_numbers;

/// The limit of the ratio to the Rust's time.
const LIMIT: f64 = 1.20;

/// How many calls a round makes.
const CALLS: usize = 8;

/// How many data bytes are joined, and the length of the room.
const LEN: usize = 65_535;

type Held = Command<LEN>;

/// Pieces of 261 bytes each: 255 data bytes, and Le.
fn longest() -> Vec<Vec<u8>> {
    let pieces = LEN / 255;
    (1..=pieces)
        .map(|i| {
            let class = if i < pieces { 0x10 } else { 0x00 };
            let data = vec![i as u8; 255];
            [&[class, 0xDB, 0x3F, 0xFF, 255], &data[..], &[0]].concat()
        })
        .collect()
}

/// The pieces into which the library cuts a command.
fn cut(available: usize) -> Vec<Vec<u8>> {
    let data = (0..LEN).map(|i| (i / 254) as u8).collect();
    roundtrip::Command::new(HEADER, data, 0, available).pieces()
}

#[inline(never)]
fn join_by_rust(pieces: &[Vec<u8>], held: &mut Held) -> u8 {
    for piece in pieces {
        let Ok(view) = CommandView::try_from(&piece[..]) else {
            return 5;
        };
        if held.extend_from_command_view(view).is_err() {
            return 18;
        }
    }
    0
}

#[inline(never)]
fn join_by_ours(pieces: &[Vec<u8>], room: &mut [u8], out: &mut [u64; JOIN_NUMBERS]) -> u8 {
    let mut state = Reassembler::CLOSED;
    for piece in pieces {
        if let Err(Refused(number)) = state.join(piece, room, out) {
            return number;
        }
        state = Reassembler::after(*out);
    }
    0
}

/// An owned command without data.
fn empty() -> Box<Held> {
    Box::new(Held::try_from(&HEADER).unwrap())
}

fn time_rust(pieces: &[Vec<u8>], held: &mut Held) -> f64 {
    let start = Instant::now();
    check("join", 0, black_box(join_by_rust(black_box(pieces), black_box(held))));
    start.elapsed().as_nanos() as f64
}

fn time_ours(pieces: &[Vec<u8>], room: &mut [u8], out: &mut [u64; JOIN_NUMBERS]) -> f64 {
    let start = Instant::now();
    let (room, out) = (black_box(room), black_box(out));
    check("join", 0, black_box(join_by_ours(black_box(pieces), room, out)));
    start.elapsed().as_nanos() as f64
}

pub fn bench(table: &mut Table) {
    for (name, pieces) in [
        ("join 65,535 bytes, pieces of 261", longest()),
        ("join 65,535 bytes, cut for 261", cut(BUFFER_LEN)),
        ("join 65,535 bytes, cut for 100", cut(100)),
    ] {
        let (mut held, mut room, mut out) = (empty(), vec![1; LEN], [7; JOIN_NUMBERS]);
        time_rust(&pieces, &mut held);
        time_ours(&pieces, &mut room, &mut out);
        check(name, (1, &owned_numbers(&held)[..]), (out[0], &out[1..8]));
        check(name, &held.data()[..], &room[..]);
        let rust = || best_of(CALLS, || time_rust(&pieces, &mut empty()));
        let ours = || best_of(CALLS, || time_ours(&pieces, &mut vec![1; LEN], &mut [0; JOIN_NUMBERS]));
        table.time(name, LIMIT, rust, ours);
    }
}
