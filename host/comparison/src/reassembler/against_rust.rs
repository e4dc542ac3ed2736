//! Pieces that are joined, compared with the Rust: the first piece is an owned copy, each further piece extends it by
//! `extend_from_command_view`. The Rust knows no chain. So these pieces all have the same header, and bit 0x10 says
//! which one is the last.

use gorvisclen::JOIN_NUMBERS;
use original::command::{Command, CommandView, FromSliceError};

use super::model::{join_numbers, CHAINING_BIT};
use super::operations::Reassembly;
use super::pieces::{number_around, piece_with_data, random_header};
use crate::answer::Writes;
use crate::command::{owned_numbers, rooms};
use crate::hex::Hex;
use crate::random::Random;
use crate::tally::{Labels, Tally};

const FIRST: Labels = ("Reassembler::join, a first piece, beside Command::try_from (2 is 18 here)", &[]);
const FURTHER: Labels = ("Reassembler::join, a further piece, beside extend_from_command_view", &[]);

/// The length of a room, which is a capacity of the Rust's `Command`, and the function that compares in it.
type Room = (usize, fn(&mut Tally, &[Vec<u8>], usize));

const fn room<const S: usize>() -> Room {
    (S, compare_in_room::<S>)
}

const SHORT_ROOMS: [Room; 10] = rooms!(room: 0, 1, 2, 5, 16, 255, 256, 510, 600, 4_096);
const LONG_ROOMS: [Room; 2] = rooms!(room: 65_535, 65_536);

/// What must be written if the Rust holds this.
fn writes<const S: usize>(held: &Command<S>) -> Writes<'_, JOIN_NUMBERS> {
    Writes::new(join_numbers(owned_numbers(held)), 0, &held.data()[..])
}

/// Joins pieces with one header, of which all but the last have bit 0x10. The first `filled` bytes of the room are from
/// an earlier chain.
fn compare_in_room<const S: usize>(tally: &mut Tally, pieces: &[Vec<u8>], filled: usize) {
    let mut reassembly = Reassembly::closed(S);
    reassembly.room.part()[..filled].fill(0x5C);
    let first = Command::<S>::try_from(&pieces[0][..]);
    let answer = first.as_ref().map(writes).map_err(|error| match error {
        FromSliceError::TooLong => 18,
        _ => panic!("a piece that the Rust does not read: {:?}", Hex(&pieces[0])),
    });
    reassembly.join_with(tally, FIRST, &pieces[0], &answer, JOIN_NUMBERS);
    let Ok(mut held) = first else { return };
    for piece in &pieces[1..] {
        let view = CommandView::try_from(&piece[..]).unwrap();
        let done = held.extend_from_command_view(view);
        let answer = done.map(|()| writes(&held)).map_err(|_| 18);
        reassembly.join_with(tally, FURTHER, piece, &answer, JOIN_NUMBERS);
    }
}

/// A random chain compared with the Rust, sometimes in a long room.
pub fn random_chain(tally: &mut Tally, random: &mut Random, turn: usize) {
    let rooms = if turn.is_multiple_of(50) { &LONG_ROOMS[..] } else { &SHORT_ROOMS };
    let (room_len, compare_in_room) = random.one_of(rooms);
    let mut header = random_header(random);
    header[0] |= CHAINING_BIT;
    let several = 1 + random.below(6);
    let mut free = room_len;
    let mut pieces = Vec::new();
    for i in 1..=several {
        let n = number_around(random, free.min(65_535));
        free -= n.min(free);
        if i == several {
            header[0] &= !CHAINING_BIT;
        }
        pieces.push(piece_with_data(random, header, n));
    }
    compare_in_room(tally, &pieces, random.below(room_len + 1));
}
