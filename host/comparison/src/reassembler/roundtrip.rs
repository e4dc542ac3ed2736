//! Lists of commands that are cut and joined again: demand 3 of the mission. The library cuts each command. Between its
//! pieces are other pieces, which are refused. Every command must come back once, at its last piece, and nothing else.

use gorvisclen::{Pieces, Reassembler, BUFFER_LEN, JOIN_NUMBERS, PIECE_NUMBERS};

use super::model::{self, join_numbers, CHAINING_BIT};
use super::operations::{data, Reassembly};
use super::pieces::{number_around, piece_with_data, random_header};
use crate::answer::Writes;
use crate::call::Call;
use crate::random::Random;
use crate::tally::{Labels, Tally};

const MORE: Labels = ("cut and joined: more (checked against document 01)", &[]);
const COMMAND: Labels = ("cut and joined: the command comes back (checked against document 01)", &[]);
const REFUSED: Labels = ("cut and joined: a piece between (checked against document 01)", &[]);

/// A command to cut, and its data.
pub struct Command {
    cutter: Pieces,
    data: Vec<u8>,
}

impl Command {
    pub fn new(header: [u8; 4], data: Vec<u8>, le: u16, available: usize) -> Self {
        let cutter = Pieces::new_non_extended(header, &data, le, available).expect("a chain");
        Command { cutter, data }
    }

    /// A random command with at most `most` data bytes.
    fn random(random: &mut Random, most: usize) -> Self {
        let mut header = random_header(random);
        header[0] &= !CHAINING_BIT;
        let n = match random.below(6) {
            0 => most - random.below(most.min(4) + 1),
            1 => 250 + random.below(12),
            _ => random.below(most.min(1_500) + 1),
        };
        let le = match random.below(4) {
            0 => 0,
            1 => 256,
            _ => random.below(257) as u16,
        };
        let data = random.bytes(n.min(most));
        let available = match random.below(5) {
            0 => 10,
            1 => 10 + random.below(20),
            2 => random.below(70_000) + 10,
            _ => BUFFER_LEN,
        };
        Command::new(header, data, le, available)
    }

    /// Its pieces, as the library writes them.
    pub fn pieces(&self) -> Vec<Vec<u8>> {
        let mut cutter = self.cutter;
        let mut buffer = vec![0; cutter.available.min(BUFFER_LEN)];
        let mut pieces = Vec::new();
        while !cutter.done {
            let mut out = [0; PIECE_NUMBERS];
            cutter.write_next(&self.data, &mut buffer, 0, &mut out).expect("a piece");
            pieces.push(buffer[..out[1] as usize].to_vec());
            cutter = cutter.after(out);
        }
        pieces
    }

    /// What is written when it comes back.
    fn writes(&self, several: bool) -> Writes<'_, JOIN_NUMBERS> {
        let [class, instruction, p1, p2] = self.cutter.header.map(u64::from);
        let held = [class, instruction, p1, p2, self.data.len() as u64, self.cutter.le.into(), several.into()];
        Writes::new(join_numbers(held), 0, &self.data[..])
    }
}

/// A piece that is refused in this state, and its refusal, if one was found. `header` is that of the next piece.
fn refused_piece(random: &mut Random, reassembly: &Reassembly, header: [u8; 4]) -> Option<(Vec<u8>, u8)> {
    let room_len = reassembly.room.len();
    let free = room_len.saturating_sub(reassembly.state.held);
    (0..8).find_map(|_| {
        let mut other = header;
        other[random.below(4)] ^= 1 << random.below(8);
        let n = random.below(20);
        let piece = match random.below(7) {
            0 => piece_with_data(random, other, n),
            1 => {
                let piece = piece_with_data(random, header, n);
                random.damaged(&piece)
            }
            2 => header[..random.below(4)].to_vec(),
            3 => piece_with_data(random, [0xFF, header[1], header[2], header[3]], n),
            4 => [&header[..], &[0, 0]].concat(),
            5 if free < 65_535 => piece_with_data(random, header, free + 1),
            _ => {
                let n = number_around(random, 8);
                random.bytes(n)
            }
        };
        let number = model::join(reassembly.state, &piece, room_len).err()?;
        Some((piece, number))
    })
}

/// Joins a command. Before each of its pieces come up to `most_refused` refused ones.
fn join(tally: &mut Tally, random: &mut Random, reassembly: &mut Reassembly, command: &Command, most_refused: usize) {
    let pieces = command.pieces();
    let room_len = reassembly.room.len();
    for (i, piece) in pieces.iter().enumerate() {
        for _ in 0..random.below(most_refused + 1) {
            if let Some((between, number)) = refused_piece(random, reassembly, *piece.first_chunk().unwrap()) {
                reassembly.join_with(tally, REFUSED, &between, &Err(number), JOIN_NUMBERS);
            }
        }
        if i + 1 < pieces.len() {
            let answer = model::join(reassembly.state, piece, room_len);
            assert!(
                answer.as_ref().is_ok_and(|writes| writes.numbers[0] == 0),
                "the model refuses a piece, or gives a command too early"
            );
            reassembly.join_with(tally, MORE, piece, &answer, JOIN_NUMBERS);
        } else {
            let answer = Ok(command.writes(pieces.len() > 1));
            reassembly.join_with(tally, COMMAND, piece, &answer, JOIN_NUMBERS);
        }
    }
    let n = command.data.len();
    data(n, reassembly.room.part()).compare(tally, n + random.below(3), 1);
    assert_eq!(reassembly.state, Reassembler::CLOSED);
}

/// Joins commands in a room that is `more` bytes longer than the longest data.
fn join_all(tally: &mut Tally, random: &mut Random, commands: &[Command], more: usize, most_refused: usize) {
    let longest = commands.iter().map(|command| command.data.len()).max();
    let mut reassembly = Reassembly::closed(longest.unwrap_or(0) + more);
    for command in commands {
        join(tally, random, &mut reassembly, command, most_refused);
    }
}

/// Joins a random list of commands.
pub fn random_list(tally: &mut Tally, random: &mut Random, turn: usize) {
    let most = match turn % 35 {
        0 => 65_535,
        1..8 => 3_000,
        _ => 600,
    };
    let several = 1 + random.below(5);
    let commands: Vec<Command> = (0..several).map(|_| Command::random(random, most)).collect();
    let more = match turn % 3 {
        0 => 0,
        1 => 1 + random.below(20),
        _ => 66_000 / (1 + random.below(200)),
    };
    join_all(tally, random, &commands, more, 1 + turn % 3);
}

/// The longest data, in pieces of one byte and in the longest pieces.
pub fn longest(tally: &mut Tally, random: &mut Random) {
    for (available, le) in [(10, 1), (10, 0), (BUFFER_LEN, 256), (BUFFER_LEN, 0)] {
        let command = Command::new([0x80, 0xDB, 0x3F, 0xFF], random.bytes(65_535), le, available);
        join_all(tally, random, &[command], le.into(), 1);
    }
}
