//! The calls on chains of short pieces: making a chain, and writing it piece by piece into lent buffers.

use std::iter;

use gorvisclen::{Pieces, BUFFER_LEN, PIECE_NUMBERS, SHORT_ONLY};
use original_private::command::class::Class;
use original_private::command::{self, ChainedCommandIterator, CommandBuilder};

use crate::answer::Writes;
use crate::builder::{bytes_of, expected_number, unless_too_long, BuilderInput};
use crate::call::{call, Call, Input};
use crate::hex::Hex;
use crate::lent::bytes;
use crate::recording::{Arguments, Operation};
use crate::tally::Tally;

const NEW: &str = "CommandBuilder::new_non_extended";
const NEW_TOO_LONG: &str = "CommandBuilder::new_non_extended, data above 65,535 bytes (the Rust panics: 13)";
const NEW_SMALL: &str =
    "CommandBuilder::new_non_extended, a buffer under 10 (checked against document 01, 14; the Rust may return)";
const NEXT: &str = "ChainedCommandIterator::next, written into a buffer";
const NEXT_AT: &str = "ChainedCommandIterator::next, written, of a chain at any place with any expected length";
const NEXT_SMALL: &str =
    "ChainedCommandIterator::next, written, a buffer under 10 (checked against document 01, 14; the Rust may return)";
const NONE_LEFT: &str = "ChainedCommandIterator::next, none left";
const DONE: &str = "ChainedCommandIterator::next, none left, whatever else is said (checked against a rule)";

/// A chain at some place, and the data of its command.
#[derive(Clone, Copy, Debug)]
pub struct ChainInput<'a> {
    pub pieces: Pieces,
    pub data: Hex<'a, u8>,
}

impl Input for ChainInput<'_> {
    fn add_to<'a>(&'a self, arguments: &mut Arguments<'a>) {
        self.pieces.header.add_to(arguments);
        arguments.number(self.pieces.le.into());
        self.pieces.available.add_to(arguments);
        arguments.string(self.data.0);
    }

    /// The data are long: they are not compared.
    fn lent_bytes(&self) -> Vec<u8> {
        Vec::new()
    }
}

/// A chain that is made.
pub fn new_non_extended(input: ChainInput<'_>) -> impl Call<0> + '_ {
    let label = match input.data.len() {
        0..=65_535 if input.pieces.available < 10 => NEW_SMALL,
        0..=65_535 => NEW,
        _ => NEW_TOO_LONG,
    };
    call(
        (label, &[]),
        input,
        |input, _, _| {
            let Pieces { header, le, available, .. } = input.pieces;
            let pieces = Pieces::new_non_extended(header, &input.data, le, available)?;
            assert_eq!(pieces, input.pieces);
            Ok(())
        },
        |input, _| input.rust_chain().map(|_| [].into()),
    )
    .recorded_as(Operation::NewNonExtended)
}

/// A piece of a chain: its bytes, and the numbers that `Pieces::write_next` writes.
type Piece = (Vec<u8>, [u64; PIECE_NUMBERS]);

/// What is written for this piece, or if there is no more piece.
fn writes<'a>(piece: Option<Piece>, at: usize) -> Writes<'a, PIECE_NUMBERS> {
    match piece {
        Some((bytes, numbers)) => Writes::new(numbers, at, bytes),
        None => [0; PIECE_NUMBERS].into(),
    }
}

/// The next piece of a chain, written from a place.
pub fn write_next(input: ChainInput<'_>, at: usize) -> impl Call<PIECE_NUMBERS> + '_ {
    let label = match input.pieces {
        Pieces { done: true, .. } => DONE,
        Pieces { available: 0..10, .. } => NEXT_SMALL,
        _ => NEXT_AT,
    };
    call(
        (label, &[]),
        (input, [input.pieces.place, input.pieces.done.into(), at]),
        |&(ChainInput { pieces, data }, [.., at]), to, out| pieces.write_next(&data, to, at, out),
        |&(input, [.., at]), _| {
            if input.pieces.done {
                return Ok(writes(None, at));
            }
            input.rust_chain()?;
            let Pieces { header, le, available, place, .. } = input.pieces;
            let rest = &input.data[place.min(input.data.len())..];
            let rest = BuilderInput::new(header, le.into(), SHORT_ONLY, rest).rust_builder()?;
            Ok(writes(input.next_piece(&mut command::chain_of(rest, available)), at))
        },
    )
    .recorded_as(Operation::WriteNext)
}

impl<'a> ChainInput<'a> {
    pub fn new(header: [u8; 4], data: &'a [u8], le: u16, available: usize) -> Self {
        let pieces = Pieces { header, le, available, place: 0, done: false };
        ChainInput { pieces, data: Hex(data) }
    }

    /// The Rust's chain from its beginning; 14 for a buffer under 10, after the refusals of the Rust.
    #[inline(always)]
    pub fn rust_chain(&self) -> Result<ChainedCommandIterator<'a>, u8> {
        let (Pieces { header: [class, instruction, p1, p2], le, available, .. }, data) = (self.pieces, self.data.0);
        let chain = unless_too_long(data, || {
            let (class, instruction) = (Class::try_from(class).map_err(|_| 3)?, instruction.into());
            // The default buffer is passed as `None`.
            let buffer_len = (available != BUFFER_LEN).then_some(available);
            Ok(CommandBuilder::new_non_extended(class, instruction, p1, p2, data, le, buffer_len))
        })?;
        (available >= 10).then_some(chain).ok_or(14)
    }

    /// The next piece of a chain of the Rust with these data; none after the last one.
    fn next_piece(&self, chain: &mut ChainedCommandIterator) -> Option<Piece> {
        let bytes = bytes_of(&chain.next()?);
        let n = bytes.len() as u64;
        let [more, place, le] = command::rest_of(chain).map_or([0; 3], |rest| {
            let place = self.data.len() - rest.data().len();
            [1, place as u64, expected_number(command::fields(&rest).1)]
        });
        Some((bytes, [1, n, more, place, le]))
    }

    /// Compares a whole chain, piece by piece. Each piece is written from the place `before` of a buffer that is
    /// `after` bytes longer than needed. Each `every`-th piece is written into buffers that are a byte too short, too.
    pub fn compare_whole(&self, tally: &mut Tally, (before, after): (usize, usize), every: usize) {
        new_non_extended(*self).compare_numbers(tally, 0);
        let Ok(mut rust_chain) = self.rust_chain() else {
            return;
        };
        let mut input = *self;
        let mut compare_piece = |input, piece: Option<Piece>, (buffer_len, at, out_len): (_, _, _)| {
            let label = if piece.is_some() { NEXT } else { NONE_LEFT };
            let answer = Ok(writes(piece, at));
            write_next(input, at).compare_with(tally, (label, &[]), &answer, &bytes(buffer_len), out_len);
        };
        for (turn, piece) in iter::from_fn(|| self.next_piece(&mut rust_chain)).enumerate() {
            assert!(piece.0.len() <= self.pieces.available);
            let exact = before + piece.0.len();
            if turn % every == every - 1 {
                for into in [(exact - 1, before, 5), (exact, before + 1, 6), (exact, before, 4), (exact, before, 5)] {
                    compare_piece(input, Some(piece.clone()), into);
                }
            }
            let next = input.pieces.after(piece.1);
            compare_piece(input, Some(piece), (exact + after, before, 5 + turn % 2));
            input.pieces = next;
        }
        for out_len in [5, 6, 4, 0] {
            assert!(rust_chain.next().is_none());
            compare_piece(input, None, (before + after, before, out_len));
        }
    }
}
