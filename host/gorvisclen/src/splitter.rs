//! Commands that are cut into pieces.

use crate::{call, exported, reply, Refused, Reply};

/// How many numbers `should_split` writes.
pub const SPLIT_NUMBERS: usize = 6;

/// How many numbers `Pieces::write_next` writes.
pub const PIECE_NUMBERS: usize = 5;

/// The default length of a buffer for pieces: four header bytes, Lc, 255 data bytes, Le.
pub const BUFFER_LEN: usize = 261;

exported! {
    /// Splits a command to build once, for a buffer of `available` bytes, in 6 numbers: 1; how many data bytes the
    /// first part takes; class byte and expected length of the first part (65,536 for Max); class byte and expected
    /// length of the rest. Both have instruction byte, P1, P2 and mode of the command. If the command fits and is not
    /// split, all numbers are zero.
    /// Refusals: 3; 13; 14 if `available` is under 4, or if no data fit; 16.
    fn should_split(header: header, le: u32, mode: u8, data: bytes, available: usize, out: numbers);
}

/// A chain of pieces in the mode `SHORT_ONLY`: the command's header, its expected length, the most bytes of a piece,
/// the place in the data where the next piece starts, and whether all pieces are written.
#[derive(Clone, Copy, Debug, PartialEq, Eq)]
pub struct Pieces {
    pub header: [u8; 4],
    pub le: u16,
    pub available: usize,
    pub place: usize,
    pub done: bool,
}

impl Pieces {
    /// A chain for a command with these data. Refusals: 3; 13; 14 if `available` is under 10.
    #[inline]
    pub fn new_non_extended(header: [u8; 4], data: &[u8], le: u16, available: usize) -> Result<Pieces, Refused> {
        let number = call!(new_non_extended, header header, bytes data, u16 le, usize available);
        reply(number)?;
        Ok(Pieces { header, le, available, place: 0, done: false })
    }

    /// Writes the next piece into `buffer` from the place `at`. Writes 5 numbers: 1; how many bytes the piece takes;
    /// then, for the chain after this piece, 1, the place in the data and the expected length. If this was the last
    /// piece, these three are zeros. If all pieces were written already, all five are zeros.
    /// Refusals, unless it is done: as for `new_non_extended`; 16 if the piece does not fit, for every `at`.
    #[inline]
    pub fn write_next(self, data: &[u8], buffer: &mut [u8], at: usize, out: &mut [u64]) -> Reply {
        let done = u8::from(self.done);
        reply(call!(
            write_next, header self.header, u16 self.le, usize self.available, usize self.place, u8 done, bytes data,
            room buffer, usize at, numbers out
        ))
    }

    /// The chain after a piece, from the numbers that `write_next` wrote.
    #[inline]
    pub fn after(self, [_, _, more, place, le]: [u64; PIECE_NUMBERS]) -> Pieces {
        Pieces { le: le as u16, place: place as usize, done: more == 0, ..self }
    }
}
