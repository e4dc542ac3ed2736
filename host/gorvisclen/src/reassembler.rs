//! Pieces of chained commands, joined in a lent room. The caller keeps the state between the pieces.

use crate::{call, exported, reply, Reply};

/// How many numbers `Reassembler::join` writes.
pub const JOIN_NUMBERS: usize = 14;

/// How many of these numbers are the state after the piece. They are the last ones.
pub const STATE_NUMBERS: usize = 6;

/// The state of a reassembler. If `open` is 0, no chain is open, and the other fields mean nothing. Otherwise a chain
/// is open: `header` is the header of its pieces, of which bit 0x10 of the class byte means nothing, and `held` is how
/// many bytes at the front of the room belong to it.
#[derive(Clone, Copy, Debug, PartialEq, Eq)]
pub struct Reassembler {
    pub open: u8,
    pub header: [u8; 4],
    pub held: usize,
}

impl Reassembler {
    /// No chain is open.
    pub const CLOSED: Reassembler = Reassembler { open: 0, header: [0; 4], held: 0 };

    /// Takes a piece. Writes its data to `room`: after the held bytes, or from the front of `room` if no chain is open.
    /// Writes 14 numbers. The first eight are the answer. If the command is complete: 1, class byte, instruction byte,
    /// P1, P2, the length of its data at the front of `room`, the expected length, and whether it is extended, 0 or 1.
    /// If more pieces must come: zeros. The other six are the state after the piece, see `after`.
    /// Refusals: 1, 3, 4, 5 for the piece; 3 if a chain with class byte 0xFF is open; 16; 17; 18.
    #[inline]
    pub fn join(self, piece: &[u8], room: &mut [u8], out: &mut [u64]) -> Reply {
        reply(call!(
            join, u8 self.open, header self.header, usize self.held, bytes piece, room room, numbers out
        ))
    }

    /// The state after a piece, from the numbers that `join` wrote. After a refusal the state is the same as before.
    #[inline]
    pub fn after(numbers: [u64; JOIN_NUMBERS]) -> Reassembler {
        let [.., open, class, instruction, p1, p2, held] = numbers;
        Reassembler::from_numbers([open, class, instruction, p1, p2, held])
    }

    /// The state in six numbers: 1, class byte, instruction byte, P1, P2, bytes held; or zeros if no chain is open.
    #[inline]
    pub fn from_numbers([open, class, instruction, p1, p2, held]: [u64; STATE_NUMBERS]) -> Reassembler {
        Reassembler {
            open: open as u8,
            header: [class as u8, instruction as u8, p1 as u8, p2 as u8],
            held: held as usize,
        }
    }

    /// Drops an open chain, and returns the state after that, `CLOSED`. It is never refused.
    #[inline]
    pub fn reset(self) -> Reassembler {
        let open = call!(reset, u8 self.open, header self.header, usize self.held);
        Reassembler { open, ..Reassembler::CLOSED }
    }
}

exported! {
    /// Copies the data of a joined command to the front of `to`: the first `len` bytes of `room`, or all of `room` if
    /// it has fewer. Writes one number: how many bytes these are. Refusal: 16.
    fn joined_data(len: usize, room: bytes, to: room, out: numbers);
}
