//! The data that a card sends in several responses, collected in a lent room. The caller sends the bytes that are
//! written here, and keeps the state between the responses.

use crate::{call, exported, reply, Refused, Reply};

/// How many numbers are the state of a collection.
pub const COLLECTION_NUMBERS: usize = 8;

/// How many numbers `Collection::step` writes. The first four are the end, the others are the state.
pub const COLLECT_NUMBERS: usize = 12;

/// The kind of a state in which the command is to be sent, or was sent last.
pub const COMMAND: u8 = 0;

/// The kind of a state in which GET RESPONSE is to be sent, or was sent last. Every larger number means the same.
pub const GET_RESPONSE: u8 = 1;

/// The state of a collection: what is to be sent, or was sent last, and how many bytes at the front of the room are
/// collected. `header`, `le` and `mode` are those of the command or of GET RESPONSE, as the kind says. The data of the
/// command stay with the caller. A state made by hand is taken as it is, with its own header and mode: the kind only
/// says whether data are sent with it.
#[derive(Clone, Copy, Debug, PartialEq, Eq)]
pub struct Collection {
    pub kind: u8,
    pub header: [u8; 4],
    pub le: u32,
    pub mode: u8,
    pub held: usize,
}

impl Collection {
    /// The state in which the command with these fields and data is to be sent, and nothing is collected. Refusals: 3,
    /// 13.
    #[inline]
    pub fn start(header: [u8; 4], le: u32, mode: u8, data: &[u8]) -> Result<Collection, Refused> {
        let mut numbers = [0; COLLECTION_NUMBERS];
        collect_start(header, le, mode, data, &mut numbers)?;
        Ok(Collection::from_numbers(numbers))
    }

    /// Takes the response to what was sent. Writes its data to `room`, after those that are held, whatever its status
    /// is. Writes 12 numbers. The first four are the end, which is any status except 61xx and 6Cxx: 1, SW1, SW2, how
    /// many bytes at the front of `room` are collected. If more is to be sent: zeros. The other eight are the state
    /// after it, see `after`; at the end they are zeros. After 61xx it is GET RESPONSE: the class byte of what was sent
    /// as it is, instruction C0, P1 and P2 0, `SHORT_ONLY`. After 6Cxx it is what was sent last. The expected length of
    /// both is xx, 00 meaning 256, also if there was none before.
    /// Refusals: 3 for the state's class; 16; 22; 23, for every `held`. After a refusal the state is the same as
    /// before.
    #[inline]
    pub fn step(self, response: &[u8], room: &mut [u8], out: &mut [u64]) -> Reply {
        reply(call!(
            collect_step, u8 self.kind, header self.header, u32 self.le, u8 self.mode, usize self.held, bytes response,
            room room, numbers out
        ))
    }

    /// The state after a response, from the numbers that `step` wrote. There is none at the end: these are then zeros,
    /// which are no state to go on with.
    #[inline]
    pub fn after(numbers: [u64; COLLECT_NUMBERS]) -> Collection {
        let [_, _, _, _, state @ ..] = numbers;
        Collection::from_numbers(state)
    }

    /// The state of eight numbers that `collect_start` or `step` wrote: the kind, 0 or 1; class byte; instruction byte;
    /// P1; P2; the expected length, not lowered (65,536 for Max); the mode, 0 to 2; bytes held.
    #[inline]
    pub fn from_numbers(numbers: [u64; COLLECTION_NUMBERS]) -> Collection {
        let [kind, class, instruction, p1, p2, le, mode, held] = numbers;
        Collection {
            kind: kind as u8,
            header: [class as u8, instruction as u8, p1 as u8, p2 as u8],
            le: le as u32,
            mode: mode as u8,
            held: held as usize,
        }
    }

    /// Writes what is to be sent into `buffer` from the place `at`: the command with its data, or GET RESPONSE, which
    /// has none. Writes one number: how many bytes it takes.
    /// Refusals: 3; 13 for the data of a command; 16 if the bytes do not fit, for every `at`.
    #[inline]
    pub fn write(self, data: &[u8], buffer: &mut [u8], at: usize, out: &mut [u64]) -> Reply {
        reply(call!(
            collect_write, u8 self.kind, header self.header, u32 self.le, u8 self.mode, bytes data, room buffer,
            usize at, numbers out
        ))
    }
}

exported! {
    /// Starts a collection for the command with these fields and data: `Collection::start` as 8 numbers, those of
    /// `Collection::from_numbers`. Refusals: 3, 13, 16.
    fn collect_start(header: header, le: u32, mode: u8, data: bytes, out: numbers);

    /// Copies collected data to the front of `to`: the first `len` bytes of `room`, or all of `room` if it has fewer.
    /// Writes one number: how many bytes these are. Refusal: 16.
    fn collected(len: usize, room: bytes, to: room, out: numbers);
}
