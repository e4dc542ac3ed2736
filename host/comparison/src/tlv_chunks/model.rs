//! A model of one call, in any state, from request 6 of document 02 and from document 01, "BER records", crate reading.
//! It makes no steps: the bytes of the header so far are joined with those of the chunk, and all are read at once, as
//! the front of an object.

use gorvisclen::{ChunkWalk, CHUNK_NUMBERS};

use super::told::{stopped, Tells};
use crate::answer::Told;

/// The end at an object boundary.
const END: u8 = 11;

/// A header that cannot be read, or an object of which bytes are missing.
const UNREADABLE: u8 = 12;

/// The most bytes of a header: three of a tag and three of a length.
const LONGEST_HEADER: usize = 6;

/// What some bytes begin with.
enum Front<T> {
    /// It is whole, and takes so many bytes.
    Whole(T, usize),
    /// Bytes of it are missing.
    Cut,
    /// It cannot be read, whatever follows; and how many bytes say so.
    Unreadable(usize),
}
use Front::{Cut, Unreadable, Whole};

/// A tag: the rows of document 01. The first row that fits counts.
fn tag(bytes: &[u8]) -> Front<()> {
    match *bytes {
        [b1, ..] if b1 % 32 != 31 => Whole((), 1),
        [_, 0x00..=0x1D | 0x80, ..] => Unreadable(2),
        [_, 0x81..=0xFE, 0x81..=0xFE, ..] => Unreadable(3),
        [_, 0x81..=0xFE, _, ..] => Whole((), 3),
        [] | [_] | [_, 0x81..=0xFE] => Cut,
        _ => Whole((), 2),
    }
}

/// A length: the forms of document 01.
fn len(bytes: &[u8]) -> Front<u64> {
    match *bytes {
        [n @ 0x00..=0x7F, ..] => Whole(n.into(), 1),
        [0x81, n, ..] => Whole(n.into(), 2),
        [0x82, high, low, ..] => Whole(u16::from_be_bytes([high, low]).into(), 3),
        [] | [0x81] | [0x82, ..] => Cut,
        _ => Unreadable(1),
    }
}

/// A tag, then a length: how many bytes the tag has, and the length.
fn header(bytes: &[u8]) -> Front<(usize, u64)> {
    let tag_len = match tag(bytes) {
        Whole((), n) => n,
        Cut => return Cut,
        Unreadable(n) => return Unreadable(n),
    };
    match len(&bytes[tag_len..]) {
        Whole(len, n) => Whole((tag_len, len), tag_len + n),
        Cut => Cut,
        Unreadable(n) => Unreadable(tag_len + n),
    }
}

/// The bytes of a header so far. A state can hold a tag, or a part of one, that no record has. So other bytes stand for
/// those of the tag, which are read as the state says: 1F for one byte of a tag, 1F 81 for two, 00 for a whole tag.
struct Begun {
    bytes: Vec<u8>,
    /// How many bytes stand for the tag.
    stand_ins: usize,
    /// The number of the bytes that they stand for.
    number: u64,
}

impl Begun {
    /// The header in a state of kind 0 to 6.
    fn of(state: ChunkWalk) -> Self {
        let ChunkWalk { kind, tag, number } = state;
        let [.., low] = number.to_be_bytes();
        let (bytes, stand_ins, number) = match kind {
            0 => (vec![], 0, 0),
            1 => (vec![0x1F], 1, tag % 0x100),
            2 => (vec![0x1F, 0x81], 2, tag % 0x1_0000),
            3 => (vec![0x00], 1, tag),
            4 => (vec![0x00, 0x81], 1, tag),
            5 => (vec![0x00, 0x82], 1, tag),
            _ => (vec![0x00, 0x82, low], 1, tag),
        };
        Begun { bytes, stand_ins, number: number.into() }
    }

    /// The number of a tag, whole or not, that begins like this and has these bytes.
    fn tag_number(&self, bytes: &[u8]) -> u64 {
        bytes[self.stand_ins..].iter().fold(self.number, |n, &byte| n * 256 + u64::from(byte))
    }

    /// The state after these bytes, which begin like this, if bytes of the header are missing.
    fn state(&self, bytes: &[u8]) -> ChunkWalk {
        let tag_len = if let Whole((), n) = tag(bytes) { n } else { bytes.len() };
        let (kind, number) = match (tag(bytes), &bytes[tag_len..]) {
            (Whole(..), []) => (3, 0),
            (Whole(..), [0x81]) => (4, 0),
            (Whole(..), [0x82]) => (5, 0),
            (Whole(..), [.., high]) => (6, *high),
            (_, _) => (tag_len as u8, 0),
        };
        ChunkWalk { kind, tag: self.tag_number(&bytes[..tag_len]) as u32, number: number.into() }
    }
}

/// The state in a value of which so many bytes are missing.
fn in_value(missing: usize) -> ChunkWalk {
    match missing {
        0 => ChunkWalk::START,
        n => ChunkWalk { kind: 7, tag: 0, number: (n - 1) as u16 },
    }
}

/// A chunk in a state of kind 0 to 6.
fn take_header(state: ChunkWalk, chunk: &[u8]) -> Told<CHUNK_NUMBERS> {
    let begun = Begun::of(state);
    let before = begun.bytes.len();
    let bytes = [&begun.bytes, &chunk[..chunk.len().min(LONGEST_HEADER)]].concat();
    match header(&bytes) {
        Whole((tag_len, len), n) => {
            let head = Some([begun.tag_number(&bytes[..tag_len]), len]);
            Ok(Tells { head, end: len == 0, taken: n - before }.numbers(in_value(len as usize)))
        }
        Cut => Ok(Tells::only(chunk.len()).numbers(begun.state(&bytes))),
        Unreadable(n) => Err((UNREADABLE, Tells::only(n - before).numbers(stopped(UNREADABLE)))),
    }
}

/// A chunk in any state.
pub fn take(state: ChunkWalk, chunk: &[u8]) -> Told<CHUNK_NUMBERS> {
    let missing = usize::from(state.number) + 1;
    match state.kind {
        0..=6 => take_header(state, chunk),
        7 if chunk.len() < missing => Ok(Tells::only(chunk.len()).numbers(in_value(missing - chunk.len()))),
        7 => Ok(Tells { head: None, end: true, taken: missing }.numbers(ChunkWalk::START)),
        8 => Err((END, Tells::only(0).numbers(stopped(END)))),
        _ => Err((UNREADABLE, Tells::only(0).numbers(stopped(UNREADABLE)))),
    }
}

/// The closing call in any state.
pub fn close(state: ChunkWalk) -> Told<CHUNK_NUMBERS> {
    let number = if matches!(state.kind, 0 | 8) { END } else { UNREADABLE };
    Err((number, Tells::only(0).numbers(stopped(number))))
}

/// Whether some record leads to a state, with these very numbers.
pub fn some_record_leads_to(state: ChunkWalk) -> bool {
    let ChunkWalk { kind, tag: number, number: further } = state;
    let bytes = number.to_be_bytes();
    let zeros = bytes[..3].iter().take_while(|&&byte| byte == 0).count();
    let bytes = &bytes[zeros..];
    let whole = matches!(tag(bytes), Whole((), n) if n == bytes.len());
    let cut = matches!(tag(bytes), Cut) && bytes.len() == usize::from(kind);
    match (kind, further) {
        (0 | 8 | 9, 0) => number == 0,
        (1 | 2, 0) => cut,
        (3..=5, 0) | (6, 0..=0xFF) => whole,
        (7, 0..=0xFFFE) => number == 0,
        _ => false,
    }
}
