//! A BER record that comes in chunks, walked as it comes, in the crate's reading, at the top level. No value is stored.
//! The caller keeps the state between the calls.

use crate::{call, reply, Reply};

/// How many numbers `ChunkWalk::take` and `ChunkWalk::close` write.
pub const CHUNK_NUMBERS: usize = 8;

/// The state of a walk. It depends on the bytes of the record so far, and not on how they were divided. By `kind`:
///
/// | kind | the walk is |
/// |---|---|
/// | 0 | at a boundary: no byte of an object is read |
/// | 1, 2 | in a tag, of which one or two bytes are read: `tag` is their number |
/// | 3 | after a tag: `tag` is its number |
/// | 4, 5 | after a tag and the first byte of its length, 81 or 82 |
/// | 6 | after a tag and two bytes of its length, 82 and `number` |
/// | 7 | in a value, of which `number` + 1 bytes are missing |
/// | 8 | stopped with 11 |
/// | 9 and above | stopped with 12 |
///
/// Fields that are not named for a kind mean nothing. Of `tag` only the lowest byte counts for kind 1, and the two
/// lowest for kind 2; of `number` only the low byte for kind 6. A call writes 0 for what does not count, and 9 for a
/// kind above 9. So any three numbers are a state, also those that no record leads to: for kinds 1 and 2 the next byte
/// is that of a tag, whatever `tag` is; for 3 to 6 all of `tag` is told; for 7, 65,536 bytes may be missing.
#[derive(Clone, Copy, Debug, PartialEq, Eq)]
pub struct ChunkWalk {
    pub kind: u8,
    pub tag: u32,
    pub number: u16,
}

impl ChunkWalk {
    /// Before the first byte of a record.
    pub const START: ChunkWalk = ChunkWalk { kind: 0, tag: 0, number: 0 };

    /// Takes bytes of a chunk up to the next reply, or all of them. Writes 8 numbers: 1 if a header is complete, else
    /// 0; 1 if a value is complete, else 0; the tag as one number, and the length of its value, if a header is
    /// complete, else 0 and 0; how many bytes of `chunk` were taken; the three numbers of the state after them, see
    /// `after`. If it is `Ok` and the first two numbers are 0, more bytes are needed, and all of `chunk` was taken. If
    /// one of them is 1, the rest of `chunk` is handed in next. A value of no bytes is complete with its header: then
    /// both are 1. What the bytes of a value are does not matter, and they are not read; nor are bytes that are not
    /// taken.
    /// Refusals: 11 and 12 if the walk has stopped, and then no byte is taken and the state stays; 12 if the header
    /// cannot be read, at the first byte that makes it so, which is taken; 16. With 11 and 12 the 8 numbers are written
    /// too: four zeros, how many bytes were taken, and the state. If `out` is too short, nothing is written, and 11 and
    /// 12 are replied before 16.
    #[inline]
    pub fn take(self, chunk: &[u8], out: &mut [u64]) -> Reply {
        reply(call!(take_chunk, u8 self.kind, u32 self.tag, u16 self.number, bytes chunk, numbers out))
    }

    /// Closes the walk, when no bytes come any more. Writes the same 8 numbers: five zeros, and the state, which has
    /// stopped with the number that is replied.
    /// Refusals: 11 at a boundary, or if the walk has stopped with 11; otherwise 12. If `out` is too short, nothing is
    /// written, and the same is replied.
    #[inline]
    pub fn close(self, out: &mut [u64]) -> Reply {
        reply(call!(close_chunks, u8 self.kind, u32 self.tag, u16 self.number, numbers out))
    }

    /// The state after a call, from the numbers that it wrote, with 11 and 12 too.
    #[inline]
    pub fn after(numbers: [u64; CHUNK_NUMBERS]) -> ChunkWalk {
        let [.., kind, tag, number] = numbers;
        ChunkWalk { kind: kind as u8, tag: tag as u32, number: number as u16 }
    }
}
