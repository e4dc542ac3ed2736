//! Cases with their answers from request 6 of document 02, and the vectors of its page: what is told of chunks, joined,
//! and the state after them; then single calls, number by number.

use gorvisclen::{ChunkWalk, CHUNK_NUMBERS};

use super::operations::{close, take};
use super::player::{compare_joined, Player};
use super::told::Event::{self, End, Head, Refused};
use super::told::Joined;
use crate::answer::Told;
use crate::call::Call;
use crate::hex::unhex;
use crate::tally::Tally;

const CASES: &str = "a record in chunks, case by case (checked against document 02)";
const VECTORS: &str = "the vectors of request 6 (checked against the request's page)";
const ROWS: &str = "chunks: one call, number by number (checked against a table)";

const fn state(kind: u8, tag: u32, number: u16) -> ChunkWalk {
    ChunkWalk { kind, tag, number }
}

/// States after all bytes: at a boundary, and stopped with 12.
const BOUNDARY: ChunkWalk = state(0, 0, 0);
const STOPPED: ChunkWalk = state(9, 0, 0);

/// The label of a case, its chunks in hex with bars between them, what is told, and the state before closing.
type Row = (&'static str, &'static str, &'static [Event], ChunkWalk);

const SESSIONS: [Row; 59] = [
    (VECTORS, "C1 01 AA", &[Head(0xC1, 1), End, Refused(11)], BOUNDARY),
    (VECTORS, "C1 | 01 | | AA", &[Head(0xC1, 1), End, Refused(11)], BOUNDARY),
    (VECTORS, "C1 00", &[Head(0xC1, 0), End, Refused(11)], BOUNDARY),
    (VECTORS, "5F | 24 | 00", &[Head(0x5F24, 0), End, Refused(11)], BOUNDARY),
    (VECTORS, "C1 83 | 00", &[Refused(12)], STOPPED),
    (VECTORS, "C1 02 AA", &[Head(0xC1, 2), Refused(12)], state(7, 0, 0)),
    (VECTORS, "", &[Refused(11)], BOUNDARY),
    (VECTORS, "C1 82 | | 00", &[Refused(12)], state(6, 0xC1, 0x00)),
    // Chunks of no bytes are no end, and tell nothing.
    (CASES, "|", &[Refused(11)], BOUNDARY),
    (CASES, "| C1 00 |", &[Head(0xC1, 0), End, Refused(11)], BOUNDARY),
    (CASES, "C1 | | | 01 | | | AA", &[Head(0xC1, 1), End, Refused(11)], BOUNDARY),
    (CASES, "C1 |", &[Refused(12)], state(3, 0xC1, 0)),
    // A header that is complete at the end of a chunk is told there, once.
    (CASES, "C1 01 | AA", &[Head(0xC1, 1), End, Refused(11)], BOUNDARY),
    (CASES, "C1 01 | | | AA", &[Head(0xC1, 1), End, Refused(11)], BOUNDARY),
    (CASES, "C1 01", &[Head(0xC1, 1), Refused(12)], state(7, 0, 0)),
    // So is the end of a value: not only when the next byte comes.
    (CASES, "C1 02 AA | BB | C2 00", &[Head(0xC1, 2), End, Head(0xC2, 0), End, Refused(11)], BOUNDARY),
    (CASES, "C1 02 AA | BB C2 | 00", &[Head(0xC1, 2), End, Head(0xC2, 0), End, Refused(11)], BOUNDARY),
    (CASES, "C1 00 | C2 01 | AA", &[Head(0xC1, 0), End, Head(0xC2, 1), End, Refused(11)], BOUNDARY),
    (CASES, "C1 00 C1 00 C1", &[Head(0xC1, 0), End, Head(0xC1, 0), End, Refused(12)], state(3, 0xC1, 0)),
    // Tags of one, two and three bytes, cut at each place.
    (CASES, "5F", &[Refused(12)], state(1, 0x5F, 0)),
    (CASES, "5F 24", &[Refused(12)], state(3, 0x5F24, 0)),
    (CASES, "DF | 81", &[Refused(12)], state(2, 0xDF81, 0)),
    (CASES, "DF 81 | 01", &[Refused(12)], state(3, 0xDF8101, 0)),
    (CASES, "DF | 81 | 01 | 00", &[Head(0xDF8101, 0), End, Refused(11)], BOUNDARY),
    // Crate reading: 5F 1E and 5F FF are tags; a third byte may be 80 and FF; 00 is a tag, and nothing is skipped.
    (CASES, "5F | 1E | 00", &[Head(0x5F1E, 0), End, Refused(11)], BOUNDARY),
    (CASES, "5F | FF 00", &[Head(0x5FFF, 0), End, Refused(11)], BOUNDARY),
    (CASES, "5F 7F | 00", &[Head(0x5F7F, 0), End, Refused(11)], BOUNDARY),
    (CASES, "FF FE | 80 00", &[Head(0xFFFE80, 0), End, Refused(11)], BOUNDARY),
    (CASES, "1F 81 | FF | 00", &[Head(0x1F81FF, 0), End, Refused(11)], BOUNDARY),
    (CASES, "00 | 00", &[Head(0x00, 0), End, Refused(11)], BOUNDARY),
    (CASES, "00", &[Refused(12)], state(3, 0x00, 0)),
    (CASES, "00 C1 | 00", &[Refused(12)], STOPPED),
    (CASES, "1E 00", &[Head(0x1E, 0), End, Refused(11)], BOUNDARY),
    // Lengths of one, two and three bytes, cut at each place, and not the shortest ones.
    (CASES, "C1 | 7F", &[Head(0xC1, 127), Refused(12)], state(7, 0, 126)),
    (CASES, "C1 81", &[Refused(12)], state(4, 0xC1, 0)),
    (CASES, "C1 | 81 | 00", &[Head(0xC1, 0), End, Refused(11)], BOUNDARY),
    (CASES, "C1 81 | 01 AA", &[Head(0xC1, 1), End, Refused(11)], BOUNDARY),
    (CASES, "C1 81 | FF", &[Head(0xC1, 255), Refused(12)], state(7, 0, 254)),
    (CASES, "C1 82", &[Refused(12)], state(5, 0xC1, 0)),
    (CASES, "5F 24 82 | FF", &[Refused(12)], state(6, 0x5F24, 0xFF)),
    (CASES, "C1 82 | 00 | 00", &[Head(0xC1, 0), End, Refused(11)], BOUNDARY),
    (CASES, "C1 82 00 | 01 AA", &[Head(0xC1, 1), End, Refused(11)], BOUNDARY),
    (CASES, "C1 82 01 | 02", &[Head(0xC1, 258), Refused(12)], state(7, 0, 257)),
    (CASES, "DF 81 01 82 FF | FF | 00 00", &[Head(0xDF8101, 65_535), Refused(12)], state(7, 0, 65_532)),
    // 12 comes at the first byte that makes a header unreadable, and nothing after it counts.
    (CASES, "5F | 00", &[Refused(12)], STOPPED),
    (CASES, "5F 1D 00", &[Refused(12)], STOPPED),
    (CASES, "5F | 80 | 00", &[Refused(12)], STOPPED),
    (CASES, "5F 81 | 81", &[Refused(12)], STOPPED),
    (CASES, "5F 81 FE 00", &[Refused(12)], STOPPED),
    (CASES, "C1 | 80", &[Refused(12)], STOPPED),
    (CASES, "C1 83", &[Refused(12)], STOPPED),
    (CASES, "C1 FF | C1 00", &[Refused(12)], STOPPED),
    (CASES, "5F 24 84 | C1 00 | C2 00", &[Refused(12)], STOPPED),
    (CASES, "C1 00 C1 80 C1 00", &[Head(0xC1, 0), End, Refused(12)], STOPPED),
    (CASES, "C1 01 AA 5F | 80 | C1 00", &[Head(0xC1, 1), End, Refused(12)], STOPPED),
    // The top level only, and no byte of a value is looked at.
    (CASES, "E1 04 C1 02 | AA BB", &[Head(0xE1, 4), End, Refused(11)], BOUNDARY),
    (CASES, "C1 02 5F | 80 C2 00", &[Head(0xC1, 2), End, Head(0xC2, 0), End, Refused(11)], BOUNDARY),
    (CASES, "C1 03 00 83 | C1", &[Head(0xC1, 3), End, Refused(11)], BOUNDARY),
    (CASES, "C1 02 C1 | 83 C1 83", &[Head(0xC1, 2), End, Refused(12)], STOPPED),
];

/// The chunks, handed in, closed, and some calls more.
fn sessions(tally: &mut Tally) {
    let mut player = Player::new();
    for (label, digits, events, state) in SESSIONS {
        let chunks: Vec<Vec<u8>> = digits.split('|').map(unhex).collect();
        let ours = player.play(chunks.iter().map(|chunk| &chunk[..]));
        compare_joined(tally, (label, &[]), || digits.to_string(), &Joined::new(events, state), ours);
    }
}

/// A state, a chunk in hex, and what is told.
type CallRow = (ChunkWalk, &'static str, Told<CHUNK_NUMBERS>);

const CALLS: [CallRow; 26] = [
    (BOUNDARY, "", Ok([0, 0, 0, 0, 0, 0, 0, 0])),
    (BOUNDARY, "C1", Ok([0, 0, 0, 0, 1, 3, 0xC1, 0])),
    (BOUNDARY, "C1 82 00", Ok([0, 0, 0, 0, 3, 6, 0xC1, 0x00])),
    (BOUNDARY, "C1 01 AA", Ok([1, 0, 0xC1, 1, 2, 7, 0, 0])),
    (BOUNDARY, "C1 00 C1 00", Ok([1, 1, 0xC1, 0, 2, 0, 0, 0])),
    (BOUNDARY, "DF 81 01 82 FF FF 00", Ok([1, 0, 0xDF8101, 65_535, 6, 7, 0, 65_534])),
    (BOUNDARY, "C1 83 00", Err((12, [0, 0, 0, 0, 2, 9, 0, 0]))),
    (BOUNDARY, "5F 1D", Err((12, [0, 0, 0, 0, 2, 9, 0, 0]))),
    (BOUNDARY, "5F 81 81 00", Err((12, [0, 0, 0, 0, 3, 9, 0, 0]))),
    (state(1, 0x5F, 0), "24 00", Ok([1, 1, 0x5F24, 0, 2, 0, 0, 0])),
    (state(1, 0x5F, 0), "80 00", Err((12, [0, 0, 0, 0, 1, 9, 0, 0]))),
    (state(2, 0xDF81, 0), "01", Ok([0, 0, 0, 0, 1, 3, 0xDF8101, 0])),
    (state(3, 0x5F24, 0), "", Ok([0, 0, 0, 0, 0, 3, 0x5F24, 0])),
    (state(3, 0x5F24, 0), "82", Ok([0, 0, 0, 0, 1, 5, 0x5F24, 0])),
    (state(4, 0x5F24, 0), "FF AA", Ok([1, 0, 0x5F24, 255, 1, 7, 0, 254])),
    (state(6, 0x5F24, 0x01), "00", Ok([1, 0, 0x5F24, 256, 1, 7, 0, 255])),
    (state(7, 0, 0), "AA C1", Ok([0, 1, 0, 0, 1, 0, 0, 0])),
    (state(7, 0, 2), "AA AA", Ok([0, 0, 0, 0, 2, 7, 0, 0])),
    (state(8, 0, 0), "C1 00", Err((11, [0, 0, 0, 0, 0, 8, 0, 0]))),
    (STOPPED, "C1 00", Err((12, [0, 0, 0, 0, 0, 9, 0, 0]))),
    // Fields that mean nothing are not looked at, and written as 0.
    (state(0, 0xC1, 7), "", Ok([0, 0, 0, 0, 0, 0, 0, 0])),
    (state(1, 0xC1_5F, 7), "", Ok([0, 0, 0, 0, 0, 1, 0x5F, 0])),
    (state(2, 0xC1_DF81, 7), "", Ok([0, 0, 0, 0, 0, 2, 0xDF81, 0])),
    (state(6, 0xC1, 0x0102), "03", Ok([1, 0, 0xC1, 0x0203, 1, 7, 0, 0x0202])),
    (state(7, 0xC1, 1), "AA", Ok([0, 0, 0, 0, 1, 7, 0, 0])),
    (state(255, 0xC1, 1), "AA", Err((12, [0, 0, 0, 0, 0, 9, 0, 0]))),
];

/// Single calls; then the closing call in each kind of state.
pub fn compare(tally: &mut Tally) {
    sessions(tally);
    for (state, digits, told) in CALLS {
        take(state, &unhex(digits)).compare_with_table(tally, ROWS, &Ok(told.into()), 0);
    }
    for kind in 0..=255 {
        let (number, stopped) = if matches!(kind, 0 | 8) { (11, 8) } else { (12, 9) };
        let told = Err((number, [0, 0, 0, 0, 0, stopped, 0, 0]));
        close(state(kind, 0, 0)).compare_with_table(tally, ROWS, &Ok(told.into()), 0);
    }
}
