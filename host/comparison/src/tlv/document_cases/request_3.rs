//! Cases of request 3 of document 02: zero bytes between objects. The standard reading skips them; in the crate's
//! reading a zero byte is a tag.

use super::{LookupRow, ObjectRow, ZEROS, ZERO_VECTORS as VECTORS};

/// The sentences of request 3 for one object.
pub const OBJECTS: [ObjectRow; 25] = [
    // Only zero bytes: 11 at the end, from each place.
    (ZEROS, "00", 0, [Err((12, 0)), Err((11, 1))]),
    (ZEROS, "00 00", 0, [Ok([0, 0x00, 2, 0]), Err((11, 2))]),
    (ZEROS, "00 00 00", 0, [Ok([0, 0x00, 2, 0]), Err((11, 3))]),
    (ZEROS, "00 00 00", 1, [Ok([1, 0x00, 3, 0]), Err((11, 3))]),
    (ZEROS, "00 00 00", 2, [Err((12, 2)), Err((11, 3))]),
    (ZEROS, "00 00 00", 3, [Err((11, 3)); 2]),
    (ZEROS, "00 00 00", 4, [Err((11, 3)); 2]),
    (ZEROS, "C1 01 AA 00", 3, [Err((12, 3)), Err((11, 4))]),
    (ZEROS, "C1 01 AA 00 00", 3, [Ok([3, 0x00, 5, 0]), Err((11, 5))]),
    // The object's place is after the zero bytes, from each place before it.
    (ZEROS, "00 C1 01 AA", 0, [Err((12, 0)), Ok([1, 0xC1, 3, 1])]),
    (ZEROS, "00 C1 01 AA", 1, [Ok([1, 0xC1, 3, 1]); 2]),
    (ZEROS, "00 00 C1 01 AA", 0, [Ok([0, 0x00, 2, 0]), Ok([2, 0xC1, 4, 1])]),
    (ZEROS, "00 00 00 5F 24 01 AA", 1, [Ok([1, 0x00, 3, 0]), Ok([3, 0x5F24, 6, 1])]),
    (ZEROS, "C2 00 00 C1 01 AA", 1, [Ok([1, 0x00, 3, 0]), Ok([3, 0xC1, 5, 1])]),
    (ZEROS, "00 01 AA", 0, [Ok([0, 0x00, 2, 1]), Err((12, 1))]),
    (ZEROS, "00 01 01 00", 0, [Ok([0, 0x00, 2, 1]), Ok([1, 0x01, 3, 1])]),
    // So is the place of 12.
    (ZEROS, "00 5F", 0, [Err((12, 0)), Err((12, 1))]),
    (ZEROS, "00 00 5F", 0, [Ok([0, 0x00, 2, 0]), Err((12, 2))]),
    (ZEROS, "00 00 5F 1E 00", 1, [Err((12, 1)), Err((12, 2))]),
    (ZEROS, "00 00 C1, 00 00 C1 01, 00 00 C1 83", 0, [Ok([0, 0x00, 2, 0]), Err((12, 2))]),
    // A zero byte that is a length, or in a length, a tag or a value, is not skipped.
    (ZEROS, "C1 00, C1 00 00, C1 00 C2 00", 0, [Ok([0, 0xC1, 2, 0]); 2]),
    (ZEROS, "C1 82 00 01 00", 0, [Ok([0, 0xC1, 4, 1]); 2]),
    (ZEROS, "DF 81 00 00, DF 81 00 00 00", 0, [Ok([0, 0xDF8100, 4, 0]); 2]),
    (ZEROS, "C1 02 00 00, C1 02 00 AA, C1 02 AA 00", 0, [Ok([0, 0xC1, 2, 2]); 2]),
    (ZEROS, "5F 00 24 00, 5F 00", 0, [Err((12, 0)); 2]),
];

/// Two templates, one in the other, with zero bytes in front of each object and at each end.
const PADDED: &str = "00 E1 0D 00 00 E2 06 00 C1 02 00 AA 00 00 00 00 00";

/// The sentences of request 3, each with records of its own; and the vectors of its page. For most of them the page has
/// no answer of the crate's reading: it follows from document 01.
pub const LOOKUPS: [LookupRow; 43] = [
    (VECTORS, "00 C1 01 AA", &[0xC1], [Err((12, 0, 0)), Ok((3, &[0xAA], 1))]),
    (VECTORS, "00 00 00", &[0xC1], [Err((12, 2, 0)), Err((11, 3, 0))]),
    (VECTORS, "C1 01 AA 00 00", &[0xC2], [Err((11, 5, 0)); 2]),
    (VECTORS, "00 5F", &[0xC1], [Err((12, 0, 0)), Err((12, 1, 0))]),
    (VECTORS, "E1 05 00 C1 01 AA 00", &[0xE1, 0xC1], [Err((12, 2, 1)), Ok((5, &[0xAA], 2))]),
    (VECTORS, "E1 02 00 00", &[0xE1], [Ok((2, &[0x00, 0x00], 1)); 2]),
    // A zero byte is a tag in the crate's reading only. A lookup of 0 finds nothing in the standard reading.
    (ZEROS, "00", &[0x00], [Err((12, 0, 0)), Err((11, 1, 0))]),
    (ZEROS, "00 00", &[0x00], [Ok((2, &[], 1)), Err((11, 2, 0))]),
    (ZEROS, "00 01 AA", &[0x00], [Ok((2, &[0xAA], 1)), Err((12, 1, 0))]),
    (ZEROS, "5A 01 AA 00 01 BB", &[0x00], [Ok((5, &[0xBB], 1)), Err((12, 4, 0))]),
    (ZEROS, "C1 02 00 00", &[0x00], [Err((11, 4, 0)); 2]),
    (ZEROS, "C1 02 00 00", &[0xC1, 0x00], [Ok((4, &[], 2)), Err((11, 4, 1))]),
    (ZEROS, "00 02 C1 00", &[0x00, 0xC1], [Ok((4, &[], 2)), Err((12, 1, 0))]),
    // The readings agree on a lookup in spite of the zero bytes, or differ in what they find.
    (ZEROS, "00 00 C1 01 AA", &[0xC1], [Ok((4, &[0xAA], 1)); 2]),
    (ZEROS, "00 00 C1 01 AA", &[0xC2], [Err((11, 5, 0)); 2]),
    (ZEROS, "E1 04 00 00 C1 00", &[0xE1, 0xC1], [Ok((6, &[], 2)); 2]),
    (ZEROS, "00 02 C1 00 C1 01 AA", &[0xC1], [Ok((6, &[0xAA], 1)), Err((12, 1, 0))]),
    (ZEROS, "00 02 02 C1 00 C1 01 AA", &[0xC1], [Err((12, 4, 0)), Ok((7, &[0xAA], 1))]),
    // Zero bytes in front, between and after, also in an entered value. Only zero bytes to the end are 11 at the end.
    (ZEROS, "00 00 00 C1 01 AA", &[0xC1], [Err((12, 2, 0)), Ok((5, &[0xAA], 1))]),
    (ZEROS, "C1 00 00 00 C2 01 AA", &[0xC2], [Ok((6, &[0xAA], 1)); 2]),
    (ZEROS, "C1 00 00 C2 01 AA", &[0xC2], [Err((12, 2, 0)), Ok((5, &[0xAA], 1))]),
    (ZEROS, "C1 01 AA 00", &[0xC2], [Err((12, 3, 0)), Err((11, 4, 0))]),
    (ZEROS, "C1 01 AA 00 00 00", &[0xC2], [Err((12, 5, 0)), Err((11, 6, 0))]),
    (ZEROS, "E1 01 00", &[0xE1, 0xC1], [Err((12, 2, 1)), Err((11, 3, 1))]),
    (ZEROS, "E1 01 00 C1 00", &[0xE1, 0xC1], [Err((12, 2, 1)), Err((11, 3, 1))]),
    (ZEROS, "E1 00 00 C1 00", &[0xE1, 0xC1], [Err((11, 2, 1)); 2]),
    (ZEROS, "E1 03 C1 00 00 00 00", &[0xE1, 0xC2], [Err((12, 4, 1)), Err((11, 5, 1))]),
    // A value that is found keeps its zero bytes.
    (ZEROS, "C1 02 00 AA", &[0xC1], [Ok((2, &[0x00, 0xAA], 1)); 2]),
    (ZEROS, "C1 03 00 00 00 00", &[0xC1], [Ok((2, &[0x00, 0x00, 0x00], 1)); 2]),
    (ZEROS, "00 C1 00 00", &[], [Ok((0, &[0x00, 0xC1, 0x00, 0x00], 0)); 2]),
    (ZEROS, PADDED, &[0xE1, 0xE2], [Err((12, 0, 0)), Ok((7, &[0x00, 0xC1, 0x02, 0x00, 0xAA, 0x00], 2))]),
    (ZEROS, PADDED, &[0xE1, 0xE2, 0xC1], [Err((12, 0, 0)), Ok((10, &[0x00, 0xAA], 3))]),
    (ZEROS, PADDED, &[0xE1, 0xE2, 0xC1, 0xAA], [Err((12, 0, 0)), Err((12, 11, 3))]),
    (ZEROS, PADDED, &[0xE1, 0xE2, 0xC2], [Err((12, 0, 0)), Err((11, 13, 2))]),
    (ZEROS, PADDED, &[0xE1, 0xC2], [Err((12, 0, 0)), Err((11, 16, 1))]),
    (ZEROS, PADDED, &[0xC2], [Err((12, 0, 0)), Err((11, 17, 0))]),
    // 12 after zero bytes is at the first byte that is not zero.
    (ZEROS, "C1 00 00 00 5F", &[0xC2], [Err((12, 4, 0)); 2]),
    (ZEROS, "C1 00 00 5F 80", &[0xC2], [Err((12, 2, 0)), Err((12, 3, 0))]),
    (ZEROS, "E1 03 00 C1 05 C1 00", &[0xE1, 0xC1], [Err((12, 2, 1)), Err((12, 3, 1))]),
    (ZEROS, "E1 05 E2 03 00 00 5F", &[0xE1, 0xE2, 0xC1], [Err((12, 6, 2)); 2]),
    // Zero bytes between a tag and its length are a length and, maybe, more to skip.
    (ZEROS, "C1 00 01 AA", &[0xC1], [Ok((2, &[], 1)); 2]),
    (ZEROS, "C1 00 01 AA", &[0xC2], [Err((12, 2, 0)); 2]),
    (ZEROS, "C1 00 00 01 AA", &[0xC2], [Err((11, 5, 0)), Err((12, 3, 0))]),
];

/// A tag, a value in hex, and the object that is written, in hex. Request 3 does not change the writer.
pub const WRITTEN: [(u32, &str, &str); 5] = [
    (0x00_0000, "", "00 00"),
    (0x00_0000, "AA", "00 01 AA"),
    (0x00_00C1, "00 00", "C1 02 00 00"),
    (0x5F_0000, "", "5F 00 00 00"),
    (0xDF_8100, "00", "DF 81 00 01 00"),
];
