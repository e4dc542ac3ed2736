//! Cases with their bytes and answers from document 01.

use gorvisclen::EXPECTED_MAX;

use super::field_values::MODES;
use super::input::BuilderInput;
use super::operations::{equals, serialize_into};
use crate::answer::Writes;
use crate::call::Call;
use crate::loops::pairs;
use crate::tally::Tally;

const SERIALIZED: &str = "CommandBuilder::serialize_into, case by case (checked against document 01)";
const COMPARED: &str = "CommandBuilder == CommandView, case by case (checked against document 01)";

const HEADER: [u8; 4] = [0x00, 0xCA, 0x5F, 0x24];

/// The mode, how many data bytes, the field Lc; then expected lengths, each with its field Le.
type Row = (u8, usize, &'static [u8], &'static [(u32, &'static [u8])]);

const ROWS: [Row; 16] = [
    (0, 0, &[], &[(0, &[]), (255, &[0xFF]), (256, &[0]), (257, &[0]), (65_536, &[0])]),
    (0, 1, &[1], &[(0, &[]), (256, &[0]), (258, &[0]), (65_536, &[0])]),
    (0, 255, &[255], &[(0, &[]), (256, &[0])]),
    // From 256 bytes on the lengths are extended, although Le is lowered.
    (0, 256, &[0, 1, 0], &[(0, &[]), (5, &[0, 5]), (257, &[1, 0])]),
    (0, 65_535, &[0, 0xFF, 0xFF], &[(65_536, &[1, 0])]),
    (
        1,
        0,
        &[],
        &[(0, &[]), (1, &[1]), (256, &[0]), (257, &[0, 1, 1]), (65_535, &[0, 0xFF, 0xFF]), (65_536, &[0, 0, 0])],
    ),
    (1, 1, &[1], &[(0, &[]), (255, &[0xFF]), (256, &[0])]),
    (1, 1, &[0, 0, 1], &[(257, &[1, 1]), (65_536, &[0, 0])]),
    (1, 255, &[255], &[(0, &[]), (256, &[0])]),
    (1, 255, &[0, 0, 255], &[(257, &[1, 1])]),
    (1, 256, &[0, 1, 0], &[(0, &[]), (1, &[0, 1]), (256, &[1, 0])]),
    (1, 65_535, &[0, 0xFF, 0xFF], &[(0, &[]), (65_536, &[0, 0])]),
    (2, 0, &[], &[(0, &[]), (1, &[0, 0, 1]), (256, &[0, 1, 0]), (65_536, &[0, 0, 0])]),
    (2, 1, &[0, 0, 1], &[(0, &[]), (1, &[0, 1]), (256, &[1, 0])]),
    (2, 255, &[0, 0, 255], &[(0, &[]), (65_536, &[0, 0])]),
    (2, 256, &[0, 1, 0], &[(1, &[0, 1])]),
];

/// Compares the bytes of commands in each mode.
pub fn serialized(tally: &mut Tally) {
    let data = vec![0xAA; 65_535];
    for (mode, n, lc, les) in ROWS {
        for &(expected, le) in les {
            let (at, command) = (2, [&HEADER, lc, &data[..n], le].concat());
            let len = command.len();
            let answer = Ok(Writes::new([len as u64], at, command));
            let input = BuilderInput::new(HEADER, expected, mode, &data[..n]);
            serialize_into(input, at).compare_with_table(tally, SERIALIZED, &answer, len + 4);
        }
    }
}

/// Compares equality by the expected length: it is not lowered, and Max is 65,535. That of the command read is at least
/// 257.
pub fn compared(tally: &mut Tally) {
    let rows = [
        (257, [1, 1], true),
        (257, [1, 2], false),
        (65_535, [0xFF, 0xFF], true),
        (65_535, [0, 0], false),
        (EXPECTED_MAX, [0xFF, 0xFF], true),
        (EXPECTED_MAX, [0, 0], false),
        (EXPECTED_MAX, [1, 0], false),
    ];
    for (mode, (le, read, equal)) in pairs(MODES, rows) {
        let without = [&HEADER, &[0][..], &read].concat();
        let with = [&HEADER, &[0, 0, 1, 0xAA][..], &read].concat();
        for (data, apdu, equal) in [(&[][..], &without, equal), (&[0xAA], &with, equal), (&[0xAB], &with, false)] {
            let input = BuilderInput::new(HEADER, le, mode, data);
            equals(input, apdu).compare_with_table(tally, COMPARED, &Ok([equal.into()].into()), 0);
        }
    }
}
