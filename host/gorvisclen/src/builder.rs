//! Commands to build: their length, their bytes, and whether they equal a command that is read.

use crate::exported;

/// The mode in which a command has short length only: extended length is unsupported.
pub const SHORT_ONLY: u8 = 0;

/// The mode in which extended length is supported, and used if it is needed.
pub const EXTENDED_SUPPORTED: u8 = 1;

/// The mode in which extended length is forced. Every larger number means the same.
pub const EXTENDED_FORCED: u8 = 2;

/// The largest expected length of a command to build, Max. Every larger number means the same.
pub const EXPECTED_MAX: u32 = 65_536;

exported! {
    /// The length of the command with this header (class byte, instruction byte, P1, P2), expected length, mode and
    /// data, as one number. Refusals: 3, 13, 16.
    fn required_len(header: header, le: u32, mode: u8, data: bytes, out: numbers);

    /// The length after extended length is forced, as one number. Refusals: 3, 13, 15 in the mode `SHORT_ONLY`, 16.
    fn force_extended(header: header, le: u32, mode: u8, data: bytes, out: numbers);

    /// Whether a command to build equals the command `apdu`, which is parsed in the crate's reading, as one number, 0
    /// or 1: header, data and expected length are the same. Here the mode does not lower the expected length, and Max
    /// counts as 65,535.
    /// Refusals: 3 and 13 for the command to build; 1, 3, 4, 5 for `apdu`; 16.
    fn builder_eq(header: header, le: u32, mode: u8, data: bytes, apdu: bytes, out: numbers);

    /// Writes the command into `buffer` from the place `at`. Writes one number: how many bytes it takes, the same as
    /// `required_len`.
    /// Refusals: 3; 13; 16 if they do not fit, for every `at`.
    fn serialize_into(header: header, le: u32, mode: u8, data: bytes, buffer: room, at: usize, out: numbers);
}
