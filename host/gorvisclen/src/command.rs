//! Commands that are read, and owned copies of them.

use crate::exported;

/// How many numbers `command` writes.
pub const COMMAND_NUMBERS: usize = 8;

/// How many numbers `command_owned` and `command_extend` write.
pub const OWNED_NUMBERS: usize = 7;

exported! {
    /// A command that is parsed, in 8 numbers: class byte; instruction byte; P1; P2; the place of its data in `apdu`
    /// (without data: 4, or 7 after an extended Lc of zero); their length; the expected length; whether it is extended,
    /// 0 or 1.
    /// Refusals: 1, 3, 4, 5, 16, and 21 in the standard reading.
    fn command(reading: u8, apdu: bytes, out: numbers);

    /// Copies the data of a command to the front of `to`. Writes one number: their length. Refusals: as for `command`.
    fn command_data(reading: u8, apdu: bytes, to: room, out: numbers);

    /// Makes an owned copy of a command. Copies its data to the front of `room`, and writes 7 numbers: class byte;
    /// instruction byte; P1; P2; the length of the data; the expected length; whether it is extended, 0 or 1.
    /// Refusals: 1, 3, 4, 5, 2, 16, and 21 in the standard reading.
    fn command_owned(reading: u8, apdu: bytes, room: room, out: numbers);

    /// Extends an owned command, whose data are the first `len` bytes of `room`, by the command `apdu`, which is parsed
    /// in the crate's reading. Writes the new data to `room` after the old ones, and the 7 numbers of `command_owned`:
    /// header and expected length are those of `apdu`; the length is that of the old and the new data together;
    /// extended is 1.
    /// Refusals: 1, 3, 4, 5, 16, 18.
    ///
    /// **With 18 the numbers are written too**: header and expected length are those of `apdu` and extended is 1, but
    /// the length is `len`, and `room` does not change. 18 is given exactly if the old and the new data together are
    /// longer than `room`, for every `len`.
    fn command_extend(len: usize, room: room, apdu: bytes, out: numbers);
}
