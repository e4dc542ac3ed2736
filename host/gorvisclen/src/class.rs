//! The class byte of a command.

use crate::exported;

/// How many numbers `class` and `class_as_chained` write.
pub const CLASS_NUMBERS: usize = 11;

/// How many numbers `class_constants` writes.
pub const CLASS_CONSTANTS: usize = 3;

exported! {
    /// The class of a byte, in 11 numbers:
    ///
    /// - `out[0]`: the byte
    /// - `out[1]`: its range: 0 first interindustry, 1 further interindustry, 2 reserved, 3 proprietary
    /// - `out[2]`, `out[3]`: secure messaging in the crate's reading and in the standard reading: 0 none,
    ///   1 proprietary, 2 standard, 3 authenticated, 4 unknown
    /// - `out[4]`, `out[5]`: whether these two are none
    /// - `out[6]`: the chain: 0 last or only, 1 not the last, 2 unknown
    /// - `out[7]`, `out[8]`: whether it is last or only, and whether it is not the last
    /// - `out[9]`, `out[10]`: the channel in the crate's reading and in the standard reading, or `NONE`
    ///
    /// Refusals: 3, 16.
    fn class(cla: u8, out: numbers);

    /// The same 11 numbers for the class with its chaining bit set. Refusals: 3, 16.
    fn class_as_chained(cla: u8, out: numbers);

    /// The range of a class byte, as one number. Refusals: 3, 16.
    fn range(cla: u8, out: numbers);

    /// The class bytes of three constants, in 3 numbers: ZERO_CLA, NO_SM_CLA, SM_CLA. Refusal: 16.
    fn class_constants(out: numbers);
}
