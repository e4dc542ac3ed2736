//! Application identifiers.

use crate::exported;

/// How many numbers `aid` and `aid_whole` write.
pub const AID_NUMBERS: usize = 9;

exported! {
    /// The AID with this name, in 9 numbers: its length; its truncated length; its category (0 international, 1
    /// national, 2 standard, 3 proprietary, 4 other); whether it is each of the first four, 0 or 1; the lengths of RID
    /// and PIX (or `NONE`).
    /// Refusals: 6 to 10, 16.
    fn aid(name: bytes, truncated_len: usize, out: numbers);

    /// The same 9 numbers for an AID that is not truncated. Refusals: 6, 7, 9, 10, 16.
    fn aid_whole(name: bytes, out: numbers);

    /// Copies a part of an AID to the front of `to`: 0 all its bytes, 1 the truncated part, 2 the RID, 3 and above the
    /// PIX. Writes one number: the length of the part, or `NONE` if there is none. Refusals: 6 to 10, 16.
    fn aid_part(name: bytes, truncated_len: usize, part: u8, to: room, out: numbers);

    /// Whether an AID is selected by a name, as one number, 0 or 1. Refusals: 6 to 10, 16.
    fn aid_matches(name: bytes, truncated_len: usize, selected: bytes, out: numbers);
}
