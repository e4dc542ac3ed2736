//! What a card says back: data and two status bytes.

use crate::exported;

/// How many numbers `response_split` and `response_append` write.
pub const RESPONSE_NUMBERS: usize = 3;

/// How many numbers `status` writes.
pub const STATUS_NUMBERS: usize = 3;

/// How many words are listed, each with a name: 6700, 6881 to 6884, 6981 to 6986, 6A80 to 6A84, 6A86, 6A88, 6B00, 6D00,
/// 6E00.
pub const LISTED_WORDS: usize = 21;

/// The classes of a status word. Normal: 9000 and 61xx.
pub const NORMAL: u64 = 0;

/// A warning: 62xx and 63xx.
pub const WARNING: u64 = 1;

/// An execution error: 64xx to 66xx.
pub const EXECUTION_ERROR: u64 = 2;

/// A checking error: 67xx to 6Fxx.
pub const CHECKING_ERROR: u64 = 3;

/// The class of every other word.
pub const UNKNOWN: u64 = 4;

exported! {
    /// Splits a response, in 3 numbers: how many bytes at its front are data; SW1; SW2. Refusals: 16, 22.
    fn response_split(response: bytes, out: numbers);

    /// Copies the data of a response to the front of `to`. Writes one number: their length. Refusals: 16, 22.
    fn response_data(response: bytes, to: room, out: numbers);

    /// Appends the data of a response to the first `held` bytes of `room`. Writes 3 numbers: how many bytes are held
    /// now; SW1; SW2.
    /// Refusals: 16; 22; 23 if the held and the new data together are longer than `room`, for every `held`.
    fn response_append(response: bytes, held: usize, room: room, out: numbers);

    /// A status, in 3 numbers: the word, 256 times SW1 plus SW2; its class (`NORMAL` to `UNKNOWN`); its place among the
    /// `LISTED_WORDS`, from 0 in the order of the words, or `NONE` if it is not listed. Refusal: 16.
    fn status(sw1: u8, sw2: u8, out: numbers);

    /// Copies the name of a status to the front of `to`, in ASCII: that of its variant of iso7816's `Status`. Writes
    /// one number: its length, at most 32. A word that is not listed has no name: no byte is copied, and the number is
    /// 0. Refusal: 16.
    fn status_name(sw1: u8, sw2: u8, to: room, out: numbers);
}
