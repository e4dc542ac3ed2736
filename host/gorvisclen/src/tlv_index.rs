//! The index of a BER record: its top-level objects, listed once, in the crate's reading. It is kept as the bytes of a
//! file. A lookup through it finds the first level in the list and walks only the value that is entered.
//!
//! The file has four sections in this order, each after its count of entries in two bytes: tags (three bytes each,
//! zeros in front), places of the values (two bytes), lengths of the values (two bytes), and the end (one entry: 11 or
//! 12, then its place, two bytes each). All numbers are big-endian. With n objects that is 7n + 12 bytes.

use crate::exported;

/// How many numbers `build_index` and `check_index` write.
pub const INDEX_NUMBERS: usize = 1;

/// The most bytes that an index has, that of 255 objects. A buffer of this length has room for every index.
pub const INDEX_BYTES: usize = 1_797;

exported! {
    /// Builds the index of `record` and writes it into `buffer` from the place `at`. Writes one number: how many bytes
    /// it has. It lists all top-level objects in their order, each of those with the same tag too, up to the end of the
    /// record (11) or the first object that cannot be read (12); the end of the list says which of the two it is, and
    /// its place. So an empty or damaged record has an index.
    /// Refusals: 16 if `out` is too short; 24 if `record` is above 65,535 bytes, or if more than 255 objects can be
    /// read; then 16 if the bytes do not fit, for every `at`.
    fn build_index(record: bytes, buffer: room, at: usize, out: numbers);

    /// Checks that the bytes of a file have the form of an index: the first three counts are equal and at most 255, the
    /// fourth is 1, the end's reason is 11 or 12, and no byte is missing or behind. Any tags, places and lengths will
    /// do. Writes one number: how many objects it lists.
    /// Refusals: 16, 25.
    fn check_index(file: bytes, out: numbers);

    /// Looks up the value at a path of tags through an index, in the 3 numbers of `get_data_object`. If `file` is the
    /// index of `record`, reply and numbers are those of `get_data_object` in the crate's reading. No byte of `record`
    /// is read outside of the value of the entry that is used: the first one in `file` with the first number of the
    /// path, also if that number is no tag. In that value the other tags are looked up. If no entry has the number, the
    /// end's entry is used: the reply is its reason, with its place. An empty path gives the whole record, and uses no
    /// entry. A record of any length will do.
    /// Refusals: 25 if `file` has another form, for every path; 25 if the entry that is used lies outside of `record`:
    /// the sum of its place and length, or the place of the end, is greater than the length of `record`; 11, 12 and 16
    /// as for `get_data_object`. With 11 and 12 the 3 numbers are written too. If `out` is too short, nothing is
    /// written, and 11 and 12 are replied before 16, but 25 is not.
    fn get_indexed(file: bytes, record: bytes, path: tags, out: numbers);
}
