//! BER records that are read and written.

use crate::exported;

/// How many numbers `take_tag` writes.
pub const TAG_NUMBERS: usize = 2;

/// How many numbers `take_len` writes.
pub const LEN_NUMBERS: usize = 2;

/// How many numbers `take_data_object` writes.
pub const OBJECT_NUMBERS: usize = 4;

/// How many numbers `get_data_object` and `value` write.
pub const LOOKUP_NUMBERS: usize = 3;

exported! {
    /// The tag at the front of `bytes`, in 2 numbers: its bytes as one big-endian number; how many bytes it has.
    /// Refusals: 11 if there are no bytes, 12, 16. No zero bytes are skipped here: in the standard reading it is 12 if
    /// the first byte is 00.
    fn take_tag(reading: u8, bytes: bytes, out: numbers);

    /// The length at the front of `bytes`, in 2 numbers: the length; how many bytes it takes. In both readings the byte
    /// 00 is the length 0.
    /// Refusals: 12, also if there are no bytes; 16.
    fn take_len(reading: u8, bytes: bytes, out: numbers);

    /// The object at the place `at` of `record`, in 4 numbers: the place of the object; its tag as one number; the
    /// place of its value; the length of the value. Places count from the start of `record`. The next object is read
    /// from the sum of the value's place and length. The standard reading first skips all zero bytes from `at` on. The
    /// place of the object is that of its first byte, after them.
    /// Refusals: 11 if no byte is left at that place, or in the standard reading only zero bytes; 12; 16. With 11 and
    /// 12 the 4 numbers are written too: the place of the end or of the object that cannot be read, then three zeros.
    /// The place of the end is the length of `record`, also after zero bytes, and also if `at` is greater. The place of
    /// the object is that of its first byte, after the zero bytes that were skipped. If `out` is too short, nothing is
    /// written, and 11 and 12 are replied before 16.
    fn take_data_object(reading: u8, record: bytes, at: usize, out: numbers);

    /// Looks up the value at a path of tags, in 3 numbers: its place in `record`; its length; how many tags matched,
    /// which is all of them. Each tag is one number; a number that is no tag matches nothing. At each level the first
    /// object with the tag is entered, primitive or not. An empty path gives the whole record: place 0, its length,
    /// no tag. At each level the standard reading skips the zero bytes in front of each object and after the last one;
    /// so the number 0 matches nothing there. The value that is found keeps its zero bytes.
    /// Refusals: 11 if the end of a level is reached without the tag; 12 if an object before that cannot be read, also
    /// one that runs past the value entered; 16. With 11 and 12 the 3 numbers are written too: the place in `record` of
    /// the end of that level, or of the object that cannot be read; 0; how many tags matched before. The end of the
    /// first level is the end of `record`; of a later one, that of the value entered last. Zero bytes that were skipped
    /// are before these places. If `out` is too short, nothing is written, and 11 and 12 are replied before 16.
    fn get_data_object(reading: u8, record: bytes, path: tags, out: numbers);

    /// Looks up the value at a path of tags, copies it to the front of `to`, and writes the 3 numbers of
    /// `get_data_object`.
    /// Refusals: as for `get_data_object`, with the same numbers, whatever `to` is; also 16 if the value does not fit
    /// into `to`, and then nothing is written. `to` changes only if the value is copied.
    fn value(reading: u8, record: bytes, path: tags, to: room, out: numbers);

    /// Writes an object into `buffer` from the place `at`: the bytes of its tag without leading zero bytes (the last
    /// byte always stays); its length in the shortest form; the value. Writes one number: how many bytes these are. The
    /// tag 000000 is written as 00, which only the crate's reading reads back.
    /// Refusals: 19; then 16 if they do not fit, for every `at`, or if `out` is too short.
    fn put_data_object(tag: tag, value: bytes, buffer: room, at: usize, out: numbers);
}
