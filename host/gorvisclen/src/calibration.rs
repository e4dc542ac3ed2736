//! The calibration profile: the record that each balance carries. Its bytes are exactly
//!
//! ```text
//! E1 (n + 14)  C1 n serial(n)  C2 04 year year month day  C3 04 capacity(4)
//! ```
//!
//! with a serial of 1 to 16 bytes, so 17 to 32 bytes in all. Serial: any bytes. Due date: eight digits of packed
//! decimal, four of the year, two of the month, two of the day; a real date of the Gregorian calendar in the years 2000
//! to 2099. Capacity: a big-endian number of milligrams. Nothing stands before, between or behind, and no length takes
//! more than a byte: a record is not searched for its tags.
//!
//! A date is handed in as `[year, month, day]`; any three numbers are.
//!
//! The form is tested whole first (26), then the date (27). If `out` is too short, nothing is written, and 16 is
//! replied in place of 26 and 27.

use crate::exported;

/// How many numbers `read_profile` writes.
pub const PROFILE_NUMBERS: usize = 5;

/// How many numbers `profile_serial`, `due_shown`, `has_lapsed` and `put_profile` write.
pub const CALIBRATION_NUMBERS: usize = 1;

/// How many numbers `due_shown_from` writes.
pub const SHOWN_NUMBERS: usize = 2;

/// The most bytes that a record has, that of a serial of 16 bytes.
pub const PROFILE_BYTES: usize = 32;

/// How many bytes a due date has.
pub const DUE_BYTES: usize = 4;

/// Whose due date is shown: the first number of `due_shown_from`.
pub const CARD: u64 = 0;
pub const DESK: u64 = 1;

exported! {
    /// Reads a record. Writes 5 numbers: how many bytes the serial has (it starts at place 4), the year, the month and
    /// the day of the due date, and the capacity in milligrams.
    /// Refusals: 16, 26, 27.
    fn read_profile(record: bytes, out: numbers);

    /// Copies the serial of a record to the front of `to`. Writes one number: how many bytes it has.
    /// Refusals: 16 if `out` is too short; 26, 27; then 16 if `to` is too short.
    fn profile_serial(record: bytes, to: room, out: numbers);

    /// Whether the calibration has lapsed on a given date: whether the due date is earlier, by the calendar. On the due
    /// date itself it has not lapsed. Writes one number: 1 if it has lapsed, 0 if not.
    /// Refusals: 16 if `out` is too short; 26, 27 of the record; 27 if there is no such date as the given one, or it is
    /// not in the years 2000 to 2099.
    fn has_lapsed(record: bytes, date: date, out: numbers);

    /// Copies the four bytes of the due date shown to the front of `to`: that of the card's record or, if this is
    /// refused with 26 or 27, that of the desk's. Writes one number: 4.
    /// Refusals: 16 if `out` is too short; if both are refused, the desk's refusal, 26 or 27; then 16 if `to` is too
    /// short.
    fn due_shown(card: bytes, desk: bytes, to: room, out: numbers);

    /// Tells whose due date is shown. Writes 2 numbers: `CARD` or `DESK`, and the place of the four bytes in that
    /// record.
    /// Refusals: 16 if `out` is too short; if both are refused, the desk's refusal, 26 or 27.
    fn due_shown_from(card: bytes, desk: bytes, out: numbers);

    /// Writes the record of a serial, a due date and a capacity in milligrams into `buffer` from the place `at`. Writes
    /// one number: how many bytes it has.
    /// Refusals: 16 if `out` is too short; 26 if the serial has no bytes or more than 16; 27 if there is no such date,
    /// or it is not in the years 2000 to 2099; then 16 if the record does not fit, for every `at`.
    fn put_profile(serial: bytes, date: date, capacity: u32, buffer: room, at: usize, out: numbers);
}
