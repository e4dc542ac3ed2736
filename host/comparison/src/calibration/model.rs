//! A model of the calibration profile, from request 7 of document 02 and its page: reading a record, whether it has
//! lapsed, the due date shown, and writing a record.

use gorvisclen::{CARD, DESK, DUE_BYTES, PROFILE_NUMBERS};

use super::calendar::calendar;

/// What a record says.
pub struct Profile<'a> {
    pub serial: &'a [u8],
    /// The place of the due date in the calendar.
    pub due: usize,
    /// Milligrams.
    pub capacity: u32,
}

/// The due date shown.
pub struct Shown<'a> {
    /// Whose it is: `CARD` or `DESK`.
    pub whose: u64,
    /// The place of its bytes in that record.
    pub place: usize,
    pub bytes: &'a [u8],
}

/// Whether a serial has 1 to 16 bytes.
fn is_serial(serial: &[u8]) -> bool {
    (1..=16).contains(&serial.len())
}

/// The place of the due date's bytes in a record: behind two bytes each of E1, C1 and C2, and behind the serial.
fn place_of_due(serial: &[u8]) -> usize {
    2 + 2 + serial.len() + 2
}

/// Reads a record: 26 if it is not of this form, then 27 if there is no such date.
pub fn read(record: &[u8]) -> Result<Profile<'_>, u8> {
    let &[0xE1, len, 0xC1, n, ref serial @ .., 0xC2, 4, y1, y2, month, day, 0xC3, 4, c1, c2, c3, c4] = record else {
        return Err(26);
    };
    let lengths = [len, n].map(usize::from);
    if !is_serial(serial) || lengths != [serial.len() + 14, serial.len()] {
        return Err(26);
    }
    let due = calendar().place_of_bytes([y1, y2, month, day]).ok_or(27)?;
    Ok(Profile { serial, due, capacity: u32::from_be_bytes([c1, c2, c3, c4]) })
}

impl Profile<'_> {
    /// The year, the month and the day of the due date.
    pub fn date(&self) -> [u32; 3] {
        calendar().days[self.due].numbers
    }

    /// The numbers that are told of a record.
    pub fn numbers(&self) -> [u64; PROFILE_NUMBERS] {
        let [year, month, day] = self.date().map(u64::from);
        [self.serial.len() as u64, year, month, day, self.capacity.into()]
    }
}

/// Whether the due date of a record is earlier than a given date.
pub fn has_lapsed(record: &[u8], given: [u32; 3]) -> Result<bool, u8> {
    let profile = read(record)?;
    let given = calendar().place_of_numbers(given).ok_or(27)?;
    Ok(profile.due < given)
}

/// The due date shown: the card's; if the card's record is refused, the desk's; or else the desk's refusal.
pub fn shown<'a>(card: &'a [u8], desk: &'a [u8]) -> Result<Shown<'a>, u8> {
    let of = |whose, record: &'a [u8]| {
        let place = place_of_due(read(record)?.serial);
        Ok(Shown { whose, place, bytes: &record[place..][..DUE_BYTES] })
    };
    of(CARD, card).or_else(|_: u8| of(DESK, desk))
}

/// The record of a serial, a date and a capacity: 26 if this is no serial, then 27 if there is no such date.
pub fn written(serial: &[u8], date: [u32; 3], capacity: u32) -> Result<Vec<u8>, u8> {
    if !is_serial(serial) {
        return Err(26);
    }
    let due = calendar().days[calendar().place_of_numbers(date).ok_or(27)?].bytes;
    let n = serial.len() as u8;
    Ok([&[0xE1, n + 14, 0xC1, n], serial, &[0xC2, 4], &due, &[0xC3, 4], &capacity.to_be_bytes()].concat())
}
