//! Records, dates and capacities to try: random ones, and those around a boundary.

use super::calendar::{calendar, Day};
use super::model;
use crate::random::Random;

/// Capacities that show the order of the bytes and how many there are.
pub const CAPACITIES: [u32; 10] = [0, 1, 255, 256, 65_535, 65_536, 200_000, 0x0102_0304, 0x8000_0000, u32::MAX];

/// Years, months and days that are cut to a date if they are read as fewer bits, or are those of a date in packed
/// decimal, without the century, or counted from 0.
const ODD_YEARS: [u32; 16] = [
    0,
    26,
    99,
    126,
    0x20,
    0x2026,
    2_000 + (1 << 8),
    2_026 + (1 << 16),
    2_099 + (1 << 24),
    2_026 + (1 << 31),
    1 << 8,
    1 << 16,
    1 << 31,
    u32::MAX - 1,
    u32::MAX,
    20_261_231,
];
const ODD_MONTHS: [u32; 9] = [0, 13, 0x10, 0x12, 1 + (1 << 8), 2 + (1 << 16), 12 + (1 << 24), 1 + (1 << 31), u32::MAX];
const ODD_DAYS: [u32; 9] = [0, 32, 0x28, 0x31, 1 + (1 << 8), 28 + (1 << 16), 31 + (1 << 24), 1 + (1 << 31), u32::MAX];

/// Years, months and days: odd ones, and some of dates around them.
pub fn odd_dates() -> impl Iterator<Item = [u32; 3]> {
    let years = || ODD_YEARS.into_iter().chain([1_999, 2_000, 2_024, 2_026, 2_099, 2_100]);
    let months = || ODD_MONTHS.into_iter().chain([1, 2, 12]);
    let days = || ODD_DAYS.into_iter().chain([1, 28, 29, 31]);
    years().flat_map(move |year| months().flat_map(move |month| days().map(move |day| [year, month, day])))
}

/// A random day of the calendar, often near the turn of a month.
pub fn random_day(random: &mut Random) -> Day {
    let days = &calendar().days;
    let turns_month = |at: &usize| days[*at].numbers[2] == 1;
    match random.below(3) {
        0 => {
            let first = (random.below(days.len())..days.len()).find(turns_month).unwrap_or(0);
            days[(first + random.below(2)).saturating_sub(1)]
        }
        _ => random.one_of(days),
    }
}

/// A random year, month and day: mostly a real date; if there is one, near the due date of a record.
pub fn random_date(random: &mut Random, record: &[u8]) -> [u32; 3] {
    let near = model::read(record).map_or(0, |profile| profile.due);
    let days = &calendar().days;
    let near = days[(near + random.below(4)).saturating_sub(2).min(days.len() - 1)].numbers;
    let mut date = match random.below(3) {
        0 => random_day(random).numbers,
        _ => near,
    };
    match random.below(24) {
        0 => date[0] = random.one_of(&ODD_YEARS),
        1 => date[1] = random.one_of(&ODD_MONTHS),
        2 => date[2] = random.one_of(&ODD_DAYS),
        3 => date[0] = 1_990 + random.below(120) as u32,
        4 => date[2] = 28 + random.below(5) as u32,
        _ => (),
    }
    date
}

/// A random capacity.
pub fn random_capacity(random: &mut Random) -> u32 {
    match random.below(3) {
        0 => random.one_of(&CAPACITIES),
        _ => random.number() as u32,
    }
}

/// A random serial of `n` bytes. Often it has the bytes of other parts of a record.
pub fn random_serial(random: &mut Random, n: usize) -> Vec<u8> {
    let mut serial = random.bytes(n);
    let part: &[u8] = match random.below(6) {
        0 => &[0xC2, 0x04, 0x20, 0x26, 0x10, 0x09],
        1 => &[0xC3, 0x04, 0x00, 0x00, 0x00, 0x01],
        2 => &[0xC1, 0x01, 0x41, 0xC2, 0x04],
        3 => &[0x00; 16],
        _ => &[],
    };
    let at = random.below(n + 1);
    serial.iter_mut().skip(at).zip(part).for_each(|(byte, new)| *byte = *new);
    serial
}

/// A record with a random serial of `n` bytes, this due date and a random capacity.
pub fn record_due(random: &mut Random, n: usize, due: [u8; 4]) -> Vec<u8> {
    let serial = random_serial(random, n);
    let capacity = random_capacity(random).to_be_bytes();
    template(&[&object(0xC1, &serial)[..], &object(0xC2, &due), &object(0xC3, &capacity)].concat())
}

/// A good record with a serial of `n` bytes.
pub fn good_record(random: &mut Random, n: usize) -> Vec<u8> {
    let due = random_day(random).bytes;
    record_due(random, n, due)
}

/// A good record with a serial of a random length.
pub fn any_good_record(random: &mut Random) -> Vec<u8> {
    let n = 1 + random.below(16);
    good_record(random, n)
}

/// An object with a tag of one byte and a value of at most 127 bytes.
pub fn object(tag: u8, value: &[u8]) -> Vec<u8> {
    [&[tag, value.len() as u8], value].concat()
}

/// The template with these contents.
pub fn template(contents: &[u8]) -> Vec<u8> {
    object(0xE1, contents)
}

/// The four bytes of a date that there is not: with a digit above 9, or a number that no date has there.
pub fn no_date(random: &mut Random) -> [u8; 4] {
    let mut bytes = random_day(random).bytes;
    match random.below(5) {
        0 => bytes[0] = random.one_of(&[0x00, 0x19, 0x21, 0x1A, 0x02]),
        1 => bytes[2] = random.one_of(&[0x00, 0x13, 0x0A, 0x0C, 0x1A, 0x20]),
        2 => bytes[3] = random.one_of(&[0x00, 0x32, 0x0A, 0x1F, 0x2A, 0x3A, 0x40]),
        3 => {
            [bytes[2], bytes[3]] =
                random.one_of(&[[0x02, 0x30], [0x02, 0x31], [0x04, 0x31], [0x06, 0x31], [0x11, 0x31]])
        }
        _ => bytes[random.below(4)] |= random.one_of(&[0x0A, 0x0F, 0xA0, 0xF0]),
    }
    bytes
}
