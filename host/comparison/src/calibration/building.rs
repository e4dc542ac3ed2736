//! Records that are written: serials of many lengths, dates that there are and are not, capacities; buffers and places
//! around the bytes that a record needs; and records that are written and read again, or read and written again.

use gorvisclen::{CALIBRATION_NUMBERS, PROFILE_BYTES, PROFILE_NUMBERS};

use super::labels::{READ_BACK, SERIAL_BACK, WRITTEN_BACK};
use super::operations::{put, read, serial, Fields};
use super::samples::{random_capacity, random_date, random_day, random_serial, CAPACITIES};
use crate::answer::Writes;
use crate::call::Call;
use crate::guarded::with_guards;
use crate::lent::{bytes, places_past};
use crate::loops::{pairs, triples};
use crate::random::Random;
use crate::tally::Tally;

/// Lengths of serials that are too many bytes. Some are good ones if they are cut to one or two bytes.
const TOO_LONG: [usize; 12] = [17, 18, 19, 20, 127, 128, 255, 256, 257, 272, 65_536, 65_537];

/// Dates, the last six of which there are not.
const DATES: [[u32; 3]; 9] = [
    [2026, 12, 31],
    [2000, 2, 29],
    [2099, 1, 1],
    [2026, 2, 29],
    [1999, 12, 31],
    [2100, 1, 1],
    [2026, 0, 1],
    [2026, 13, 1],
    [2026, 4, 31],
];

/// A record in a buffer that it fits exactly from a place, that is a byte too short and a byte longer; `out` of every
/// length; and places around the end. The serial is right before a guard, or right after one.
fn around_the_end(tally: &mut Tally, random: &mut Random, fields: Fields) {
    let (before, at_end) = (random.below(9), random.below(4) > 0);
    let need = fields.record().map_or(PROFILE_BYTES, |record| record.len());
    let exact = before + need;
    with_guards(|[here, ..]| {
        let fields = Fields::new(here.copy(&fields.serial, at_end), fields.date.0, fields.capacity);
        for (buffer_len, (after, out_len)) in pairs([exact, exact - 1, exact + 1], [(0, 1), (1, 2), (0, 0)]) {
            put(fields, before + after).compare(tally, buffer_len, out_len);
        }
        for at in places_past(before, need) {
            put(fields, at).compare(tally, exact, CALIBRATION_NUMBERS);
        }
        for (buffer_len, out_len) in pairs([0, 1], 0..=CALIBRATION_NUMBERS) {
            put(fields, 0).compare(tally, buffer_len, out_len);
        }
    });
}

/// Serials of every length up to 16 with each date and each capacity; then serials that are too long.
fn every_serial(tally: &mut Tally, random: &mut Random) {
    let long = random.long_string();
    for (n, date, capacity) in triples(0..=16, DATES, CAPACITIES) {
        let serial = random_serial(random, n);
        around_the_end(tally, random, Fields::new(&serial, date, capacity));
    }
    for (n, date) in pairs(TOO_LONG, DATES) {
        let capacity = random_capacity(random);
        around_the_end(tally, random, Fields::new(&long[..n], date, capacity));
    }
}

/// Small buffers: every place from the beginning to past the end, `out` of every length up to 2.
fn every_place(tally: &mut Tally, random: &mut Random) {
    for (n, date) in pairs([0, 1, 5, 16, 17], [DATES[0], DATES[3]]) {
        let serial = random_serial(random, n);
        let fields = Fields::new(&serial, date, random_capacity(random));
        for buffer_len in 0..=PROFILE_BYTES + 2 {
            for (at, out_len) in pairs((0..=buffer_len + 3).chain([usize::MAX - 1, usize::MAX]), 0..=2) {
                put(fields, at).compare(tally, buffer_len, out_len);
            }
        }
    }
}

/// Long buffers, places far into them, and long `out`: lengths and places that are others if they are cut to one or two
/// bytes.
fn long_buffers(tally: &mut Tally, random: &mut Random) {
    let serial = random_serial(random, 16);
    let fields = Fields::new(&serial, DATES[0], random_capacity(random));
    for (long, out_len) in pairs([256, 65_536], [1, 256, 65_536]) {
        for at in [0, 1, long - PROFILE_BYTES, long - PROFILE_BYTES + 1, long] {
            put(fields, at).compare(tally, long, out_len);
            put(fields, at).compare(tally, long + PROFILE_BYTES, out_len);
        }
    }
}

/// A record that the library writes is read as the same fields.
pub fn there_and_back(tally: &mut Tally, fields: Fields) {
    put(fields, 0).compare(tally, PROFILE_BYTES, CALIBRATION_NUMBERS);
    let (mut buffer, mut len) = ([0; PROFILE_BYTES], [0]);
    // After a refusal there is nothing to read, and the comparison fails.
    let _ = fields.put(&mut buffer, 0, &mut len);
    let record = &buffer[..PROFILE_BYTES.min(len[0] as usize)];
    let (n, [year, month, day]) = (fields.serial.len() as u64, fields.date.0.map(u64::from));
    let answer = Ok([n, year, month, day, fields.capacity.into()].into());
    read(record).compare_with(tally, READ_BACK, &answer, &bytes(0), PROFILE_NUMBERS);
    let answer = Ok(Writes::new([n], 0, fields.serial.0));
    serial(record).compare_with(tally, SERIAL_BACK, &answer, &bytes(20), CALIBRATION_NUMBERS);
}

/// A good record that the library reads is written again as the same bytes.
pub fn back_again(tally: &mut Tally, record: &[u8]) {
    let (mut out, mut to, mut len) = ([0; PROFILE_NUMBERS], [0; PROFILE_BYTES], [0]);
    // After a refusal there is nothing to write, and the comparison fails.
    let _ = gorvisclen::read_profile(record, &mut out);
    let _ = gorvisclen::profile_serial(record, &mut to, &mut len);
    let [_, year, month, day, capacity] = out.map(|number| number as u32);
    let fields = Fields::new(&to[..PROFILE_BYTES.min(len[0] as usize)], [year, month, day], capacity);
    let answer = Ok(Writes::new([record.len() as u64], 0, record));
    put(fields, 0).compare_with(tally, WRITTEN_BACK, &answer, &bytes(record.len()), CALIBRATION_NUMBERS);
}

/// Random fields: written around the end of a buffer, and into a random one. If they are good, they are read again.
pub fn random_fields(tally: &mut Tally, random: &mut Random) {
    let n = match random.below(12) {
        0 => 0,
        1 => 17 + random.below(300),
        _ => 1 + random.below(16),
    };
    let (serial, capacity) = (random_serial(random, n), random_capacity(random));
    let date = match random.below(2) {
        0 => random_day(random).numbers,
        _ => random_date(random, &[]),
    };
    let fields = Fields::new(&serial, date, capacity);
    around_the_end(tally, random, fields);
    put(fields, random.below(12)).compare(tally, random.below(48), random.below(3));
    if fields.record().is_ok() {
        there_and_back(tally, fields);
    }
}

pub fn compare(tally: &mut Tally, random: &mut Random) {
    every_serial(tally, random);
    every_place(tally, random);
    long_buffers(tally, random);
}
