//! Every day of the calendar; every value of the month's and the day's byte, of the year's two bytes; and given dates
//! as numbers, also such as there are not.

use std::hint::black_box;

use gorvisclen::{CALIBRATION_NUMBERS, PROFILE_NUMBERS};

use super::building::there_and_back;
use super::calendar::{calendar, Day};
use super::labels::READ;
use super::model;
use super::operations::{lapsed, put, Fields};
use super::questions::every_question;
use super::samples::{good_record, odd_dates, random_capacity, random_serial, record_due};
use crate::answer::{give, reply_number, Answer};
use crate::call::Call;
use crate::hex::Hex;
use crate::lent::{bytes, numbers, Lent, Outcome};
use crate::loops::{pairs, triples};
use crate::random::Random;
use crate::tally::Tally;

/// The month and the day of dates that are tried with every year.
const MONTHS_AND_DAYS: [[u8; 2]; 8] =
    [[0x01, 0x01], [0x02, 0x28], [0x02, 0x29], [0x02, 0x30], [0x04, 0x31], [0x12, 0x31], [0x00, 0x01], [0x0A, 0x01]];

/// The first two bytes of dates that there are not: the years next to those of the calendar, digits above 9.
const NO_YEARS: [[u8; 2]; 6] = [[0x19, 0x99], [0x21, 0x00], [0x00, 0x26], [0x20, 0x0A], [0x20, 0xA0], [0x1A, 0x00]];

/// The years and the days of dates that are compared with each other.
const YEARS: [u32; 8] = [2000, 2001, 2009, 2010, 2026, 2079, 2080, 2099];
const DAYS: [u32; 6] = [1, 9, 10, 20, 28, 31];

/// Every day: its record is written and read again, and has or has not lapsed on the days next to it, on the first, on
/// the last and on random ones.
fn every_day(tally: &mut Tally, random: &mut Random) {
    let days = &calendar().days;
    for (i, day) in days.iter().enumerate() {
        let n = 1 + i % 16;
        let serial = random_serial(random, n);
        there_and_back(tally, Fields::new(&serial, day.numbers, random_capacity(random)));
        let record = record_due(random, n, day.bytes);
        let near = i.saturating_sub(1)..days.len().min(i + 2);
        let far = [0, days.len() - 1, random.below(days.len()), random.below(days.len())];
        for at in near.chain(far) {
            lapsed(&record, days[at].numbers).compare_numbers(tally, CALIBRATION_NUMBERS);
        }
    }
}

/// Reads a record with many due dates in turn. They are many: so equal answers are counted here first, and all calls
/// use the same buffers.
fn many_dates(tally: &mut Tally, record: &[u8], dates: impl Iterator<Item = [u8; 4]>) {
    let place = record.len() - 10;
    let [untouched, mut reference_out, mut out] = [0; 3].map(|_| numbers(PROFILE_NUMBERS));
    let [mut before, mut record] = [record; 2].map(<[u8]>::to_vec);
    let mut equal = [0; 256];
    for date in dates {
        before[place..place + 4].copy_from_slice(&date);
        record.copy_from_slice(&before);
        let answer: Answer<PROFILE_NUMBERS> = model::read(&before).map(|profile| profile.numbers().into());
        let reference_reply = give(&answer, &mut [], reference_out.part());
        let reply = gorvisclen::read_profile(black_box(&record), out.part());
        if (reply, &out, black_box(&record)) == (reference_reply, &reference_out, &before) {
            equal[usize::from(reply_number(reply))] += 1;
        } else {
            let outcome = |reply, out: &Lent<u64>, input: &[u8]| {
                Outcome::new(reply, out.clone(), bytes(0)).with_input(input.to_vec())
            };
            let reference = outcome(reference_reply, &reference_out, &before);
            tally.compare(READ, || format!("{:?}", Hex(&before)), &reference, &outcome(reply, &out, &record));
        }
        reference_out.clone_from(&untouched);
        out.clone_from(&untouched);
    }
    for (number, cases) in (0..=255).zip(equal) {
        tally.count(READ, number, cases);
    }
}

/// Every value of the month's and the day's byte, in every year and in some that there are not; every value of the
/// year's two bytes, in several months and days.
fn every_value(tally: &mut Tally, random: &mut Random) {
    let two_bytes = || (0..=u16::MAX).map(u16::to_be_bytes);
    let first_days = calendar().days.iter().filter(|day| day.numbers[1..] == [1, 1]);
    let years = first_days.map(|Day { bytes: [y1, y2, ..], .. }| [*y1, *y2]);
    for (i, [y1, y2]) in years.chain(NO_YEARS).enumerate() {
        let record = good_record(random, 1 + i % 16);
        many_dates(tally, &record, two_bytes().map(|[month, day]| [y1, y2, month, day]));
    }
    for (i, [month, day]) in MONTHS_AND_DAYS.into_iter().enumerate() {
        let record = good_record(random, 2 * i + 1);
        many_dates(tally, &record, two_bytes().map(|[y1, y2]| [y1, y2, month, day]));
    }
}

/// Every value of two bytes of a date, for every question: of the month and the day in a leap year and in another one,
/// and of the year.
fn every_value_asked(tally: &mut Tally, random: &mut Random) {
    for [one, other] in (0..=u16::MAX).map(u16::to_be_bytes) {
        for due in [[0x20, 0x24, one, other], [0x20, 0x26, one, other], [one, other, 0x12, 0x31]] {
            let record = record_due(random, 1 + usize::from(other % 16), due);
            every_question(tally, random, &record);
        }
    }
}

/// Every pair of a due date and a given date out of several years, every month, and several days.
fn every_pair(tally: &mut Tally, random: &mut Random) {
    let of_pair = |[year, _, day]: [u32; 3]| YEARS.contains(&year) && DAYS.contains(&day);
    let days: Vec<&Day> = calendar().days.iter().filter(|day| of_pair(day.numbers)).collect();
    for due in &days {
        let record = record_due(random, 5, due.bytes);
        for given in &days {
            lapsed(&record, given.numbers).compare_numbers(tally, CALIBRATION_NUMBERS);
        }
    }
}

/// A date as three numbers: given with a record, and of a record to write.
fn as_numbers(tally: &mut Tally, random: &mut Random, record: &[u8], date: [u32; 3]) {
    lapsed(record, date).compare_numbers(tally, CALIBRATION_NUMBERS + random.below(2));
    let n = 1 + random.below(16);
    let serial = random_serial(random, n);
    put(Fields::new(&serial, date, random_capacity(random)), 1).compare(tally, n + 18, CALIBRATION_NUMBERS);
}

/// The digits of a date as packed decimal. There may be no such date.
fn packed(year: u32, month: u32, day: u32) -> [u8; 4] {
    let digits = format!("{year:04}{month:02}{day:02}");
    u32::from_str_radix(&digits, 16).unwrap().to_be_bytes()
}

/// Years around those of the calendar, with every month and every day and some more: as the due date of a record, and
/// as three numbers. Then odd numbers, which are also given with records that are refused.
fn every_date(tally: &mut Tally, random: &mut Random) {
    for (year, month, day) in triples(1_990..=2_110, 0..=14, 0..=33) {
        let n = 1 + random.below(16);
        let record = record_due(random, n, packed(year, month, day));
        every_question(tally, random, &record);
        let good = good_record(random, n);
        as_numbers(tally, random, &good, [year, month, day]);
    }
    let good = good_record(random, 3);
    let no_date = record_due(random, 3, [0x20, 0x26, 0x02, 0x29]);
    for (date, record) in pairs(odd_dates(), [&good, &no_date, &good[1..]]) {
        as_numbers(tally, random, record, date);
    }
}

pub fn compare(tally: &mut Tally, random: &mut Random) {
    every_day(tally, random);
    every_value(tally, random);
    every_value_asked(tally, random);
    every_pair(tally, random);
    every_date(tally, random);
}
