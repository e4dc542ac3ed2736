//! Cases with their answers from request 7 of document 02, and the vectors of its page.

use gorvisclen::{CARD, DESK};

use super::operations::{lapsed, put, read, serial, shown, shown_from, Fields};
use crate::answer::{Answer, Writes};
use crate::call::Call;
use crate::hex::unhex;
use crate::tally::Tally;

const CASES: &str = "the calibration profile, case by case (checked against document 02)";
const VECTORS: &str = "the vectors of request 7 (checked against the request's page)";
const TEXT: &str = "has_lapsed where the text of the dates misleads (checked against document 02)";
const IN_SERIAL: &str = "a due date's bytes in the serial (checked against document 02)";

/// The record of the vectors; the same with a date that there is not, and with a byte in front.
const GOOD: &str = "E1 0F C1 01 41 C2 04 20 26 12 31 C3 04 00 03 0D 40";
const NO_DATE: &str = "E1 0F C1 01 41 C2 04 20 26 02 29 C3 04 00 03 0D 40";
const PADDED: &str = "00 E1 0F C1 01 41 C2 04 20 26 12 31 C3 04 00 03 0D 40";

/// The label of a case, a record in hex; its serial in hex, its due date and its capacity.
type GoodRow = (&'static str, &'static str, (&'static str, [u32; 3], u32));

const GOOD_RECORDS: [GoodRow; 17] = [
    (VECTORS, GOOD, ("41", [2026, 12, 31], 200_000)),
    // The capacity is a big-endian number, and all are accepted.
    (CASES, "E1 0F C1 01 41 C2 04 20 26 12 31 C3 04 00 00 00 00", ("41", [2026, 12, 31], 0)),
    (CASES, "E1 0F C1 01 41 C2 04 20 26 12 31 C3 04 00 00 00 01", ("41", [2026, 12, 31], 1)),
    (CASES, "E1 0F C1 01 41 C2 04 20 26 12 31 C3 04 01 00 00 00", ("41", [2026, 12, 31], 16_777_216)),
    (CASES, "E1 0F C1 01 41 C2 04 20 26 12 31 C3 04 FF FF FF FF", ("41", [2026, 12, 31], 4_294_967_295)),
    // The serial: any bytes, 1 to 16 of them.
    (CASES, "E1 0F C1 01 00 C2 04 20 26 12 31 C3 04 00 03 0D 40", ("00", [2026, 12, 31], 200_000)),
    (CASES, "E1 10 C1 02 FF 00 C2 04 20 26 12 31 C3 04 00 03 0D 40", ("FF 00", [2026, 12, 31], 200_000)),
    (
        CASES,
        "E1 1E C1 10 30 31 32 33 34 35 36 37 38 39 41 42 43 44 45 46 C2 04 20 30 06 15 C3 04 00 00 27 10",
        ("30 31 32 33 34 35 36 37 38 39 41 42 43 44 45 46", [2030, 6, 15], 10_000),
    ),
    // The first and the last date, and leap days.
    (CASES, "E1 0F C1 01 41 C2 04 20 00 01 01 C3 04 00 03 0D 40", ("41", [2000, 1, 1], 200_000)),
    (CASES, "E1 0F C1 01 41 C2 04 20 99 12 31 C3 04 00 03 0D 40", ("41", [2099, 12, 31], 200_000)),
    (CASES, "E1 0F C1 01 41 C2 04 20 00 02 29 C3 04 00 03 0D 40", ("41", [2000, 2, 29], 200_000)),
    (CASES, "E1 0F C1 01 41 C2 04 20 24 02 29 C3 04 00 03 0D 40", ("41", [2024, 2, 29], 200_000)),
    (CASES, "E1 0F C1 01 41 C2 04 20 96 02 29 C3 04 00 03 0D 40", ("41", [2096, 2, 29], 200_000)),
    (CASES, "E1 0F C1 01 41 C2 04 20 26 02 28 C3 04 00 03 0D 40", ("41", [2026, 2, 28], 200_000)),
    (CASES, "E1 0F C1 01 41 C2 04 20 26 04 30 C3 04 00 03 0D 40", ("41", [2026, 4, 30], 200_000)),
    // The serial has the bytes of a due date, and of a due date and a capacity.
    (
        IN_SERIAL,
        "E1 14 C1 06 C2 04 20 20 01 01 C2 04 20 26 12 31 C3 04 00 03 0D 40",
        ("C2 04 20 20 01 01", [2026, 12, 31], 200_000),
    ),
    (
        IN_SERIAL,
        "E1 1A C1 0C C2 04 20 20 01 01 C3 04 00 00 00 05 C2 04 20 26 12 31 C3 04 00 03 0D 40",
        ("C2 04 20 20 01 01 C3 04 00 00 00 05", [2026, 12, 31], 200_000),
    ),
];

/// Records that are refused with 26.
const OTHER_FORMS: [(&str, &str); 39] = [
    (VECTORS, "E1 0F C1 01 41 C2 04 20 26 12 31 C3 04 00 03 0D 40 00"),
    (VECTORS, PADDED),
    (VECTORS, "E1 81 0F C1 01 41 C2 04 20 26 12 31 C3 04 00 03 0D 40"),
    (CASES, ""),
    (CASES, "E1"),
    (CASES, "E1 00"),
    // The template and its contents have other lengths.
    (CASES, "E1 0E C1 01 41 C2 04 20 26 12 31 C3 04 00 03 0D 40"),
    (CASES, "E1 10 C1 01 41 C2 04 20 26 12 31 C3 04 00 03 0D 40"),
    (CASES, "E1 0F C1 01 41 C2 04 20 26 12 31 C3 04 00 03 0D"),
    (CASES, "E1 0E C1 01 41 C2 04 20 26 12 31 C3 04 00 03 0D"),
    // No serial, and one of 17 bytes.
    (CASES, "E1 0E C1 00 C2 04 20 26 12 31 C3 04 00 03 0D 40"),
    (CASES, "E1 1F C1 11 30 31 32 33 34 35 36 37 38 39 41 42 43 44 45 46 47 C2 04 20 30 06 15 C3 04 00 00 27 10"),
    // Other tags.
    (CASES, "E2 0F C1 01 41 C2 04 20 26 12 31 C3 04 00 03 0D 40"),
    (CASES, "E1 0F C4 01 41 C2 04 20 26 12 31 C3 04 00 03 0D 40"),
    (CASES, "E1 0F C1 01 41 C4 04 20 26 12 31 C3 04 00 03 0D 40"),
    (CASES, "E1 0F C1 01 41 C2 04 20 26 12 31 C4 04 00 03 0D 40"),
    (CASES, "C1 01 41 C2 04 20 26 12 31 C3 04 00 03 0D 40"),
    // Another order.
    (CASES, "E1 0F C2 04 20 26 12 31 C1 01 41 C3 04 00 03 0D 40"),
    (CASES, "E1 0F C1 01 41 C3 04 00 03 0D 40 C2 04 20 26 12 31"),
    (CASES, "E1 0F C3 04 00 03 0D 40 C2 04 20 26 12 31 C1 01 41"),
    // An object or a zero byte more: before, between and behind, inside of the template and outside.
    (CASES, "E1 11 C4 00 C1 01 41 C2 04 20 26 12 31 C3 04 00 03 0D 40"),
    (CASES, "E1 11 C1 01 41 C4 00 C2 04 20 26 12 31 C3 04 00 03 0D 40"),
    (CASES, "E1 11 C1 01 41 C2 04 20 26 12 31 C3 04 00 03 0D 40 C4 00"),
    (CASES, "E1 12 C1 01 41 C1 01 41 C2 04 20 26 12 31 C3 04 00 03 0D 40"),
    (CASES, "E1 0F C1 01 41 C2 04 20 26 12 31 C3 04 00 03 0D 40 C4 00"),
    (CASES, "C4 00 E1 0F C1 01 41 C2 04 20 26 12 31 C3 04 00 03 0D 40"),
    (CASES, "E1 10 00 C1 01 41 C2 04 20 26 12 31 C3 04 00 03 0D 40"),
    (CASES, "E1 10 C1 01 41 00 C2 04 20 26 12 31 C3 04 00 03 0D 40"),
    (CASES, "E1 10 C1 01 41 C2 04 20 26 12 31 C3 04 00 03 0D 40 00"),
    // One is missing.
    (CASES, "E1 09 C1 01 41 C2 04 20 26 12 31"),
    (CASES, "E1 0C C2 04 20 26 12 31 C3 04 00 03 0D 40"),
    // Lengths that are not the shortest.
    (CASES, "E1 10 C1 81 01 41 C2 04 20 26 12 31 C3 04 00 03 0D 40"),
    (CASES, "E1 10 C1 01 41 C2 81 04 20 26 12 31 C3 04 00 03 0D 40"),
    (CASES, "E1 11 C1 01 41 C2 04 20 26 12 31 C3 82 00 04 00 03 0D 40"),
    // A date of three and of five bytes, a capacity of three and of five.
    (CASES, "E1 0E C1 01 41 C2 03 26 12 31 C3 04 00 03 0D 40"),
    (CASES, "E1 10 C1 01 41 C2 05 20 26 12 31 00 C3 04 00 03 0D 40"),
    (CASES, "E1 0E C1 01 41 C2 04 20 26 12 31 C3 03 03 0D 40"),
    (CASES, "E1 10 C1 01 41 C2 04 20 26 12 31 C3 05 00 00 03 0D 40"),
    // The form comes first: 26, though there is no such date either.
    (CASES, "E1 0F C1 01 41 C2 04 20 26 02 29 C4 04 00 03 0D 40"),
];

/// The four bytes of dates that there are not, in records that are otherwise as the first vector: 27.
const NO_DATES: [(&str, &str); 30] = [
    (VECTORS, "20 26 02 29"),
    // The years before 2000 and after 2099.
    (CASES, "19 99 12 31"),
    (CASES, "21 00 01 01"),
    (CASES, "21 00 02 28"),
    (CASES, "20 A0 01 01"),
    (CASES, "00 26 12 31"),
    (CASES, "00 00 00 00"),
    // No leap years.
    (CASES, "20 98 02 29"),
    (CASES, "20 01 02 29"),
    (CASES, "20 24 02 30"),
    // Months and days.
    (CASES, "20 26 00 31"),
    (CASES, "20 26 13 01"),
    (CASES, "20 26 12 00"),
    (CASES, "20 26 12 32"),
    (CASES, "20 26 01 32"),
    (CASES, "20 26 04 31"),
    (CASES, "20 26 06 31"),
    (CASES, "20 26 09 31"),
    (CASES, "20 26 11 31"),
    (CASES, "20 26 02 31"),
    // Digits above 9, in each place.
    (CASES, "A0 26 12 31"),
    (CASES, "1F 26 12 31"),
    (CASES, "20 2A 12 31"),
    (CASES, "20 26 A2 31"),
    (CASES, "20 26 0A 31"),
    (CASES, "20 26 0C 31"),
    (CASES, "20 26 12 2A"),
    (CASES, "20 26 12 A1"),
    // Day and month exchanged, and the day first.
    (CASES, "20 26 31 12"),
    (CASES, "31 12 20 26"),
];

/// A good record: each of its fields, its date shown, and the record written from the fields.
fn good_record(tally: &mut Tally, (label, record, (serial_hex, date, capacity)): GoodRow) {
    let (record, serial_bytes) = (unhex(record), unhex(serial_hex));
    let (n, [year, month, day]) = (serial_bytes.len(), date.map(u64::from));
    let answer = Ok([n as u64, year, month, day, capacity.into()].into());
    read(&record).compare_with_table(tally, label, &answer, 0);
    let answer = Ok(Writes::new([n as u64], 0, &serial_bytes));
    serial(&record).compare_with_table(tally, label, &answer, n + 1);
    serial(&record).compare_with_table(tally, label, &Err(16), n - 1);
    // The date's bytes stand right before the last six.
    let due = record.len() - 10;
    let answer = Ok(Writes::new([4], 0, &record[due..due + 4]));
    shown(&record, &[]).compare_with_table(tally, label, &answer, 4);
    shown_from(&record, &[]).compare_with_table(tally, label, &Ok([0, due as u64].into()), 0);
    shown_from(&[], &record).compare_with_table(tally, label, &Ok([1, due as u64].into()), 0);
    let answer = Ok(Writes::new([n as u64 + 16], 3, &record));
    put(Fields::new(&serial_bytes, date, capacity), 3).compare_with_table(tally, label, &answer, n + 20);
}

/// A record that is refused, for every question.
fn refused(tally: &mut Tally, label: &'static str, record: &[u8], number: u8) {
    read(record).compare_with_table(tally, label, &Err(number), 0);
    serial(record).compare_with_table(tally, label, &Err(number), 20);
    serial(record).compare_with_table(tally, label, &Err(number), 0);
    lapsed(record, [2026, 12, 31]).compare_with_table(tally, label, &Err(number), 0);
    shown(&[], record).compare_with_table(tally, label, &Err(number), 4);
    shown(&[], record).compare_with_table(tally, label, &Err(number), 3);
    shown_from(&[], record).compare_with_table(tally, label, &Err(number), 0);
    // It is the desk's refusal that counts.
    shown_from(record, &[]).compare_with_table(tally, label, &Err(26), 0);
}

fn records(tally: &mut Tally) {
    GOOD_RECORDS.into_iter().for_each(|row| good_record(tally, row));
    for (label, record) in OTHER_FORMS {
        refused(tally, label, &unhex(record), 26);
    }
    for (label, date) in NO_DATES {
        let record = unhex(&GOOD.replace("20 26 12 31", date));
        refused(tally, label, &record, 27);
    }
}

/// The label of a case, a record in hex, the given date, and whether it has lapsed, or the refusal.
type LapsedRow = (&'static str, &'static str, [u32; 3], Result<u64, u8>);

const LAPSED: [LapsedRow; 17] = [
    (VECTORS, GOOD, [2026, 12, 31], Ok(0)),
    (VECTORS, GOOD, [2027, 1, 1], Ok(1)),
    (CASES, GOOD, [2026, 12, 30], Ok(0)),
    (CASES, GOOD, [2026, 1, 31], Ok(0)),
    (CASES, GOOD, [2000, 1, 1], Ok(0)),
    (CASES, GOOD, [2099, 12, 31], Ok(1)),
    (CASES, GOOD, [2030, 2, 2], Ok(1)),
    (CASES, GOOD, [2028, 2, 29], Ok(1)),
    (CASES, "E1 0F C1 01 41 C2 04 20 26 02 28 C3 04 00 03 0D 40", [2026, 3, 1], Ok(1)),
    // No such given date.
    (CASES, GOOD, [2026, 2, 29], Err(27)),
    (CASES, GOOD, [1999, 12, 31], Err(27)),
    (CASES, GOOD, [2100, 1, 1], Err(27)),
    (CASES, GOOD, [2026, 13, 1], Err(27)),
    (CASES, GOOD, [2026, 1, 0], Err(27)),
    // The record's 26 comes first.
    (CASES, PADDED, [2026, 2, 29], Err(26)),
    (CASES, NO_DATE, [2026, 12, 31], Err(27)),
    (CASES, NO_DATE, [2026, 2, 29], Err(27)),
];

/// The label of a case, the card's record and the desk's in hex; whose date is shown, its place and its bytes in hex,
/// or the refusal.
type ShownRow = (&'static str, &'static str, &'static str, Result<(u64, u64, &'static str), u8>);

/// A good record that is due earlier and has a longer serial, and one that is due later.
const EARLIER: &str = "E1 11 C1 03 41 42 43 C2 04 20 25 01 02 C3 04 00 03 0D 40";
const LATER: &str = "E1 0F C1 01 41 C2 04 20 30 01 01 C3 04 00 03 0D 40";

const SHOWN: [ShownRow; 13] = [
    (VECTORS, GOOD, "", Ok((CARD, 7, "20 26 12 31"))),
    // The card's, whichever is earlier.
    (CASES, GOOD, EARLIER, Ok((CARD, 7, "20 26 12 31"))),
    (CASES, EARLIER, GOOD, Ok((CARD, 9, "20 25 01 02"))),
    (CASES, LATER, GOOD, Ok((CARD, 7, "20 30 01 01"))),
    (CASES, GOOD, NO_DATE, Ok((CARD, 7, "20 26 12 31"))),
    // The desk's, if the card's record is refused with 26 or 27.
    (CASES, "", GOOD, Ok((DESK, 7, "20 26 12 31"))),
    (CASES, PADDED, EARLIER, Ok((DESK, 9, "20 25 01 02"))),
    (CASES, NO_DATE, GOOD, Ok((DESK, 7, "20 26 12 31"))),
    (CASES, NO_DATE, EARLIER, Ok((DESK, 9, "20 25 01 02"))),
    // Both refused: the desk's refusal.
    (CASES, "", PADDED, Err(26)),
    (CASES, "", NO_DATE, Err(27)),
    (CASES, NO_DATE, PADDED, Err(26)),
    (CASES, NO_DATE, NO_DATE, Err(27)),
];

fn dates(tally: &mut Tally) {
    for (label, record, given, answer) in LAPSED {
        let answer = answer.map(|lapsed| [lapsed].into());
        lapsed(&unhex(record), given).compare_with_table(tally, label, &answer, 0);
    }
    for (label, card, desk, answer) in SHOWN {
        let (card, desk) = (unhex(card), unhex(desk));
        let copied = answer.map(|(_, _, bytes)| Writes::new([4], 0, unhex(bytes)));
        shown(&card, &desk).compare_with_table(tally, label, &copied, 6);
        let no_room: Answer<1> = Err(answer.err().unwrap_or(16));
        shown(&card, &desk).compare_with_table(tally, label, &no_room, 3);
        let from = answer.map(|(whose, place, _)| [whose, place].into());
        shown_from(&card, &desk).compare_with_table(tally, label, &from, 0);
    }
}

/// Records to write: the label, how many bytes the serial has, the date, the length of the buffer and the place; the
/// record in hex, or the refusal. The serial is of bytes 41, and the capacity 200,000.
type PutRow = (&'static str, usize, [u32; 3], (usize, usize), Result<&'static str, u8>);

const WRITTEN: [PutRow; 13] = [
    (VECTORS, 1, [2026, 12, 31], (17, 0), Ok(GOOD)),
    (CASES, 1, [2026, 12, 31], (20, 3), Ok(GOOD)),
    (CASES, 1, [2026, 12, 31], (16, 0), Err(16)),
    (CASES, 1, [2026, 12, 31], (17, 1), Err(16)),
    (CASES, 1, [2026, 12, 31], (17, usize::MAX), Err(16)),
    (CASES, 16, [2026, 12, 31], (31, 0), Err(16)),
    // In order: 26, 27, 16.
    (CASES, 0, [2026, 12, 31], (40, 0), Err(26)),
    (CASES, 17, [2026, 12, 31], (40, 0), Err(26)),
    (CASES, 0, [2026, 2, 29], (0, 0), Err(26)),
    (CASES, 17, [2026, 2, 29], (0, 1), Err(26)),
    (CASES, 1, [2026, 2, 29], (0, 0), Err(27)),
    (CASES, 1, [1999, 12, 31], (40, 0), Err(27)),
    (CASES, 1, [2100, 1, 1], (40, 0), Err(27)),
];

fn written(tally: &mut Tally) {
    for (label, n, date, (buffer_len, at), answer) in WRITTEN {
        let answer = answer.map(|record| Writes::new([17], at, unhex(record)));
        put(Fields::new(&vec![0x41; n], date, 200_000), at).compare_with_table(tally, label, &answer, buffer_len);
    }
}

/// The fault of a booking system that compares dates as text: 9 October 2026 is before 10 November 2026, but the text
/// `9.10.2026` is behind `10.11.2026`. So it takes what has lapsed for good, and what is good for lapsed.
fn the_booking_systems_fault(tally: &mut Tally) {
    let october = ("9.10.2026", [2026, 10, 9], "E1 0F C1 01 41 C2 04 20 26 10 09 C3 04 00 03 0D 40");
    let november = ("10.11.2026", [2026, 11, 10], "E1 0F C1 01 41 C2 04 20 26 11 10 C3 04 00 03 0D 40");
    for (due, given, has_lapsed) in [(october, november, true), (november, october, false)] {
        let by_text = due.0 < given.0;
        assert_ne!(by_text, has_lapsed, "the text does not mislead: due {}, given {}", due.0, given.0);
        let answer = Ok([has_lapsed.into()].into());
        lapsed(&unhex(due.2), given.1).compare_with_table(tally, TEXT, &answer, 0);
    }
}

pub fn compare(tally: &mut Tally) {
    records(tally);
    dates(tally);
    written(tally);
    the_booking_systems_fault(tally);
}
