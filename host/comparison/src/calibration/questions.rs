//! What is asked of one record, and of the records of a card and of a desk. The records stand right before a guard, or
//! right after one.

use gorvisclen::{CALIBRATION_NUMBERS, DUE_BYTES, PROFILE_NUMBERS, SHOWN_NUMBERS};

use super::model;
use super::operations::{lapsed, read, serial, shown, shown_from};
use super::samples::random_date;
use crate::call::Call;
use crate::guarded::with_guards;
use crate::loops::pairs;
use crate::random::Random;
use crate::response::random_out_len;
use crate::tally::Tally;

/// Records for the other side. The first is good; the others are of another form, with a date that there is not, and no
/// bytes.
const OTHERS: [&[u8]; 4] = [
    &[0xE1, 0x10, 0xC1, 0x02, 0x5A, 0x5A, 0xC2, 0x04, 0x20, 0x31, 0x08, 0x07, 0xC3, 0x04, 0x00, 0x00, 0x00, 0x09],
    &[0xE1, 0x0F, 0xC1, 0x01, 0x5A, 0xC2, 0x04, 0x20, 0x31, 0x08, 0x07, 0xC4, 0x04, 0x00, 0x00, 0x00, 0x09],
    &[0xE1, 0x0F, 0xC1, 0x01, 0x5A, 0xC2, 0x04, 0x20, 0x31, 0x09, 0x31, 0xC3, 0x04, 0x00, 0x00, 0x00, 0x09],
    &[],
];

/// The length of a `to` for `n` bytes: mostly long enough.
fn random_to_len(random: &mut Random, n: usize) -> usize {
    match random.below(10) {
        0 => random.below(n + 1),
        1 => n.saturating_sub(1),
        more => n + more % 3,
    }
}

/// The length of the serial of a record; 0 if the record is refused.
fn serial_len(record: &[u8]) -> usize {
    model::read(record).map_or(0, |profile| profile.serial.len())
}

/// A record: its fields. Then one more question of it.
pub fn read_and_one(tally: &mut Tally, random: &mut Random, record: &[u8]) {
    let (at_end, other) = (random.below(4) > 0, random.one_of(&OTHERS));
    with_guards(|[here, ..]| {
        let record = here.copy(record, at_end);
        read(record).compare_numbers(tally, PROFILE_NUMBERS + random.below(2));
        let out_len = random_out_len(random, CALIBRATION_NUMBERS);
        match random.below(4) {
            0 => serial(record).compare(tally, random_to_len(random, serial_len(record)), out_len),
            1 => lapsed(record, random_date(random, record)).compare_numbers(tally, out_len),
            2 => shown(record, other).compare(tally, random_to_len(random, DUE_BYTES), out_len),
            _ => shown_from(other, record).compare_numbers(tally, random_out_len(random, SHOWN_NUMBERS)),
        }
    });
}

/// A record: its fields, its serial, whether it has lapsed on a date, and what is shown if it is the card's, and if it
/// is the desk's and the card's is refused.
pub fn every_question(tally: &mut Tally, random: &mut Random, record: &[u8]) {
    let (at_end, given) = (random.below(4) > 0, random_date(random, record));
    let [desk, card] = [random.one_of(&OTHERS), random.one_of(&OTHERS[1..])];
    with_guards(|[here, ..]| {
        let record = here.copy(record, at_end);
        read(record).compare_numbers(tally, PROFILE_NUMBERS + random.below(2));
        let n = serial_len(record);
        serial(record).compare(tally, n + random.below(3), CALIBRATION_NUMBERS + random.below(2));
        lapsed(record, given).compare_numbers(tally, CALIBRATION_NUMBERS + random.below(2));
        match random.below(4) {
            0 => read(record).compare_numbers(tally, random.below(PROFILE_NUMBERS)),
            1 => serial(record).compare(tally, n.saturating_sub(1), CALIBRATION_NUMBERS),
            2 => serial(record).compare(tally, random.below(n + 2), 0),
            _ => lapsed(record, given).compare_numbers(tally, 0),
        }
    });
    both(tally, random, record, desk);
    both(tally, random, card, record);
}

/// The due date shown of two records, and whose it is. Often also with buffers that are too short.
pub fn both(tally: &mut Tally, random: &mut Random, card: &[u8], desk: &[u8]) {
    let at_end = random.below(4) > 0;
    with_guards(|[one, other, ..]| {
        let (card, desk) = (one.copy(card, at_end), other.copy(desk, at_end));
        shown(card, desk).compare(tally, DUE_BYTES + random.below(2), CALIBRATION_NUMBERS + random.below(2));
        shown_from(card, desk).compare_numbers(tally, SHOWN_NUMBERS + random.below(2));
        match random.below(8) {
            0 => shown(card, desk).compare(tally, random.below(DUE_BYTES), random.below(CALIBRATION_NUMBERS + 1)),
            1 => shown(card, desk).compare(tally, DUE_BYTES, 0),
            2 => shown_from(card, desk).compare_numbers(tally, random.below(SHOWN_NUMBERS)),
            _ => (),
        }
    });
}

/// A record with `out` and `to` of every length up to one more than is needed, and on these dates.
pub fn every_length(tally: &mut Tally, record: &[u8], dates: &[[u32; 3]]) {
    let to_lens = 0..=serial_len(record) + 1;
    with_guards(|[here, ..]| {
        let record = here.copy(record, true);
        (0..=PROFILE_NUMBERS + 1).for_each(|out_len| read(record).compare_numbers(tally, out_len));
        for (to_len, out_len) in pairs(to_lens, 0..=CALIBRATION_NUMBERS + 1) {
            serial(record).compare(tally, to_len, out_len);
        }
        for (&date, out_len) in pairs(dates, 0..=CALIBRATION_NUMBERS + 1) {
            lapsed(record, date).compare_numbers(tally, out_len);
        }
    });
}

/// A record with `out` and `to` whose lengths are 0 if they are cut to one or two bytes. It is the card's and the
/// desk's at once.
pub fn long_buffers(tally: &mut Tally, record: &[u8]) {
    for long in [256, 65_536] {
        read(record).compare_numbers(tally, long);
        lapsed(record, [2026, 12, 31]).compare_numbers(tally, long);
        shown_from(record, record).compare_numbers(tally, long);
        for (to_len, out_len) in [(long, CALIBRATION_NUMBERS), (DUE_BYTES, long), (long, long)] {
            serial(record).compare(tally, to_len, out_len);
            shown(record, record).compare(tally, to_len, out_len);
        }
    }
}

/// Two records, with `out` and `to` of every length up to one more than is needed.
pub fn every_length_of_both(tally: &mut Tally, card: &[u8], desk: &[u8]) {
    with_guards(|[one, other, ..]| {
        let (card, desk) = (one.copy(card, true), other.copy(desk, true));
        for (to_len, out_len) in pairs(0..=DUE_BYTES + 1, 0..=CALIBRATION_NUMBERS + 1) {
            shown(card, desk).compare(tally, to_len, out_len);
        }
        (0..=SHOWN_NUMBERS + 1).for_each(|out_len| shown_from(card, desk).compare_numbers(tally, out_len));
    });
}
