//! The calibration profile. The Rust does not have it: a model of request 7 says what is right (`model.rs`). Its dates
//! are those of a calendar that another program prints (`calendar.rs`). `dates.rs` goes through all dates, `forms.rs`
//! has records of another form, `building.rs` those that are written. Most records and serials are between guards
//! (`guarded.rs`).

mod benchmark;
mod building;
mod calendar;
mod dates;
mod document_cases;
mod forms;
mod labels;
mod model;
mod operations;
mod questions;
mod samples;

use gorvisclen::{CRATE_READING, STANDARD_READING};

pub use self::benchmark::bench;
use self::building::{back_again, random_fields};
pub use self::labels::required as required_replies;
use self::labels::LOOKED_UP;
use self::operations::{shown, shown_from};
use self::questions::{both, every_length, every_length_of_both, every_question, long_buffers};
use self::samples::{any_good_record, good_record, no_date, record_due, template};
use crate::call::Call;
use crate::loops::pairs;
use crate::random::Random;
use crate::tally::Tally;
use crate::tlv::Lookup;

/// Due dates: also such that one is earlier by the year, by the month or by the day alone, while another part is
/// greater. The last ones there are not.
const DUE_DATES: [[u8; 4]; 13] = [
    [0x20, 0x26, 0x12, 0x31],
    [0x20, 0x26, 0x10, 0x09],
    [0x20, 0x26, 0x11, 0x10],
    [0x20, 0x25, 0x12, 0x31],
    [0x20, 0x27, 0x01, 0x01],
    [0x20, 0x24, 0x02, 0x29],
    [0x20, 0x00, 0x01, 0x01],
    [0x20, 0x99, 0x12, 0x31],
    [0x20, 0x26, 0x02, 0x29],
    [0x20, 0x26, 0x13, 0x01],
    [0x20, 0x2A, 0x12, 0x31],
    [0x19, 0x99, 0x12, 0x31],
    [0x21, 0x00, 0x01, 0x01],
];

/// Records of cards and desks: good ones, with dates that there are not, and of other forms.
fn pool(random: &mut Random) -> Vec<Vec<u8>> {
    let mut records: Vec<Vec<u8>> = DUE_DATES.map(|due| record_due(random, 4, due)).to_vec();
    records.extend([1, 2, 15, 16].map(|n| good_record(random, n)));
    records.extend([1, 16].map(|n| record_due(random, n, [0x20, 0x26, 0x04, 0x31])));
    let good = good_record(random, 4);
    let padded = [&[0x00], &good[..]].concat();
    let longer = [&good[..], &[0x00]].concat();
    let long_form = [&[0xE1, 0x81], &good[1..]].concat();
    let other_tag = [&[0xE2], &good[1..]].concat();
    let no_date_either = [&[0xE2], &records[8][1..]].concat();
    records.extend([vec![], vec![0xE1], template(&[]), good[..good.len() - 1].to_vec()]);
    records.extend([padded, longer, long_form, other_tag, no_date_either]);
    records
}

/// All pairs of the pool; and each record of it with buffers of every length.
fn every_pair(tally: &mut Tally, random: &mut Random) {
    let pool = pool(random);
    for (card, desk) in pairs(&pool, &pool) {
        every_length_of_both(tally, card, desk);
    }
    for record in &pool {
        // The card's record and the desk's are the same memory.
        shown(record, record).compare(tally, 4, 1);
        shown_from(record, record).compare_numbers(tally, 2);
        every_length(tally, record, &[[2026, 11, 10], [2026, 2, 29], [2000, 1, 1], [1999, 12, 31], [2100, 1, 1]]);
        long_buffers(tally, record);
    }
}

/// In a good record a lookup finds the due date that is shown, in both readings.
fn looked_up(tally: &mut Tally, record: &[u8]) {
    let shown = model::shown(record, &[]).expect("a good record");
    for reading in [CRATE_READING, STANDARD_READING] {
        let lookup = Lookup::new(reading, record, &[0xE1, 0xC2]);
        lookup.compare_with_table(tally, LOOKED_UP, Ok((shown.place as u64, shown.bytes, 2)));
    }
}

/// A random good record: as it is, with a byte changed, damaged, cut, lengthened, and with a date that there is not;
/// and pairs of these.
fn random_records(tally: &mut Tally, random: &mut Random) {
    let record = any_good_record(random);
    let n = record.len();
    let (cut, more) = (random.below(n), random.byte());
    let other_date = no_date(random);
    let no_date = record_due(random, n - 16, other_date);
    let [changed, damaged] = [random.one_byte_off(&record), random.damaged(&record)];
    let lengthened = [&record[..], &[more]].concat();
    let all: [&[u8]; 7] =
        [&record, &changed, &damaged, &record[..cut], &lengthened, &no_date, &any_good_record(random)];
    for record in all {
        every_question(tally, random, record);
    }
    for _ in 0..4 {
        let [card, desk] = [0; 2].map(|_| random.one_of(&all));
        both(tally, random, card, desk);
    }
    back_again(tally, &record);
    looked_up(tally, &record);
}

/// Random records and random fields.
pub fn random_cases(tally: &mut Tally, random: &mut Random) {
    random_records(tally, random);
    random_fields(tally, random);
}

/// The short run.
pub fn compare(tally: &mut Tally, random: &mut Random) {
    document_cases::compare(tally);
    dates::compare(tally, random);
    forms::compare(tally, random);
    every_pair(tally, random);
    building::compare(tally, random);
    for _ in 0..4_000 {
        random_cases(tally, random);
    }
}
