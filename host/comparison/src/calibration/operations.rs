//! The calls on calibration records. The Rust has none of them: the model says what is right.

use std::fmt;

use gorvisclen::{CALIBRATION_NUMBERS, DUE_BYTES, PROFILE_NUMBERS, SHOWN_NUMBERS};

use super::calendar::calendar;
use super::labels::{self, SHOWN, SHOWN_FROM};
use super::model;
use crate::answer::{Answer, Writes};
use crate::call::{call, Call, Input};
use crate::hex::Hex;
use crate::recording::Arguments;
use crate::tally::Labels;

/// A year, a month and a day, which may be no date.
#[derive(Clone, Copy)]
pub struct Date(pub [u32; 3]);

impl fmt::Debug for Date {
    fn fmt(&self, f: &mut fmt::Formatter<'_>) -> fmt::Result {
        let [year, month, day] = self.0;
        write!(f, "{year}-{month}-{day}")
    }
}

impl Input for Date {}

/// What a record is written of.
#[derive(Clone, Copy, Debug)]
pub struct Fields<'a> {
    pub serial: Hex<'a, u8>,
    pub date: Date,
    pub capacity: u32,
}

impl<'a> Fields<'a> {
    pub fn new(serial: &'a [u8], date: [u32; 3], capacity: u32) -> Self {
        Fields { serial: Hex(serial), date: Date(date), capacity }
    }

    /// The record, or the refusal.
    pub fn record(&self) -> Result<Vec<u8>, u8> {
        model::written(&self.serial, self.date.0, self.capacity)
    }

    /// Writes the record by the library.
    pub fn put(&self, buffer: &mut [u8], at: usize, out: &mut [u64]) -> gorvisclen::Reply {
        gorvisclen::put_profile(&self.serial, self.date.0, self.capacity, buffer, at, out)
    }
}

impl Input for Fields<'_> {
    fn add_to<'a>(&'a self, arguments: &mut Arguments<'a>) {
        self.serial.add_to(arguments);
    }
}

/// The records of a card and of a desk.
type Both<'a> = (Hex<'a, u8>, Hex<'a, u8>);

/// The fields of a record.
pub fn read(record: &[u8]) -> impl Call<PROFILE_NUMBERS> + '_ {
    call(
        labels::READ,
        Hex(record),
        |record, _, out| gorvisclen::read_profile(record, out),
        |record, _| Ok(model::read(record)?.numbers().into()),
    )
}

/// The copy of a record's serial.
pub fn serial(record: &[u8]) -> impl Call<CALIBRATION_NUMBERS> + '_ {
    call(
        labels::SERIAL,
        Hex(record),
        |record, to, out| gorvisclen::profile_serial(record, to, out),
        |record, _| {
            let serial = model::read(record.0)?.serial;
            Ok(Writes::new([serial.len() as u64], 0, serial))
        },
    )
    .labelled_by(|_, to_len, answer| does_not_fit(to_len, answer).then_some(labels::SERIAL_NO_ROOM))
}

/// Whether a record has lapsed on a given date.
pub fn lapsed(record: &[u8], given: [u32; 3]) -> impl Call<CALIBRATION_NUMBERS> + '_ {
    call(
        labels::LAPSED,
        (Hex(record), Date(given)),
        |(record, given), _, out| gorvisclen::has_lapsed(record, given.0, out),
        |(record, given), _| Ok([model::has_lapsed(record, given.0)?.into()].into()),
    )
    .labelled_by(|(record, given), _, _| {
        let label = match (model::read(record), calendar().place_of_numbers(given.0)) {
            (Err(_), _) => labels::LAPSED_REFUSED,
            (Ok(_), None) => labels::NO_GIVEN_DATE,
            (Ok(profile), Some(given)) => labels::lapsed(profile.due.cmp(&given)),
        };
        Some(label)
    })
}

/// The labels of the due date shown.
fn shown_labels((card, desk): &Both, labels: &labels::ShownLabels) -> Labels {
    labels.labels(model::read(card).err(), &model::shown(card, desk))
}

/// The copy of the due date shown.
pub fn shown<'a>(card: &'a [u8], desk: &'a [u8]) -> impl Call<CALIBRATION_NUMBERS> + 'a {
    call(
        SHOWN.card,
        (Hex(card), Hex(desk)),
        |(card, desk), to, out| gorvisclen::due_shown(card, desk, to, out),
        |(card, desk), _| Ok(Writes::new([DUE_BYTES as u64], 0, model::shown(card.0, desk.0)?.bytes)),
    )
    .labelled_by(|both, to_len, answer| {
        Some(if does_not_fit(to_len, answer) { labels::SHOWN_NO_ROOM } else { shown_labels(both, &SHOWN) })
    })
}

/// Whose due date is shown, and its place.
pub fn shown_from<'a>(card: &'a [u8], desk: &'a [u8]) -> impl Call<SHOWN_NUMBERS> + 'a {
    call(
        SHOWN_FROM.card,
        (Hex(card), Hex(desk)),
        |(card, desk), _, out| gorvisclen::due_shown_from(card, desk, out),
        |(card, desk), _| {
            let shown = model::shown(card, desk)?;
            Ok([shown.whose, shown.place as u64].into())
        },
    )
    .labelled_by(|both, _, _| Some(shown_labels(both, &SHOWN_FROM)))
}

/// A record that is written into a buffer from a place. The buffer is `to`.
pub fn put(fields: Fields<'_>, at: usize) -> impl Call<CALIBRATION_NUMBERS> + '_ {
    call(
        labels::WRITTEN,
        (fields, at),
        |(fields, at), to, out| fields.put(to, *at, out),
        |(fields, at), _| {
            let record = fields.record()?;
            Ok(Writes::new([record.len() as u64], *at, record))
        },
    )
    .labelled_by(|_, to_len, answer| {
        Some(match answer {
            Err(26) => labels::NO_SERIAL,
            Err(_) => labels::NO_DATE,
            Ok(_) if does_not_fit(to_len, answer) => labels::WRITTEN_NO_ROOM,
            Ok(_) => labels::WRITTEN,
        })
    })
}

/// Whether the bytes of an answer do not fit into a `to` of this length.
fn does_not_fit(to_len: usize, answer: &Answer<CALIBRATION_NUMBERS>) -> bool {
    let fits = |writes: &Writes<_>| to_len.checked_sub(writes.at).is_some_and(|room| writes.bytes.len() <= room);
    answer.as_ref().is_ok_and(|writes| !fits(writes))
}
