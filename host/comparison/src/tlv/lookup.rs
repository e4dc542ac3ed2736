//! The calls that look up a path: the place of the value, and its bytes.

use gorvisclen::{CRATE_READING, LOOKUP_NUMBERS, STANDARD_READING};
use original::tlv::Tag;

use super::labels::{WalkLabels, LOOKUP, VALUE};
use super::take::check_model;
use super::{model, rust_walk};
use crate::answer::{is_accepted, Answer, Told, Writes};
use crate::call::{call, Call, Input};
use crate::hex::Hex;
use crate::recording::{Arguments, Operation};
use crate::tally::{Labels, Tally};

/// A lookup: the reading, the record and the path.
#[derive(Clone, Copy, Debug)]
pub struct Lookup<'a> {
    reading: u8,
    pub record: Hex<'a, u8>,
    path: Hex<'a, u32>,
}

/// What a lookup finds, in a table: the value's place, its bytes, and how many tags matched. Or a refusal, its place,
/// and how many tags matched.
pub type Found<'a> = Result<(u64, &'a [u8], u64), (u8, u64, u64)>;

/// The Rust's tag with a number; none if the number is too large. All ways to make it must agree.
pub fn rust_tag(number: &u32) -> Option<Tag> {
    let [0, b1, b2, b3] = number.to_be_bytes() else { return None };
    let tag = Tag::from([b1, b2, b3]);
    let two = u16::from_be_bytes([b2, b3]);
    let same = match [b1, b2] {
        [0, 0] => [Tag::from(b3), Tag::from([b3]), Tag::from_u8(b3)] == [tag; 3],
        [0, _] => [Tag::from(two), Tag::from([b2, b3]), Tag::from_u16(two)] == [tag; 3],
        _ => Tag::from_3([b1, b2, b3]) == tag,
    };
    assert!(same, "the Rust's tags differ: {number:X}");
    Some(tag)
}

impl Input for Lookup<'_> {
    fn add_to<'a>(&'a self, arguments: &mut Arguments<'a>) {
        self.reading.add_to(arguments);
        self.record.add_to(arguments);
        self.path.iter().for_each(|&number| arguments.number(number as usize));
    }

    /// The record and the path.
    fn lent_bytes(&self) -> Vec<u8> {
        let path = self.path.iter().flat_map(|number| number.to_be_bytes());
        self.record.iter().copied().chain(path).collect()
    }
}

impl<'a> Lookup<'a> {
    pub fn new(reading: u8, record: &'a [u8], path: &'a [u32]) -> Self {
        let (record, path) = (Hex(record), Hex(path));
        Lookup { reading, record, path }
    }

    /// The numbers that must be told. In the crate's reading they are the Rust's, with which the model must agree. In
    /// the standard reading, and if a number of the path is too large for the Rust, they are the model's.
    pub fn told(&self) -> Told<LOOKUP_NUMBERS> {
        let model = model::lookup(self.reading, &self.record, &self.path);
        let tags: Option<Vec<Tag>> = self.path.iter().map(rust_tag).collect();
        match (self.reading, tags) {
            (CRATE_READING, Some(tags)) => {
                let rust = rust_walk::lookup(&tags, &self.record);
                check_model(&rust, &model, || self);
                rust
            }
            _ => model,
        }
    }

    /// The value; no bytes if none is found.
    fn value(&self, told: Told<LOOKUP_NUMBERS>) -> &'a [u8] {
        told.map_or(&[], |[place, len, _]| &self.record.0[place as usize..][..len as usize])
    }

    /// The length of the value; 0 if none is found.
    pub fn len(&self) -> usize {
        self.value(self.told()).len()
    }

    /// Whether the path has a number that no tag of the Rust can hold.
    fn has_too_large_number(&self) -> bool {
        self.path.iter().any(|&number| number > 0xFF_FFFF)
    }

    /// The operation, if the Rust has it.
    fn if_recorded(&self, operation: Operation) -> Option<Operation> {
        (self.reading == CRATE_READING && !self.has_too_large_number()).then_some(operation)
    }

    /// The labels that it is counted under.
    fn labels(&self, labels: &WalkLabels, answer: &Answer<LOOKUP_NUMBERS>) -> Labels {
        let accepted = is_accepted(answer);
        // The level that the lookup ends in: a tag matched before it.
        let deeper = answer.as_ref().is_ok_and(|writes| writes.numbers[2] > accepted.into());
        match self.reading {
            CRATE_READING if self.has_too_large_number() => (labels.no_rust, &[]),
            STANDARD_READING.. if model::ends_after_zeros(self.reading, &self.record, &self.path) => {
                labels.after_zeros(deeper)
            }
            reading => labels.labels(reading, accepted, deeper),
        }
    }

    /// Compares both calls with what is found by a table, under a label of its own.
    pub fn compare_with_table(self, tally: &mut Tally, label: &'static str, found: Found) {
        let (told, bytes) = match found {
            Ok((place, bytes, matched)) => (Ok([place, bytes.len() as u64, matched]), bytes),
            Err((number, place, matched)) => (Err((number, [place, 0, matched])), &[][..]),
        };
        find(self).compare_with_table(tally, label, &Ok(told.into()), 0);
        let copied = Writes { bytes: bytes.into(), ..told.into() };
        value(self).compare_with_table(tally, label, &Ok(copied), bytes.len() + 2);
    }
}

/// The place of a value and its length, or where the lookup is refused; and how many tags matched.
pub fn find(lookup: Lookup<'_>) -> impl Call<LOOKUP_NUMBERS> + '_ {
    call(
        (LOOKUP.read, &[]),
        lookup,
        |lookup, _, out| gorvisclen::get_data_object(lookup.reading, &lookup.record, &lookup.path, out),
        |lookup, _| Ok(lookup.told().into()),
    )
    .labelled_by(|lookup, _, answer| Some(lookup.labels(&LOOKUP, answer)))
    .recorded_as(lookup.if_recorded(Operation::GetDataObject))
}

/// The same, and the bytes of the value.
pub fn value(lookup: Lookup<'_>) -> impl Call<LOOKUP_NUMBERS> + '_ {
    call(
        (VALUE.read, &[]),
        lookup,
        |lookup, to, out| gorvisclen::value(lookup.reading, &lookup.record, &lookup.path, to, out),
        |lookup, _| {
            let told = lookup.told();
            Ok(Writes { bytes: lookup.value(told).into(), ..told.into() })
        },
    )
    .labelled_by(|lookup, _, answer| Some(lookup.labels(&VALUE, answer)))
    .recorded_as(lookup.if_recorded(Operation::Value))
}
