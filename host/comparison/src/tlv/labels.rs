//! The labels that the operations on BER records are counted under.

use gorvisclen::CRATE_READING;

use crate::loops::pairs;
use crate::tally::Labels;

/// The labels of a tag or a length: if the Rust reads it, if it returns `None`, and in the standard reading.
pub struct TakeLabels {
    read: &'static str,
    not_read: &'static str,
    standard: &'static str,
    /// The label of each number of the Rust's answer.
    number_labels: &'static [&'static str],
}

macro_rules! take_labels {
    ($operation:literal $(, $number:literal)*) => {
        TakeLabels {
            read: $operation,
            not_read: concat!($operation, ", None (11 or 12: checked against a model of document 01)"),
            standard: concat!($operation, ", standard reading (checked against a model of EMV Book 3 Annex B)"),
            number_labels: &[$(concat!($operation, ", ", $number)),*],
        }
    };
}

pub const TAG: TakeLabels = take_labels!("take_tag", "the tag", "how many bytes it takes");
pub const LEN: TakeLabels = take_labels!("take_len", "the length", "how many bytes it takes");

impl TakeLabels {
    /// The labels for an answer that is accepted or refused.
    pub fn labels(&self, reading: u8, accepted: bool) -> Labels {
        match (reading, accepted) {
            (CRATE_READING, true) => (self.read, self.number_labels),
            (CRATE_READING, false) => (self.not_read, &[]),
            _ => (self.standard, &[]),
        }
    }
}

/// The labels of an object or a lookup. Those of refusals are in pairs: at the start of the record, or at the top
/// level; and further on, or in an entered value. So are those of answers, refusals or not, right after zero bytes that
/// the standard reading skips.
pub struct WalkLabels {
    pub read: &'static str,
    not_read: [&'static str; 2],
    standard: &'static str,
    standard_not_read: [&'static str; 2],
    after_zeros: [&'static str; 2],
    /// If the Rust has no such call: an object past the end, a lookup of a number that no tag of the Rust can hold.
    pub no_rust: &'static str,
    /// The label of each number of the Rust's answer.
    number_labels: &'static [&'static str],
}

macro_rules! walk_labels {
    ($operation:literal, [$($where:literal),*], $no_rust:literal $(, $number:literal)*) => {
        WalkLabels {
            read: $operation,
            not_read: [$(concat!(
                $operation,
                ", None ",
                $where,
                " (11 or 12 and its place: where the Rust's steps end)"
            )),*],
            standard: concat!($operation, ", standard reading (checked against a model of EMV Book 3 Annex B)"),
            standard_not_read: [$(concat!(
                $operation,
                ", standard reading, 11 or 12 ",
                $where,
                " (checked against a model of EMV Book 3 Annex B)"
            )),*],
            after_zeros: [$(concat!(
                $operation,
                ", standard reading, after zero bytes ",
                $where,
                " (checked against a model of EMV Book 3 Annex B)"
            )),*],
            no_rust: concat!($operation, $no_rust),
            number_labels: &[$(concat!($operation, ", ", $number)),*],
        }
    };
}

pub const OBJECT: WalkLabels = walk_labels!(
    "take_data_object",
    ["at the record's start", "at a later place"],
    ", a place past the end (no Rust: checked against a rule, 11 at the end)",
    "the object's place",
    "the tag",
    "the value's place",
    "the value's length"
);
pub const LOOKUP: WalkLabels = walk_labels!(
    "get_data_object",
    ["at the top level", "in an entered value"],
    ", a number above FFFFFF (checked against a model of document 01)",
    "the value's place",
    "the value's length",
    "how many tags matched"
);
pub const VALUE: WalkLabels = walk_labels!(
    "get_data_object, the value's bytes",
    ["at the top level", "in an entered value"],
    ", a number above FFFFFF (checked against a model of document 01)"
);

/// The label of a value's bytes in a record and in a copy without zero bytes between objects.
pub const ZEROS_REMOVED: &str =
    "get_data_object, the value's bytes, standard reading, zeros removed (checked against a rule: only places change)";

impl WalkLabels {
    /// The labels for an answer right after zero bytes that are skipped. `further` says that it is of the second kind.
    pub fn after_zeros(&self, further: bool) -> Labels {
        (self.after_zeros[usize::from(further)], &[])
    }

    /// The labels for another answer. `further` says of a refusal that it is of the second kind.
    pub fn labels(&self, reading: u8, accepted: bool, further: bool) -> Labels {
        match (reading, accepted) {
            (CRATE_READING, true) => (self.read, self.number_labels),
            (CRATE_READING, false) => (self.not_read[usize::from(further)], &[]),
            (_, true) => (self.standard, &[]),
            (_, false) => (self.standard_not_read[usize::from(further)], &[]),
        }
    }
}

/// The labels under which some replies must come, each with such a reply: 11 and 12; and 0, for done, too if zero bytes
/// are skipped or removed.
pub fn required() -> impl Iterator<Item = (&'static str, u8)> {
    let of_walk = |labels: WalkLabels| {
        let refused = [labels.not_read, labels.standard_not_read].concat();
        pairs(refused, [11, 12]).chain(pairs(labels.after_zeros, [0, 11, 12]))
    };
    [OBJECT, LOOKUP, VALUE].into_iter().flat_map(of_walk).chain(pairs([ZEROS_REMOVED], [0, 11, 12]))
}
