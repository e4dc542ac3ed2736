//! The labels that the calls on calibration records are counted under.

use std::cmp::Ordering;

use super::model::Shown;
use crate::loops::pairs;
use crate::tally::Labels;

macro_rules! by_model {
    ($($words:literal),*) => {
        concat!($($words,)* " (no Rust: checked against a model)")
    };
}

pub const READ: Labels = (by_model!("read_profile"), &[]);
pub const SERIAL: Labels = (by_model!("profile_serial"), &[]);
pub const SERIAL_NO_ROOM: Labels = (by_model!("profile_serial, it does not fit into `to`"), &[]);
pub const LAPSED: Labels = (by_model!("has_lapsed, due earlier"), &[]);
const DUE_THAT_DAY: Labels = (by_model!("has_lapsed, due on the given date"), &[]);
const DUE_LATER: Labels = (by_model!("has_lapsed, due later"), &[]);
pub const LAPSED_REFUSED: Labels = (by_model!("has_lapsed, the record is refused"), &[]);
pub const NO_GIVEN_DATE: Labels = (by_model!("has_lapsed, no such given date"), &[]);
pub const WRITTEN: Labels = (by_model!("put_profile"), &[]);
pub const NO_SERIAL: Labels = (by_model!("put_profile, a serial of no bytes or too many"), &[]);
pub const NO_DATE: Labels = (by_model!("put_profile, no such date"), &[]);
pub const WRITTEN_NO_ROOM: Labels = (by_model!("put_profile, it does not fit into the buffer"), &[]);
pub const READ_BACK: Labels = ("read_profile of what put_profile wrote (checked against a rule: the same fields)", &[]);
pub const SERIAL_BACK: Labels =
    ("profile_serial of what put_profile wrote (checked against a rule: the same serial)", &[]);
pub const WRITTEN_BACK: Labels =
    ("put_profile of what was read of a record (checked against a rule: the same record)", &[]);
pub const LOOKED_UP: &str = "a lookup of E1, C2 in a good record (checked against a rule: the due date that is shown)";

/// The label of a due date that is earlier than the given one, the same, or later.
pub fn lapsed(due: Ordering) -> Labels {
    match due {
        Ordering::Less => LAPSED,
        Ordering::Equal => DUE_THAT_DAY,
        Ordering::Greater => DUE_LATER,
    }
}

/// The labels of the due date shown. Those in pairs are for a card's record that is refused with 26 and with 27.
pub struct ShownLabels {
    pub card: Labels,
    desk: [Labels; 2],
    neither: [Labels; 2],
}

macro_rules! shown_labels {
    ($operation:literal) => {
        ShownLabels {
            card: (by_model!($operation, ", the card's"), &[]),
            desk: [
                (by_model!($operation, ", the desk's, since the card's is 26"), &[]),
                (by_model!($operation, ", the desk's, since the card's is 27"), &[]),
            ],
            neither: [
                (by_model!($operation, ", both refused, the card's with 26"), &[]),
                (by_model!($operation, ", both refused, the card's with 27"), &[]),
            ],
        }
    };
}

pub const SHOWN: ShownLabels = shown_labels!("due_shown");
pub const SHOWN_FROM: ShownLabels = shown_labels!("due_shown_from");
pub const SHOWN_NO_ROOM: Labels = (by_model!("due_shown, it does not fit into `to`"), &[]);

impl ShownLabels {
    /// The labels by the refusal of the card's record, if there is one, and by what is shown.
    pub fn labels(&self, refused: Option<u8>, shown: &Result<Shown, u8>) -> Labels {
        match (refused, shown) {
            (None, _) => self.card,
            (Some(number), Ok(_)) => self.desk[usize::from(number == 27)],
            (Some(number), Err(_)) => self.neither[usize::from(number == 27)],
        }
    }

    /// Each label with each reply that must come under it.
    fn required(self) -> impl Iterator<Item = (Labels, u8)> {
        let shown = pairs([self.card].into_iter().chain(self.desk), [0, 16]);
        shown.chain(pairs(self.neither, [26, 27, 16]))
    }
}

/// The other labels under which some replies must come.
const REQUIRED: [(Labels, &[u8]); 17] = [
    (READ, &[0, 26, 27, 16]),
    (SERIAL, &[0, 26, 27, 16]),
    (SERIAL_NO_ROOM, &[16]),
    (LAPSED, &[0, 16]),
    (DUE_THAT_DAY, &[0, 16]),
    (DUE_LATER, &[0, 16]),
    (LAPSED_REFUSED, &[26, 27, 16]),
    (NO_GIVEN_DATE, &[27, 16]),
    (SHOWN_NO_ROOM, &[16]),
    (WRITTEN, &[0, 16]),
    (NO_SERIAL, &[26, 16]),
    (NO_DATE, &[27, 16]),
    (WRITTEN_NO_ROOM, &[16]),
    (READ_BACK, &[0]),
    (SERIAL_BACK, &[0]),
    (WRITTEN_BACK, &[0]),
    ((LOOKED_UP, &[]), &[0]),
];

/// The labels under which some replies must come, each with such a reply, 0 for done. 16 is that of an `out` that is
/// too short; under the labels of what does not fit, that of `to` or of the buffer.
pub fn required() -> impl Iterator<Item = (&'static str, u8)> {
    let others = REQUIRED.into_iter().flat_map(|(labels, replies)| pairs([labels], replies.iter().copied()));
    let all = others.chain(SHOWN.required()).chain(SHOWN_FROM.required());
    all.map(|((label, _), reply)| (label, reply))
}
