//! The labels that the calls of a walk in chunks are counted under.

use gorvisclen::{ChunkWalk, CHUNK_NUMBERS};

use crate::answer::Told;
use crate::loops::pairs;
use crate::tally::Labels;

/// Labels by what is told.
pub struct ChunkLabels {
    more: &'static str,
    head: &'static str,
    end: &'static str,
    empty: &'static str,
    unreadable: &'static str,
    repeated: &'static str,
    /// At a boundary, inside an object, and after the walk has stopped.
    closed: [&'static str; 3],
}

macro_rules! chunk_labels {
    ($what:literal, $by:literal, $after:literal) => {
        ChunkLabels {
            more: concat!($what, "more bytes are needed", $by),
            head: concat!($what, "a header is complete", $by),
            end: concat!($what, "a value is complete", $by),
            empty: concat!($what, "a header is complete, and its value of no bytes", $by),
            unreadable: concat!($what, "a header cannot be read", $by),
            repeated: concat!($what, "a chunk after the walk has stopped", $after),
            closed: [
                concat!($what, "closed at a boundary", $by),
                concat!($what, "closed inside an object", $by),
                concat!($what, "closed after the walk has stopped", $after),
            ],
        }
    };
}

/// A call in a state that some record leads to, beside the model.
pub const BY_MODEL: ChunkLabels =
    chunk_labels!("chunks: ", " (no Rust: checked against a model)", " (no Rust: checked against a model)");

/// A call in a state that no record leads to, beside the model.
pub const NO_RECORD: ChunkLabels = chunk_labels!(
    "chunks, a state that no record leads to: ",
    " (no Rust: checked against a model)",
    " (no Rust: checked against a model)"
);

/// A call on the way through a record, beside the Rust's reading of the whole record; after the refusal there is only a
/// rule.
pub const BY_RUST: ChunkLabels = chunk_labels!(
    "a record in chunks: ",
    ", beside take_data_object",
    " (checked against a rule: the refusal again, nothing changes)"
);

pub const UNSEEN: &str =
    "chunks: bytes of a value and bytes that are not taken inverted (checked against a rule: nothing changes)";
pub const EVERY_DIVISION: &str =
    "every division of short strings: replies joined and state at the end, beside take_data_object";
pub const SOME_DIVISIONS: &str = "divisions of records: replies joined and state at the end, beside take_data_object";

impl ChunkLabels {
    /// The labels of a chunk that is handed in, by the state and by what is told.
    pub fn of_take(&self, state: ChunkWalk, told: &Told<CHUNK_NUMBERS>) -> Labels {
        let label = match told {
            Err(_) if state.kind >= 8 => self.repeated,
            Err(_) => self.unreadable,
            Ok([0, 0, ..]) => self.more,
            Ok([_, 0, ..]) => self.head,
            Ok([0, ..]) => self.end,
            Ok(_) => self.empty,
        };
        (label, &[])
    }

    /// The labels of a closing call, by the state.
    pub fn of_close(&self, state: ChunkWalk) -> Labels {
        let label = match state.kind {
            0 => self.closed[0],
            1..=7 => self.closed[1],
            _ => self.closed[2],
        };
        (label, &[])
    }

    /// Each label with each reply that must come under it.
    fn required(self) -> impl Iterator<Item = (&'static str, u8)> {
        let done = pairs([self.more, self.head, self.end, self.empty], [0, 16]);
        let [at_boundary, inside, again] = self.closed;
        let refused = [(self.unreadable, 12), (at_boundary, 11), (inside, 12)];
        done.chain(refused).chain(pairs([self.repeated, again], [11, 12]))
    }
}

/// The labels under which some replies must come, each with such a reply, 0 for done. 16 is that of an `out` that is
/// too short.
pub fn required() -> impl Iterator<Item = (&'static str, u8)> {
    let of_calls = [BY_MODEL, NO_RECORD, BY_RUST].into_iter().flat_map(ChunkLabels::required);
    of_calls.chain(pairs([UNSEEN], [0, 11, 12])).chain(pairs([EVERY_DIVISION, SOME_DIVISIONS], [11, 12]))
}
