//! What calls tell of a record in chunks: the eight numbers of one call, and the events of all calls together.

use gorvisclen::{ChunkWalk, CHUNK_NUMBERS};

/// Which of the eight numbers says how many bytes were taken.
pub const TAKEN: usize = 4;

/// What a call tells, apart from the state after it.
#[derive(Clone, Copy, Default)]
pub struct Tells {
    /// The tag and the length of a header that is complete.
    pub head: Option<[u64; 2]>,
    /// Whether a value is complete.
    pub end: bool,
    /// How many bytes of the chunk were taken.
    pub taken: usize,
}

impl Tells {
    /// Nothing but how many bytes were taken.
    pub fn only(taken: usize) -> Self {
        Tells { taken, ..Tells::default() }
    }

    /// The numbers that are written, with this state.
    pub fn numbers(self, state: ChunkWalk) -> [u64; CHUNK_NUMBERS] {
        let [head, end] = [self.head.is_some(), self.end].map(u64::from);
        let ([tag, len], [kind, state_tag, number]) = (self.head.unwrap_or_default(), state_numbers(state));
        [head, end, tag, len, self.taken as u64, kind, state_tag, number]
    }
}

/// The numbers of a state.
pub fn state_numbers(state: ChunkWalk) -> [u64; 3] {
    [state.kind.into(), state.tag.into(), state.number.into()]
}

/// The state of a walk that has stopped with 11 or 12.
pub fn stopped(number: u8) -> ChunkWalk {
    let kind = if number == 11 { 8 } else { 9 };
    ChunkWalk { kind, ..ChunkWalk::START }
}

/// What is told of a record, however it is divided.
#[derive(Clone, Copy, Debug, PartialEq, Eq)]
pub enum Event {
    /// The header of an object is complete: its tag, and the length of its value.
    Head(u64, u64),
    /// Its value is complete.
    End,
    /// The refusal, which comes once, as the last.
    Refused(u8),
}

impl Event {
    /// Adds it to a list, as numbers.
    pub fn add_to(self, list: &mut Vec<u64>) {
        match self {
            Event::Head(tag, len) => list.extend([1, tag, len]),
            Event::End => list.push(2),
            Event::Refused(number) => list.extend([3, number.into()]),
        }
    }
}

/// The replies of all calls joined, "need more" left out and a repeated refusal once; and the state after all bytes.
pub struct Joined {
    /// The events as numbers, then those of the state.
    pub numbers: Vec<u64>,
    /// The number of the refusal.
    pub refused: u8,
}

impl Joined {
    pub fn new(events: &[Event], state: ChunkWalk) -> Self {
        let mut numbers = Vec::new();
        events.iter().for_each(|event| event.add_to(&mut numbers));
        numbers.extend(state_numbers(state));
        let refused = if events.contains(&Event::Refused(11)) { 11 } else { 12 };
        Joined { numbers, refused }
    }
}
