//! The library alone: it is handed a record in chunks, and goes on from the states that it gives itself. The replies of
//! all calls, joined, are compared with what the Rust reads in the whole record.

use gorvisclen::{ChunkWalk, Refused, CHUNK_NUMBERS};

use super::told::{state_numbers, Event, Joined, TAKEN};
use crate::answer::reply_number;
use crate::hex::Hex;
use crate::lent::{bytes, numbers, Outcome};
use crate::tally::{Labels, Tally};

/// A chunk that is handed in after the end: an object that could be read.
pub const AFTERWARDS: [u8; 3] = [0xC1, 0x01, 0xAA];

/// What stands in the list of what was told if a call does what none may do: more bytes are needed although not all
/// were taken, or replies do not end; or after the refusal another reply comes, a byte is taken or the state changes.
const WRONG: u64 = 99;

/// The chunks of a record by their ends. An end that comes twice is that of a chunk of no bytes too.
fn chunks<'a>(record: &'a [u8], ends: &'a [usize]) -> impl Iterator<Item = &'a [u8]> {
    let starts = [0].into_iter().chain(ends.iter().copied());
    starts.zip(ends).map(|(start, &end)| &record[start..end])
}

/// A walk of the library's, and what it told so far.
pub struct Player {
    state: ChunkWalk,
    /// The refusal, after it came.
    refused: Option<u8>,
    /// What was told, as numbers.
    told: Vec<u64>,
    /// How many sessions were as they must be, by their refusal.
    equal: [u64; 13],
}

impl Player {
    pub fn new() -> Self {
        Player { state: ChunkWalk::START, refused: None, told: Vec::new(), equal: [0; 13] }
    }

    /// Notes a reply and its numbers. Returns whether it told something, the first refusal too.
    fn note(&mut self, reply: u8, out: [u64; CHUNK_NUMBERS]) -> bool {
        let before = self.state;
        self.state = ChunkWalk::after(out);
        if let Some(number) = self.refused {
            if (reply, out[TAKEN], self.state) != (number, 0, before) {
                self.told.push(WRONG);
            }
            return false;
        }
        if reply != 0 {
            Event::Refused(reply).add_to(&mut self.told);
            self.refused = Some(reply);
            return true;
        }
        if out[0] != 0 {
            Event::Head(out[2], out[3]).add_to(&mut self.told);
        }
        if out[1] != 0 {
            Event::End.add_to(&mut self.told);
        }
        out[..2] != [0, 0]
    }

    /// Hands a chunk in, until it tells nothing.
    #[inline(always)]
    fn take(&mut self, chunk: &[u8]) {
        let mut rest = chunk;
        for _ in 0..chunk.len() + 3 {
            let mut out = [7; CHUNK_NUMBERS];
            let reply = reply_number(self.state.take(rest, &mut out));
            rest = rest.get(out[TAKEN] as usize..).unwrap_or_default();
            if !self.note(reply, out) {
                if self.refused.is_none() && !rest.is_empty() {
                    self.told.push(WRONG);
                }
                return;
            }
        }
        self.told.push(WRONG);
    }

    fn close(&mut self) {
        let mut out = [7; CHUNK_NUMBERS];
        let reply = reply_number(self.state.close(&mut out));
        self.note(reply, out);
    }

    /// Hands a record in, in chunks, closes it, and goes on for a while. Returns what was told, then the numbers of the
    /// state before the closing call.
    pub fn play<'a>(&mut self, chunks: impl Iterator<Item = &'a [u8]>) -> &[u64] {
        (self.state, self.refused) = (ChunkWalk::START, None);
        self.told.clear();
        chunks.for_each(|chunk| self.take(chunk));
        let state = self.state;
        self.close();
        self.take(&AFTERWARDS);
        self.close();
        self.take(&[]);
        self.told.extend(state_numbers(state));
        &self.told
    }

    /// The same with the chunks that end at these places. What is told must be this. There are many such sessions: so
    /// those that are as they must be are counted here first.
    pub fn compare(&mut self, tally: &mut Tally, labels: Labels, record: &[u8], ends: &[usize], joined: &Joined) {
        if self.play(chunks(record, ends)) == joined.numbers {
            self.equal[usize::from(joined.refused)] += 1;
        } else {
            let input = || format!("{:?} in chunks up to {ends:?}", Hex(record));
            compare_joined(tally, labels, input, joined, &self.told);
        }
    }

    /// Counts the sessions that were as they must be, and forgets them.
    pub fn count(&mut self, tally: &mut Tally, labels: Labels) {
        for (number, sessions) in (0..).zip(&mut self.equal) {
            tally.count(labels, number, *sessions);
            *sessions = 0;
        }
    }
}

/// Compares what the library told with what must be told.
pub fn compare_joined(tally: &mut Tally, labels: Labels, input: impl Fn() -> String, joined: &Joined, ours: &[u64]) {
    let len = ours.len().max(joined.numbers.len());
    let [reference, ours] = [&joined.numbers, ours].map(|list| {
        let mut out = numbers(len);
        out.part()[..list.len()].copy_from_slice(list);
        Outcome::new(Err(Refused(joined.refused)), out, bytes(0))
    });
    tally.compare(labels, input, &reference, &ours);
}
