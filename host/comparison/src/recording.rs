//! The file of recorded answers. It holds calls of the comparison that the Rust answers, spread evenly over all that
//! are made, from a fixed seed. The form of the file is described in crates/replay/src/main.rt.

use std::array;
use std::collections::BTreeMap;
use std::ops::Range;

use crate::answer::{give, reply_number, Answer};

/// The seed of the inputs.
pub const SEED: u64 = 7816;

/// The fewest answers of each operation except the constants, and of each refusal.
const LEAST: usize = 24;

/// When an operation has this many answers that are not refused, or refused with one number, every second one is
/// dropped.
const LIMIT: usize = 320;
const LIMIT_REFUSED: usize = 160;

/// The most bytes of a string that are written beside its filling.
const LONGEST: usize = 100;

/// The most bytes that are lent, and the most bytes of a string: the program replay has no more room.
const ROOM: usize = 65_600;

/// The refusals that occur in answers of the Rust: document 01, "Numbers of refusal".
const REFUSALS: [u8; 17] = [1, 2, 3, 4, 5, 6, 7, 8, 9, 10, 11, 12, 13, 14, 15, 18, 19];

/// The exported functions that the Rust has too, with their numbers in the file.
#[derive(Clone, Copy, Debug, PartialEq, Eq, PartialOrd, Ord)]
pub enum Operation {
    Class = 1,
    ClassAsChained,
    Range,
    ClassConstants,
    AidWhole,
    Aid,
    AidMatches,
    AidPart,
    TakeTag,
    TakeLen,
    TakeDataObject,
    GetDataObject,
    Value,
    PutDataObject,
    Command,
    CommandData,
    CommandOwned,
    CommandExtend,
    RequiredLen,
    ForceExtended,
    BuilderEq,
    SerializeInto,
    ShouldSplit,
    NewNonExtended,
    WriteNext,
}

impl Operation {
    /// The name of the exported function without the prefix `gorvisclen_`.
    fn name(self) -> String {
        let mut name = String::new();
        for letter in format!("{self:?}").chars() {
            if letter.is_uppercase() && !name.is_empty() {
                name.push('_');
            }
            name.push(letter.to_ascii_lowercase());
        }
        name
    }
}

/// The arguments of a call as the file has them: its strings, and its numbers in their order.
#[derive(Default)]
pub struct Arguments<'a> {
    strings: [&'a [u8]; 2],
    numbers: [usize; 15],
    counts: [usize; 2],
}

impl<'a> Arguments<'a> {
    pub fn string(&mut self, bytes: &'a [u8]) {
        self.strings[self.counts[0]] = bytes;
        self.counts[0] += 1;
    }

    pub fn number(&mut self, n: usize) {
        // A path can be longer than those that are recorded.
        if let Some(place) = self.numbers.get_mut(self.counts[1]) {
            *place = n;
        }
        self.counts[1] += 1;
    }

    /// The bytes that are lent to be read.
    pub fn bytes(&self) -> Vec<u8> {
        self.strings.concat()
    }

    /// Their bytes in the file, with the length of the buffer to write to; none if they do not fit into the file.
    fn encoded(&self, to_len: usize) -> Option<Vec<u8>> {
        let mut input = Vec::new();
        for bytes in self.strings {
            input.extend(string(bytes)?);
        }
        for &n in [to_len].iter().chain(self.numbers.get(..self.counts[1])?) {
            input.extend(three(n)?);
        }
        Some(input).filter(|_| to_len <= ROOM)
    }
}

/// Answers of one operation with one reply.
struct Kept {
    calls: usize,
    /// Of all calls, each `every`-th is kept.
    every: usize,
    answers: Vec<Vec<u8>>,
}

/// The answers that are kept for the file.
#[derive(Default)]
pub struct Recording {
    kept: BTreeMap<(Operation, u8), Kept>,
}

impl Recording {
    /// Adds a call and its answer, if it is the turn of this call.
    pub fn add<const N: usize>(
        &mut self,
        operation: Operation,
        arguments: &Arguments,
        to_len: usize,
        answer: &Answer<N>,
    ) {
        let new = || Kept { calls: 0, every: 1, answers: Vec::new() };
        let reply = reply_of(answer, to_len);
        let kept = self.kept.entry((operation, reply)).or_insert_with(new);
        kept.calls += 1;
        if kept.calls.is_multiple_of(kept.every) {
            kept.answers.extend(arguments.encoded(to_len).map(|input| encoded(input, to_len, answer)));
        }
        if kept.answers.len() == if reply == 0 { LIMIT } else { LIMIT_REFUSED } {
            let mut second = true;
            kept.answers.retain(|_| {
                second = !second;
                second
            });
            kept.every *= 2;
        }
    }

    /// The bytes of the file. Each operation and each refusal must have enough answers.
    pub fn bytes(&self) -> Vec<u8> {
        let mut sections: BTreeMap<Operation, Vec<&Vec<u8>>> = BTreeMap::new();
        let mut refusals = [0; 32];
        for (&(operation, reply), kept) in &self.kept {
            sections.entry(operation).or_default().extend(&kept.answers);
            refusals[usize::from(reply)] += kept.answers.len();
        }
        let mut bytes = vec![sections.len().try_into().unwrap()];
        for (operation, answers) in sections {
            let (name, count) = (operation.name(), answers.len());
            println!("{name}: {count} answers");
            assert!(count >= LEAST || operation == Operation::ClassConstants, "too few");
            bytes.extend([operation as u8, name.len() as u8]);
            bytes.extend(name.as_bytes());
            bytes.extend(u16::try_from(count).unwrap().to_be_bytes());
            answers.into_iter().for_each(|answer| bytes.extend(answer));
        }
        for refusal in REFUSALS {
            let count = refusals[usize::from(refusal)];
            println!("refused {refusal}: {count} answers");
            assert!(count >= LEAST, "too few");
        }
        bytes
    }
}

/// The reply to a call with `to_len` bytes to write to, and room for all its numbers.
fn reply_of<const N: usize>(answer: &Answer<N>, to_len: usize) -> u8 {
    match answer {
        Err(number) => *number,
        Ok(writes) if to_len < writes.at.saturating_add(writes.bytes.len()) => 16,
        Ok(writes) => writes.refused.unwrap_or(0),
    }
}

/// A call in the file: its input, then its answer.
fn encoded<const N: usize>(input: Vec<u8>, to_len: usize, answer: &Answer<N>) -> Vec<u8> {
    let mut to: Vec<u8> = (0..to_len).map(|place| (place % 251) as u8).collect();
    let mut out: [u64; 16] = array::from_fn(|place| 700 + place as u64);
    let reply = reply_number(give(answer, &mut to, &mut out));
    let written = if answer.is_ok() && reply != 16 { N } else { 0 };
    let sum = to.iter().map(|&byte| byte.into()).chain(out).fold(0, mixed);
    let mut bytes = vec![reply];
    bytes.extend(out[..written].iter().filter_map(|&n| three(n as usize)).flatten());
    bytes.extend(u32::try_from(sum).unwrap().to_be_bytes());
    let [input_len, len] = [input.len(), bytes.len()].map(|len| len as u16);
    [&input_len.to_be_bytes()[..], &input, &[len as u8], &bytes].concat()
}

/// The checksum after one more number.
fn mixed(sum: u64, n: u64) -> u64 {
    const PRIME: u64 = 0xFFFF_FFFB;
    (sum % PRIME * 65_537 + n % (1 << 32) + 1) % PRIME
}

/// A number in three bytes, if it fits.
fn three(n: usize) -> Option<[u8; 3]> {
    match u32::try_from(n).ok()?.to_be_bytes() {
        [0, bytes @ ..] => Some(bytes),
        _ => None,
    }
}

/// A string in the file: its bytes, or a form with its longest filling, whichever is shorter; none if neither is short.
fn string(bytes: &[u8]) -> Option<Vec<u8>> {
    let filling = longest_filling(bytes);
    let rest = bytes.len() - filling.len();
    if bytes.len() <= LONGEST && bytes.len() <= rest + 7 {
        return Some([&[bytes.len() as u8], bytes].concat());
    }
    if rest > LONGEST || bytes.len() > ROOM {
        return None;
    }
    let (before, after) = (&bytes[..filling.start], &bytes[filling.end..]);
    let lens = [before, after].map(|part| part.len() as u8);
    let first = bytes[filling.start];
    let step = bytes[filling.start + 1].wrapping_sub(first);
    Some([&[255], &three(filling.len())?[..], &[first, step], &lens, before, after].concat())
}

/// The longest part in which each byte is the byte before it plus the same step.
fn longest_filling(bytes: &[u8]) -> Range<usize> {
    let step_at = |place: usize| bytes[place + 1].wrapping_sub(bytes[place]);
    let (mut longest, mut start) = (0..0, 0);
    for end in 1..=bytes.len() {
        if end == bytes.len() || step_at(end - 1) != step_at(start) {
            if end - start > longest.len() {
                longest = start..end;
            }
            start = end - 1;
        }
    }
    longest
}
