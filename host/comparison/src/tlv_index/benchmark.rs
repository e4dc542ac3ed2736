//! Times the index. A call asks eight questions of one record: it looks eight paths up and keeps what is told. The file
//! is built before. It is timed beside eight lookups of the Rust; and beside eight full lookups of the library, in the
//! column of the Rust. Building has no Rust: it is beside the model. The last line builds the index in each call too.

use gorvisclen::{CRATE_READING, INDEX_BYTES, LOOKUP_NUMBERS};
use original::tlv::{get_data_object, Tag};

use super::model;
use super::operations::build;
use crate::benchmark::{check, Size, Table, NO_LIMIT};
use crate::tlv::records::{length_forms, tag_bytes};
use crate::tlv::rust_tag;
use crate::tlv::rust_walk::place_of;

/// The questions, in the order of the record: first, further on, two that lead deeper, last. The last is in no record.
const QUESTIONS: [&[u32]; 8] =
    [&[0x5A], &[0x5F24], &[0xE1, 0xC2], &[0x9F36], &[0x57], &[0xE2, 0xE3, 0xC2], &[0xDF8101], &[0x5F2D]];

/// How many numbers eight questions are answered with.
const ANSWERS: usize = QUESTIONS.len() * LOOKUP_NUMBERS;

/// The tags of the other objects.
const OTHERS: [u32; 8] = [0xC1, 0x5F25, 0x50, 0xDF8102, 0x9F1F, 0x87, 0x5F20, 0xC3];

/// A record with its index, and the questions for the Rust.
struct Desk {
    record: Vec<u8>,
    file: Vec<u8>,
    tags: Vec<Vec<Tag>>,
}

/// The bytes of an object.
fn object(tag: u32, value: &[u8]) -> Vec<u8> {
    [&tag_bytes(tag), &length_forms(value.len())[0], value].concat()
}

/// A record of `len` bytes: the objects of the questions, spread over it, and others between, with values of up to
/// `longest` bytes.
fn record_of(len: usize, longest: usize) -> Vec<u8> {
    let mut record = Vec::new();
    let [asked @ .., last, _] = QUESTIONS;
    for (i, path) in asked.iter().enumerate() {
        let value = path.iter().skip(1).rev().fold(vec![0x24], |value, &tag| object(tag, &value));
        record.extend(object(path[0], &value));
        let mut other = 0;
        while record.len() + longest + 12 < (i + 1) * (len - longest) / asked.len() {
            record.extend(object(OTHERS[other % OTHERS.len()], &vec![0x24; longest - other % 3]));
            other += 1;
        }
    }
    let left = len - record.len();
    let lasts = (0..left).map(|n| object(last[0], &vec![0x24; n]));
    record.extend(lasts.rev().find(|last| last.len() == left).unwrap());
    record
}

impl Desk {
    fn new(len: usize, longest: usize) -> Self {
        let record = record_of(len, longest);
        let tags = QUESTIONS.map(|path| path.iter().filter_map(rust_tag).collect()).to_vec();
        Desk { file: model::build(&record).unwrap().file(), record, tags }
    }

    /// Eight lookups of the Rust.
    #[inline(never)]
    fn by_rust(&self, _: &mut [u8], out: &mut [u64]) -> u8 {
        for (tags, answer) in self.tags.iter().zip(out.chunks_mut(LOOKUP_NUMBERS)) {
            if let Some(value) = get_data_object(tags, &self.record) {
                let part = place_of(value, &self.record);
                answer.copy_from_slice(&[part.start as u64, part.len() as u64, tags.len() as u64]);
            }
        }
        0
    }

    /// Eight full lookups of the library.
    #[inline(never)]
    fn in_full(&self, _: &mut [u8], out: &mut [u64]) -> u8 {
        for (path, answer) in QUESTIONS.iter().zip(out.chunks_mut(LOOKUP_NUMBERS)) {
            let _ = gorvisclen::get_data_object(CRATE_READING, &self.record, path, answer);
        }
        0
    }

    /// Eight lookups through the index.
    #[inline(never)]
    fn by_index(&self, _: &mut [u8], out: &mut [u64]) -> u8 {
        for (path, answer) in QUESTIONS.iter().zip(out.chunks_mut(LOOKUP_NUMBERS)) {
            let _ = gorvisclen::get_indexed(&self.file, &self.record, path, answer);
        }
        0
    }

    /// The index built, then eight lookups through it.
    #[inline(never)]
    fn built_first(&self, to: &mut [u8], out: &mut [u64]) -> u8 {
        let mut len = [0];
        let _ = gorvisclen::build_index(&self.record, to, 0, &mut len);
        for (path, answer) in QUESTIONS.iter().zip(out.chunks_mut(LOOKUP_NUMBERS)) {
            let _ = gorvisclen::get_indexed(&to[..len[0] as usize], &self.record, path, answer);
        }
        0
    }
}

/// The lines of one record.
fn lines(table: &mut Table, desk: Desk, words: &str) {
    let size = Size { to: INDEX_BYTES, out: ANSWERS, bytes: 8 * desk.record.len() };
    let [mut rust, mut full] = [[0; ANSWERS]; 2];
    desk.by_rust(&mut [], &mut rust);
    desk.in_full(&mut [], &mut full);
    // The Rust tells nothing of the one that is missing.
    check(words, &rust[..ANSWERS - LOOKUP_NUMBERS], &full[..ANSWERS - LOOKUP_NUMBERS]);
    check(words, rust.chunks(LOOKUP_NUMBERS).position(|answer| answer == [0; LOOKUP_NUMBERS]), Some(7));
    let desks = [desk];
    let both = (&desks[..], &desks[..]);
    let name = format!("eight by index, {words}");
    table.time_sides((&name, NO_LIMIT), size, both, Desk::by_rust, Desk::by_index);
    table.sides(("  beside our eight full lookups", NO_LIMIT), size, both, Desk::in_full, Desk::by_index);
    let calls = [build(&desks[0].record, 0)];
    let one = Size { out: 1, bytes: desks[0].record.len(), ..size };
    table.calls("  built (model)", NO_LIMIT, &calls, one);
    table.time_sides(("  built, then eight by index", NO_LIMIT), size, both, Desk::by_rust, Desk::built_first);
}

pub fn bench(table: &mut Table) {
    lines(table, Desk::new(200, 4), "200 bytes");
    lines(table, Desk::new(60_000, 240), "60,000 bytes");
}
