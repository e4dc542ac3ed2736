//! Times the walk in chunks. A call walks one record: it hands all chunks in, each until more bytes are needed, and
//! closes. It keeps how many objects were finished, the sum of their lengths, and the refusal; tags are seen and
//! dropped. The Rust has no such walk: beside it is its walk of the whole record by `take_data_object`, which has to
//! have all bytes. The time goes with the objects and the chunks, and not with the bytes of values: the last lines have
//! one object in one chunk.

use std::hint::black_box;

use gorvisclen::{ChunkWalk, Refused, CHUNK_NUMBERS};
use original::tlv::take_data_object;

use crate::benchmark::{Size, Table, NO_LIMIT};
use crate::tlv::records::{length_forms, tag_bytes};

/// What a side keeps: how many objects were finished, the sum of their lengths, the refusal.
const KEPT: usize = 3;

/// The tags of the objects, in turn.
const TAGS: [u32; 8] = [0xC1, 0x5F25, 0x50, 0xDF8102, 0x9F1F, 0x87, 0x5F20, 0xC2];

/// A record, and how many bytes a chunk has.
struct Sample {
    record: Vec<u8>,
    chunk: usize,
}

/// Adds an object with a value of `n` bytes.
fn add(record: &mut Vec<u8>, tag: u32, n: usize) {
    record.extend([&tag_bytes(tag), &length_forms(n)[0], &vec![0x24; n][..]].concat());
}

/// A record of `len` bytes with small objects; the last one fills it.
fn record_of(len: usize) -> Vec<u8> {
    let mut record = Vec::new();
    for (i, tag) in TAGS.into_iter().cycle().enumerate() {
        if record.len() + 24 > len {
            break;
        }
        add(&mut record, tag, i * 5 % 9);
    }
    let left = len - record.len() - 2;
    add(&mut record, 0xC3, left);
    record
}

/// The walk of the whole record by the Rust.
#[inline(never)]
fn by_rust(sample: &Sample, _: &mut [u8], out: &mut [u64]) -> u8 {
    let (mut rest, mut objects, mut lens) = (&sample.record[..], 0, 0);
    while let Some((tag, value, behind)) = take_data_object(rest) {
        black_box(tag);
        rest = behind;
        objects += 1;
        lens += value.len() as u64;
    }
    out.copy_from_slice(&[objects, lens, if rest.is_empty() { 11 } else { 12 }]);
    0
}

/// The walk in chunks.
#[inline(never)]
fn in_chunks(sample: &Sample, _: &mut [u8], out: &mut [u64]) -> u8 {
    let (mut state, mut objects, mut lens, mut last) = (ChunkWalk::START, 0, 0, 0);
    let mut told = [0; CHUNK_NUMBERS];
    for chunk in sample.record.chunks(sample.chunk) {
        let mut rest = chunk;
        while state.take(rest, &mut told).is_ok() {
            let [head, end, tag, len, taken, ..] = told;
            (state, rest) = (ChunkWalk::after(told), &rest[taken as usize..]);
            if head + end == 0 {
                break;
            }
            if head == 1 {
                black_box(tag);
                last = len;
            }
            objects += end;
            lens += end * last;
        }
    }
    let number = state.close(&mut told).map_or_else(|Refused(number)| number, |()| 0);
    out.copy_from_slice(&[objects, lens, number.into()]);
    0
}

/// A line for one record in chunks of a length.
fn line(table: &mut Table, name: &str, record: &[u8], chunk: usize) {
    let size = Size { to: 0, out: KEPT, bytes: record.len() };
    let sample = [Sample { record: record.to_vec(), chunk }];
    table.sides((name, NO_LIMIT), size, (&sample, &sample), by_rust, in_chunks);
}

pub fn bench(table: &mut Table) {
    let [short, long] = [200, 60_000].map(record_of);
    line(table, "in chunks, 200 bytes at once", &short, 200);
    line(table, "  200 bytes, chunks of 16", &short, 16);
    line(table, "  200 bytes, byte by byte", &short, 1);
    line(table, "in chunks, 60,000 bytes at once", &long, 60_000);
    line(table, "  60,000 bytes, chunks of 255", &long, 255);
    for (n, words) in [(1, "1 byte"), (255, "255 bytes"), (4_096, "4,096 bytes"), (65_535, "65,535 bytes")] {
        let mut record = Vec::new();
        add(&mut record, 0x5F24, n);
        line(table, &format!("in one chunk, value of {words}"), &record, record.len());
    }
}
