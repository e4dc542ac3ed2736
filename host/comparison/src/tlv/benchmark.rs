//! Times BER records, in the crate's reading. A call takes a tag, a length or an object from the front of some bytes;
//! writes an object to the front of a buffer; copies a value; or looks up a tag at the top level of a record and
//! returns the place and length of the value. The library also returns how many tags matched, and where a lookup is
//! refused. In the lines `as a slice` a call returns the value itself, as the Rust does. For the library that adds
//! taking this part of the record, which is done by the caller and has no limit.

use gorvisclen::{CRATE_READING, LOOKUP_NUMBERS};
use original::command::DataStream;
use original::tlv::{get_data_object, take_data_object, take_len, take_tag, Tag};

use super::lookup::{find, rust_tag, value, Lookup};
use super::records::{length_forms, tag_bytes};
use super::rust_walk::place_of;
use super::take::{self, Take};
use super::writing::{self, put_data_object, rust_object, Object};
use crate::benchmark::{check, checked, ours, Size, Table, NO_LIMIT};
use crate::call::Call;

/// The limit of the ratio to the Rust's time, for place and length.
const LIMIT: f64 = 1.50;

/// The objects that are looked up, and their tags. The last one is in no record.
const LOOKED_UP: [(&str, u32); 4] = [("first", 0x5A), ("middle", 0x5F24), ("last", 0xDF8101), ("missing", 0x9F36)];

/// The tags of the other objects.
const OTHERS: [u32; 8] = [0xC1, 0x5F25, 0x50, 0xDF8102, 0x9F1F, 0x87, 0x5F20, 0xC2];

/// Lengths of values that are written or copied.
const LENGTHS: [(usize, &str); 4] = [(0, "no bytes"), (16, "16 bytes"), (255, "255 bytes"), (4_096, "4,096 bytes")];

/// Times taking from the front of some bytes. The Rust returns a tag as its own type, the library as a number.
fn take<const N: usize, F: Take<N>, T>(
    table: &mut Table,
    take: F,
    samples: ([&str; 4], [&[u8]; 4]),
    by_rust: fn(&[u8]) -> Option<T>,
) {
    for (words, bytes) in samples.0.into_iter().zip(samples.1) {
        let name = format!("{}, {words}", take.labels(bytes.len(), true).0);
        let size = checked(&name, &[take.call(bytes)], Size::default());
        table.returning(
            (&name, NO_LIMIT),
            size,
            &[(bytes, take.call(bytes))],
            |(bytes, _)| by_rust(bytes),
            |(_, call), to, out| ours(call, to, out),
        );
    }
}

/// The bytes of an object with a tag of two bytes.
fn object(n: usize) -> Vec<u8> {
    [&[0x5F, 0x24], &length_forms(n)[0][..], &vec![0xAA; n]].concat()
}

fn takes(table: &mut Table) {
    let words = ["1 byte", "2 bytes", "3 bytes", "refused 12"];
    let tags: [&[u8]; 4] = [&[0x5A, 0x00], &[0x5F, 0x24, 0x00], &[0xDF, 0x81, 0x01, 0x00], &[0x5F, 0x80, 0x01]];
    take(table, take::Tag(CRATE_READING), (words, tags), |bytes| {
        take_tag(bytes).map(|(tag, rest)| (tag, bytes.len() - rest.len()))
    });
    let lengths: [&[u8]; 4] = [&[0x7F], &[0x81, 0x80], &[0x82, 0x01, 0x00], &[0x83, 0x01, 0x00, 0x00]];
    take(table, take::Len(CRATE_READING), (words, lengths), |bytes| {
        take_len(bytes).map(|(len, rest)| (len, bytes.len() - rest.len()))
    });
    let words = ["3 bytes", "200 bytes", "65,535 bytes", "refused 12"];
    let objects: [&[u8]; 4] = [&object(3), &object(200), &object(65_535), &object(200)[..100]];
    let front = take::Object { reading: CRATE_READING, at: 0 };
    take(table, front, (words, objects), |bytes| {
        take_data_object(bytes).map(|(tag, value, _)| (tag, place_of(value, bytes)))
    });
}

#[inline(never)]
fn put_by_rust(object: &Object, to: &mut [u8], out: &mut [u64]) -> u8 {
    let len = to.len();
    let mut rest = to;
    let done = rust_object(*object).to_writer(&mut rest);
    out[0] = (len - rest.len()) as u64;
    done.map_or(16, |()| 0)
}

/// A lookup, and its path for the Rust.
#[derive(Clone, Copy)]
struct Sample<'a> {
    lookup: Lookup<'a>,
    tags: [Tag; 1],
}

/// The value that the Rust finds.
#[inline(always)]
fn value_of<'a>(sample: &Sample<'a>) -> Option<&'a [u8]> {
    get_data_object(&sample.tags, sample.lookup.record.0)
}

#[inline(always)]
fn place(sample: &Sample, _: &mut [u8], out: &mut [u64]) -> u8 {
    let Some(value) = value_of(sample) else { return 11 };
    let part = place_of(value, &sample.lookup.record);
    out[..2].copy_from_slice(&[part.start as u64, part.len() as u64]);
    0
}

#[inline(never)]
fn copy(sample: &Sample, to: &mut [u8], out: &mut [u64]) -> u8 {
    let Some(value) = value_of(sample) else { return 11 };
    to[..value.len()].copy_from_slice(value);
    out[0] = value.len() as u64;
    0
}

impl<'a> Sample<'a> {
    fn of(record: &'a [u8], path: &'a [u32; 1]) -> Self {
        Sample { lookup: Lookup::new(CRATE_READING, record, path), tags: path.map(|number| rust_tag(&number).unwrap()) }
    }

    /// The lookup of the library, and the part of the record that it finds.
    #[inline(always)]
    fn slice(&self, to: &mut [u8], out: &mut [u64]) -> Option<&'a [u8]> {
        find(self.lookup).ours(to, out).ok()?;
        let record = self.lookup.record.0;
        record.get(out[0] as usize..)?.get(..out[1] as usize)
    }
}

/// Checks and times lookups. All that the library writes is checked by their reference; of the Rust, which writes fewer
/// numbers, the reply and the bytes.
fn sides<'a>(
    table: &mut Table,
    (name, limit): (&str, f64),
    size: Size,
    (samples, calls): (&[Sample<'a>], &[impl Call<LOOKUP_NUMBERS>]),
    by_rust: impl Fn(&Sample<'a>, &mut [u8], &mut [u64]) -> u8,
) {
    checked(name, calls, size);
    for (sample, call) in samples.iter().zip(calls) {
        let [mut rust_to, mut our_to] = [0; 2].map(|_| vec![7; size.to]);
        let rust_reply = by_rust(sample, &mut rust_to, &mut vec![7; size.out]);
        let our_reply = ours(call, &mut our_to, &mut vec![7; size.out]);
        check(name, (rust_reply, rust_to), (our_reply, our_to));
    }
    table.time_sides((name, limit), size, (samples, calls), by_rust, ours);
}

fn written_and_copied(table: &mut Table) {
    let size = |n, out| Size { to: n + 6, out, bytes: 0 };
    for (n, words) in LENGTHS {
        let value = vec![0xAA; n];
        let object = writing::object(0x5F24, &value);
        let name = format!("put_data_object, {words}");
        table.sides((&name, NO_LIMIT), size(n, 1), (&[object], &[put_data_object(object, 0)]), put_by_rust, ours);
    }
    for (n, words) in LENGTHS.into_iter().skip(1) {
        let record = object(n);
        let sample = Sample::of(&record, &[0x5F24]);
        let (name, size) = (format!("value copied, {words}"), size(n, LOOKUP_NUMBERS));
        sides(table, (&name, NO_LIMIT), size, (&[sample], &[value(sample.lookup)]), copy);
    }
}

/// Adds an object with a value of `n` bytes, at most 127.
fn add(record: &mut Vec<u8>, tag: u32, n: usize) {
    record.extend(tag_bytes(tag));
    record.push(n as u8);
    record.resize(record.len() + n, 0x24);
}

/// A record of `len` bytes: small objects, with those that are looked up at the beginning, in the middle and at the
/// end.
fn record_of(len: usize) -> Vec<u8> {
    let [first, middle, last, _] = LOOKED_UP.map(|(_, tag)| tag);
    let mut record = Vec::new();
    for (tag, end) in [(first, len / 2), (middle, len - 20)] {
        add(&mut record, tag, 3);
        let mut i = 0;
        while record.len() < end {
            add(&mut record, OTHERS[i % OTHERS.len()], i * 5 % 9);
            i += 1;
        }
    }
    let left = len - record.len() - tag_bytes(last).len() - 1;
    add(&mut record, last, left);
    record
}

/// Times the lookup of place and length, then of the slice.
fn lookups<'a>(table: &mut Table, name: &str, samples: &[Sample<'a>]) {
    let walked = |sample: &Sample| match value_of(sample) {
        Some(value) => place_of(value, &sample.lookup.record).start,
        None => sample.lookup.record.len(),
    };
    let size = Size { to: 0, out: LOOKUP_NUMBERS, bytes: samples.iter().map(walked).max().unwrap() };
    let finds: Vec<_> = samples.iter().map(|sample| find(sample.lookup)).collect();
    sides(table, (name, LIMIT), size, (samples, &finds), place);
    let name = format!("{name}, as a slice");
    for sample in samples {
        let part = |value: Option<&[u8]>| value.map(|value| (value.as_ptr(), value.len()));
        check(&name, part(value_of(sample)), part(sample.slice(&mut [], &mut [7; LOOKUP_NUMBERS])));
    }
    table.returning((&name, NO_LIMIT), size, samples, value_of, Sample::slice);
}

pub fn bench(table: &mut Table) {
    takes(table);
    written_and_copied(table);
    for (len, words) in [(200, "200 bytes"), (60_000, "60,000 bytes")] {
        let (record, paths) = (record_of(len), LOOKED_UP.map(|(_, tag)| [tag]));
        let samples: Vec<Sample> = paths.iter().map(|path| Sample::of(&record, path)).collect();
        assert!(value_of(&samples[3]).is_none());
        lookups(table, &format!("lookup in {words}"), &samples);
        for (sample, (name, _)) in samples.iter().zip(LOOKED_UP) {
            lookups(table, &format!("  {name} in {words}"), &[*sample]);
        }
    }
}
