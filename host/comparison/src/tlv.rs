//! BER records: every string of up to three bytes as a tag, a length and an object; nested records, whole, damaged and
//! cut; objects that are written; and the other tests below. The crate's reading is compared with the Rust. The Rust
//! returns `None` for 11 and for 12. For an object and a lookup, which it is and its place follow from the remainder at
//! which the Rust's steps end; for a tag and a length a model says which it is. The standard reading, which the Rust
//! does not have, is compared with that model. `zeros.rs` has records with zero bytes that only this reading skips.

mod benchmark;
mod document_cases;
mod labels;
mod lookup;
mod model;
pub mod records;
pub mod rust_walk;
mod take;
mod writing;
mod zeros;

use std::iter;

use gorvisclen::{CRATE_READING, LEN_NUMBERS, LOOKUP_NUMBERS, OBJECT_NUMBERS, STANDARD_READING, TAG_NUMBERS};

pub use self::benchmark::bench;
pub use self::labels::required as required_replies;
use self::lookup::value;
pub use self::lookup::{find, rust_tag, Lookup};
use self::records::{
    in_templates, length_forms, long_record, no_tag, random_paths, random_record, unreadable_at, Record,
};
pub use self::take::check_model;
use self::take::{places_past_end, Len, Object, Tag, Take};
pub use self::writing::{every_boundary as every_written_boundary, random_cases as random_writing};
pub use self::zeros::random_cases as random_zeros;
use crate::call::Call;
use crate::loops::{pairs, triples};
use crate::random::Random;
use crate::tally::Tally;

/// The crate's reading, and a random number of the standard reading.
fn both_readings(random: &mut Random) -> [u8; 2] {
    [CRATE_READING, 1 + random.below(255) as u8]
}

/// An object at a place of a record, with `out` long enough, and every third time also too short.
fn every_object(tally: &mut Tally, random: &mut Random, record: &[u8], at: usize) {
    for reading in both_readings(random) {
        let object = Object { reading, at };
        object.compare(tally, record, OBJECT_NUMBERS + random.below(3));
        if random.below(3) == 0 {
            object.compare(tally, record, random.below(OBJECT_NUMBERS));
        }
    }
}

/// A tag, a length and an object from the front of some bytes, with `out` long enough and too short.
fn every_take(tally: &mut Tally, random: &mut Random, bytes: &[u8]) {
    for reading in both_readings(random) {
        Tag(reading).compare(tally, bytes, TAG_NUMBERS + random.below(3));
        Len(reading).compare(tally, bytes, LEN_NUMBERS + random.below(3));
        match random.below(3) {
            0 => Tag(reading).compare(tally, bytes, random.below(TAG_NUMBERS)),
            1 => Len(reading).compare(tally, bytes, random.below(LEN_NUMBERS)),
            _ => (),
        }
    }
    every_object(tally, random, bytes, 0);
}

/// A lookup of the place and of the bytes of a value, with `out` and `to` around the lengths that it needs.
fn every_lookup(tally: &mut Tally, random: &mut Random, record: &[u8], path: &[u32]) {
    for reading in both_readings(random) {
        let lookup = Lookup::new(reading, record, path);
        let (find, value) = (find(lookup), value(lookup));
        find.compare_numbers(tally, LOOKUP_NUMBERS + random.below(3));
        let n = lookup.len();
        value.compare(tally, n + random.below(3), LOOKUP_NUMBERS + random.below(2));
        match random.below(3) {
            0 => find.compare_numbers(tally, random.below(LOOKUP_NUMBERS)),
            1 => value.compare(tally, n.saturating_sub(1), LOOKUP_NUMBERS),
            _ => value.compare(tally, random.below(n + 1), random.below(LOOKUP_NUMBERS)),
        }
    }
}

/// Objects at places around the start and the end of the value at a path, or around the place where the lookup is
/// refused.
fn objects_around(tally: &mut Tally, random: &mut Random, record: &[u8], path: &[u32]) {
    let (Ok([place, len, _]) | Err((_, [place, len, _]))) = Lookup::new(CRATE_READING, record, path).told();
    for edge in [place, place + len] {
        let at = (edge as usize + random.below(3)).saturating_sub(1);
        every_object(tally, random, record, at);
    }
}

/// Every string of up to three bytes; and objects in every string of up to two, from every place, also past the end.
fn every_short_string(tally: &mut Tally) {
    for (len, reading) in pairs(0..=3, [CRATE_READING, STANDARD_READING]) {
        Tag(reading).every_string(tally, len);
        Len(reading).every_string(tally, len);
        Object { reading, at: 0 }.every_string(tally, len);
    }
    for (len, reading) in pairs(0..=2, [CRATE_READING, STANDARD_READING]) {
        for at in (1..=len).chain(places_past_end(len)) {
            Object { reading, at }.every_string(tally, len);
        }
    }
}

/// Objects with values of every length up to 300 and around the longest, and each form of the length. The value is
/// whole, a byte too short, and has a byte after it.
pub fn every_length(tally: &mut Tally, random: &mut Random) {
    for n in (0..=300).chain(65_533..=65_535) {
        for form in length_forms(n) {
            let header = [&[0x5F, 0x24], &form[..]].concat();
            let string = [&header[..], &random.bytes(n + 1)].concat();
            for end in [string.len() - 1, string.len() - 2, string.len()] {
                every_take(tally, random, &string[..end]);
                every_lookup(tally, random, &string[..end], &[0x5F24]);
            }
            Len(CRATE_READING).compare(tally, &form, LEN_NUMBERS);
        }
    }
}

/// Every reading, and every length of the lent buffers up to more than is needed.
fn every_buffer(tally: &mut Tally) {
    let records: [&[u8]; 8] = [
        &[],
        &[0x5F, 0x24, 0x03, 0x26, 0x10, 0x09],
        &[0x5F, 0x1E, 0x01, 0xAA, 0x5F, 0x24, 0x00],
        &[0x5A, 0x81, 0x02, 0xAA, 0xBB],
        &[0x70, 0x04, 0x5F, 0x24, 0x01, 0xAA],
        &[0xDF, 0x81, 0x01, 0x82, 0x00, 0x01, 0xAA],
        &[0x5F, 0x80, 0x01],
        &[0x00, 0x70, 0x05, 0x00, 0x5F, 0x24, 0x01, 0xAA, 0x00],
    ];
    let paths: [&[u32]; 5] = [&[], &[0x5F24], &[0x70, 0x5F24], &[0x5A], &[0xDF8101]];
    for (record, reading, len) in triples(records, 0..=255, 0..=5) {
        Tag(reading).compare(tally, record, len);
        Len(reading).compare(tally, record, len);
        for at in 0..=record.len() + 1 {
            Object { reading, at }.compare(tally, record, len);
        }
        for path in paths {
            let lookup = Lookup::new(reading, record, path);
            find(lookup).compare_numbers(tally, len);
            for to_len in 0..=lookup.len() + 1 {
                value(lookup).compare(tally, to_len, len);
            }
        }
    }
}

/// Looks up the paths in some bytes; takes from their front, from a random place in them, and from past their end.
fn every_operation(tally: &mut Tally, random: &mut Random, bytes: &[u8], paths: &[Vec<u32>]) {
    for path in paths {
        every_lookup(tally, random, bytes, path);
        objects_around(tally, random, bytes, path);
    }
    every_take(tally, random, bytes);
    let at = random.below(bytes.len() + 1);
    every_take(tally, random, &bytes[at..]);
    every_object(tally, random, bytes, at);
    let past = random.one_of(&places_past_end(bytes.len()));
    every_object(tally, random, bytes, past);
}

/// Looks up a path in copies of a record. In each copy one of the objects at one level cannot be read. Then the record
/// itself, with a number in the path, at the same level, that is no tag.
fn broken_at_each_level(tally: &mut Tally, random: &mut Random, record: &[u8], path: &[u32]) {
    for level in 0..path.len() {
        let Ok([start, len, _]) = Lookup::new(CRATE_READING, record, &path[..level]).told() else { return };
        let end = (start + len) as usize;
        let next = |&at: &usize| {
            let [_, _, value, len] = model::object(CRATE_READING, &record[..end], at).ok()?;
            Some((value + len) as usize)
        };
        let places: Vec<usize> = iter::successors(Some(start as usize), next).collect();
        let at = random.one_of(&places);
        let broken = unreadable_at(random, record, at..end);
        every_lookup(tally, random, &broken, path);
        let mut other = path.to_vec();
        other[level] = no_tag(random);
        every_lookup(tally, random, record, &other);
    }
}

/// Looks up a path in some bytes that are a value inside of one to three templates.
fn inside_templates(tally: &mut Tally, random: &mut Random, bytes: &[u8], path: &[u32]) {
    let depth = 1 + random.below(3);
    let record = in_templates(random, bytes, depth);
    let path = [&record.paths[0], path].concat();
    every_lookup(tally, random, &record.bytes, &path);
    objects_around(tally, random, &record.bytes, &path);
}

/// A nested record that is broken at each level of its longest path; and as a value inside templates, whole and cut.
pub fn broken(tally: &mut Tally, random: &mut Random) {
    let depth = 1 + random.below(4);
    let Record { bytes, paths } = random_record(random, depth);
    let path = paths.iter().max_by_key(|path| path.len()).unwrap();
    broken_at_each_level(tally, random, &bytes, path);
    inside_templates(tally, random, &bytes, path);
    let missing = [&path[..], &[no_tag(random)]].concat();
    inside_templates(tally, random, &bytes, &missing);
    let cut = random.below(bytes.len() + 1);
    inside_templates(tally, random, &bytes[..cut], path);
}

/// A nested record of this depth: whole, with a byte changed, damaged, and cut.
fn nested(tally: &mut Tally, random: &mut Random, depth: usize) {
    let record = random_record(random, depth);
    let paths = random_paths(random, &record);
    every_operation(tally, random, &record.bytes, &paths);
    let (some, others) = paths.split_at(4);
    let changed = random.one_byte_off(&record.bytes);
    every_operation(tally, random, &changed, some);
    let damaged = random.damaged(&record.bytes);
    every_operation(tally, random, &damaged, others);
    let cut = &record.bytes[..random.below(record.bytes.len() + 1)];
    every_operation(tally, random, cut, some);
}

/// Records that are cut at every place, also inside templates, and with each byte changed; and their objects from every
/// place.
fn every_cut(tally: &mut Tally, random: &mut Random) {
    for i in 0..140 {
        let Record { mut bytes, paths } = random_record(random, 1 + i % 6);
        bytes.truncate(200);
        let path = &paths[random.below(paths.len())];
        for at in 0..=bytes.len() {
            every_lookup(tally, random, &bytes[..at], path);
            inside_templates(tally, random, &bytes[..at], path);
            every_object(tally, random, &bytes, at);
        }
        for at in 0..bytes.len() {
            let mut changed = bytes.clone();
            changed[at] ^= 1 + random.below(255) as u8;
            every_lookup(tally, random, &changed, path);
        }
    }
}

/// Long records of many small objects: looks up the last object of the record and of a template, and one that is
/// missing; and the same in cut copies.
fn long(tally: &mut Tally, random: &mut Random) {
    for (outer, inner) in pairs([200, 60_000, 65_500, 66_000, 140_000], [20, 300, 33_000, 65_500]) {
        let record = long_record(random, outer, inner);
        let [top, inside] = [&record.paths[0][..], &record.paths[1]];
        let len = record.bytes.len();
        let missing = [inside[0], 0x5F2A];
        for path in [&[], top, inside, &missing, &missing[1..]] {
            every_lookup(tally, random, &record.bytes, path);
        }
        for cut in [1, 3, 4, 7, 1 + random.below(len)] {
            every_lookup(tally, random, &record.bytes[..len - cut], top);
            every_lookup(tally, random, &record.bytes[..len - cut], inside);
        }
    }
}

/// Many small objects with the same tag, then the due date.
pub fn after_many(tally: &mut Tally, random: &mut Random) {
    for (len, byte) in [(7, 5), (700, 5), (65_002, 5), (64_999, 2), (65_530, 0), (601, 5)] {
        let record = [&vec![byte; len][..], &[0x5F, 0x24, 0x03, 0x26, 0x10, 0x09]].concat();
        for path in [&[0x5F24][..], &[byte.into()], &[0x5F25], &[0x26], &[]] {
            every_lookup(tally, random, &record, path);
        }
    }
}

/// Random bytes. Every second one is small: a tag of one byte, or a length that may fit.
fn random_bytes(tally: &mut Tally, random: &mut Random) {
    let most = random.one_of(&[5, 12, 40]);
    let n = random.below(most);
    let mut bytes = random.bytes(n);
    bytes.iter_mut().step_by(2).for_each(|byte| *byte %= 64);
    let first = bytes.iter().take(1).map(|&byte| byte.into()).collect();
    every_operation(tally, random, &bytes, &[Vec::new(), first]);
}

/// Tag and length of an object, or only its length, cut at a random place.
fn cut_header(tally: &mut Tally, random: &mut Random) {
    let tags: [&[u8]; 4] = [&[], &[0x5A], &[0x5F, 0x24], &[0xDF, 0x81, 0x01]];
    let forms = length_forms(random.below(300));
    let form = &forms[random.below(forms.len())];
    let header = [random.one_of(&tags), form].concat();
    let at = random.below(header.len() + 1);
    every_take(tally, random, &header[..at]);
}

/// A nested record of a random depth up to 6, a broken one, random bytes, and cut headers.
pub fn random_cases(tally: &mut Tally, random: &mut Random) {
    let depth = random.below(7);
    nested(tally, random, depth);
    broken(tally, random);
    for _ in 0..4 {
        random_bytes(tally, random);
        cut_header(tally, random);
    }
}

/// The short run.
pub fn compare(tally: &mut Tally, random: &mut Random) {
    document_cases::compare(tally, random);
    every_short_string(tally);
    every_length(tally, random);
    every_buffer(tally);
    for i in 0..14_000 {
        nested(tally, random, i % 7);
        broken(tally, random);
    }
    every_cut(tally, random);
    long(tally, random);
    for _ in 0..20_000 {
        random_bytes(tally, random);
    }
    writing::compare(tally, random);
    zeros::compare(tally, random);
}
