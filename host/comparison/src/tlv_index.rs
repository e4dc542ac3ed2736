//! The index of a record. The Rust has none: a model of request 4 says what is right. The Rust reads the objects that
//! are listed, and the levels below the first. A lookup through a record's own index must be the full lookup, that of
//! the Rust and that of the library; and no byte of the record may alter it but those of the entry that is used.
//! `building.rs` has records around the limits, `files.rs` has files that are no index, and `entries.rs` those whose
//! entries do not fit the record. The file, the record and the path are between guards (`guarded.rs`).

mod benchmark;
mod building;
mod document_cases;
mod entries;
mod files;
mod model;
mod operations;

use std::iter;

pub use self::benchmark::bench;
use self::building::built;
use self::model::{End, Entry, Index};
pub use self::operations::required as required_replies;
use self::operations::{own_index, Indexed};
use crate::loops::pairs;
use crate::random::Random;
use crate::tally::Tally;
use crate::tlv::records::{in_templates, no_tag, random_paths, random_record, unreadable_at, Record};

/// The bytes of short records, and the tags of paths. Some of these are in no record, and two are no tags.
const BYTES: [u8; 7] = [0x00, 0x01, 0x02, 0x1F, 0x5F, 0x81, 0xC1];
const TAGS: [u32; 9] = [0x00, 0x01, 0x02, 0x81, 0xC1, 0x1F5F, 0x5F1F, 0x1F, 0x0100_00C1];

/// The tag of a template.
const TEMPLATE: u32 = 0xE1;

/// A record: its index is built, and paths are looked up through it.
fn indexed(tally: &mut Tally, random: &mut Random, record: &[u8], paths: &[Vec<u32>]) {
    built(tally, random, record);
    own_index(tally, random, record, paths);
    if let Ok(index) = model::build(record) {
        files::read(tally, random, &index.file(), record, paths);
    }
}

/// Every string of up to four bytes out of a few: as a record, as the value of a template, and after an object. In
/// those of four bytes only a few paths are looked up.
fn every_string(tally: &mut Tally, random: &mut Random) {
    let one = TAGS.map(|tag| vec![tag]);
    let two = pairs([0x00, 0xC1], [0x00, 0x01, 0xC1]).map(|(outer, inner)| vec![outer, inner]);
    let paths: Vec<Vec<u32>> = iter::once(Vec::new()).chain(one).chain(two).collect();
    let inside: Vec<Vec<u32>> = paths.iter().map(|path| [&[TEMPLATE], &path[..]].concat()).collect();
    let mut strings = vec![Vec::new()];
    for at in 0.. {
        let Some(string) = strings.get(at).cloned() else { return };
        let few = if string.len() < 4 { paths.len() } else { 4 };
        let from = random.below(paths.len() - few + 1);
        let in_template = [&[TEMPLATE as u8, string.len() as u8], &string[..]].concat();
        indexed(tally, random, &string, &paths[from..from + few]);
        indexed(tally, random, &in_template, &inside[from..from + few]);
        indexed(tally, random, &[&[0xC1, 0x00], &string[..]].concat(), &paths[from..from + few]);
        if string.len() < 4 {
            strings.extend(BYTES.map(|byte| [&string[..], &[byte]].concat()));
        }
    }
}

/// A copy of an index with one to three numbers changed; some stay near.
fn changed(random: &mut Random, index: &Index) -> Index {
    let mut copy = index.clone();
    for _ in 0..1 + random.below(3) {
        let (n, near) = (copy.entries.len(), random.below(7) as u16);
        let any = random.number() as u16;
        let new = |old: u16| if any.is_multiple_of(3) { any } else { old.wrapping_add(near).wrapping_sub(3) };
        match random.below(6) {
            0 => copy.end.place = new(copy.end.place),
            1 => copy.end.reason = random.one_of(&[11, 12, 11, 12, 0, 10, 13, 0x0B00]),
            _ if n == 0 => copy.entries.push(Entry { tag: no_tag(random) & 0xFF_FFFF, place: near, len: any % 4 }),
            2 => copy.entries.swap(random.below(n), random.below(n)),
            3 => {
                let doubled = copy.entries[random.below(n)];
                copy.entries.insert(random.below(n + 1), doubled);
            }
            4 => {
                let entry = &mut copy.entries[random.below(n)];
                entry.place = new(entry.place);
            }
            _ => {
                let entry = &mut copy.entries[random.below(n)];
                entry.len = new(entry.len);
            }
        }
    }
    copy
}

/// Lookups in a record through files that are not its own: with numbers changed, damaged, and of a similar record.
fn other_files(tally: &mut Tally, random: &mut Random, index: &Index, record: &[u8], paths: &[Vec<u32>]) {
    let file = index.file();
    let cut = random.below(file.len());
    let others = [changed(random, index).file(), changed(random, index).file(), random.damaged(&file)];
    for other in others.iter().map(|other| &other[..]).chain([&file[..cut]]) {
        files::read(tally, random, other, record, paths);
    }
    let cut = random.below(record.len() + 1);
    let [damaged, changed] = [random.damaged(record), random.one_byte_off(record)];
    for other in [&damaged, &changed, &record[..cut]] {
        files::read(tally, random, &file, other, paths);
    }
}

/// A random record of a random depth, whole, damaged, cut, and in templates: each with its own index and with others.
pub fn random_cases(tally: &mut Tally, random: &mut Random) {
    let depth = random.below(4);
    let record = random_record(random, depth);
    let paths = random_paths(random, &record);
    indexed(tally, random, &record.bytes, &paths);
    let some = &paths[..4];
    if let Ok(index) = model::build(&record.bytes) {
        other_files(tally, random, &index, &record.bytes, some);
    }
    let cut = random.below(record.bytes.len() + 1);
    indexed(tally, random, &record.bytes[..cut], some);
    let damaged = random.damaged(&record.bytes);
    indexed(tally, random, &damaged, some);
    let broken = unreadable_at(random, &record.bytes, cut..record.bytes.len());
    let depth = 1 + random.below(2);
    let Record { bytes, paths: outer } = in_templates(random, &broken, depth);
    let longer: Vec<_> = some.iter().map(|path| [&outer[0], &path[..]].concat()).collect();
    indexed(tally, random, &bytes, &longer);
    random_numbers(tally, random);
}

/// A file of random entries near a record's edges, and a record of random bytes; records that are too long or have too
/// many objects.
fn random_numbers(tally: &mut Tally, random: &mut Random) {
    let (n, len) = (random.below(5), random.below(12));
    let record = random.bytes(len);
    let near = |random: &mut Random| random.below(len + 3) as u16;
    let mut entry = || Entry { tag: random.one_of(&TAGS) & 0xFF_FFFF, place: near(random), len: near(random) };
    let entries = (0..n).map(|_| entry()).collect();
    let end = End { reason: random.one_of(&[11, 12]), place: near(random) };
    let file = Index { entries, end }.file();
    for _ in 0..3 {
        let path = [random.one_of(&TAGS), random.one_of(&TAGS)];
        Indexed::new(&file, &record, &path[..1 + random.below(2)]).compare(tally, random);
    }
    let many = [random.byte() & 0xDF, 0x00].repeat(250 + random.below(12));
    built(tally, random, &many);
    let (long, len) = (random.long_string(), 65_536 + random.below(10));
    built(tally, random, &long[..len]);
}

/// The short run.
pub fn compare(tally: &mut Tally, random: &mut Random) {
    document_cases::compare(tally);
    every_string(tally, random);
    building::compare(tally, random);
    entries::compare(tally, random);
    files::compare(tally, random);
    for _ in 0..4_000 {
        random_cases(tally, random);
    }
}
