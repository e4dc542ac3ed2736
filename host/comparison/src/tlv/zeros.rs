//! Records with zero bytes where an object may start. Since request 3 of document 02 the standard reading skips them,
//! at every level that is entered. The crate's reading does not.

use std::iter;

use gorvisclen::{LOOKUP_NUMBERS, STANDARD_READING};

use super::labels::ZEROS_REMOVED;
use super::records::{long_record, random_record, with_zeros, Record};
use super::{every_lookup, every_object, every_take};
use crate::hex::Hex;
use crate::lent::{bytes, numbers, Outcome};
use crate::loops::pairs;
use crate::random::Random;
use crate::tally::Tally;

/// The bytes of short strings, the tags that these bytes can be, and the tags of two levels.
const BYTES: [u8; 6] = [0x00, 0x01, 0x1F, 0x5F, 0x81, 0xC1];
const TAGS: [u32; 11] = [0x00, 0x01, 0x81, 0xC1, 0x1F1F, 0x1F5F, 0x5F1F, 0x5F5F, 0x1F8100, 0x5F815F, 0x5FC11F];
const OF_LEVELS: [u32; 4] = [0x00, 0x01, 0x81, 0xC1];

/// Small records without zero bytes between objects.
const RECORDS: [&[u8]; 7] = [
    &[],
    &[0xC1, 0x01, 0xAA],
    // Empty values, and a value that starts and ends with zero bytes.
    &[0xC1, 0x00, 0x5F, 0x24, 0x00, 0xDF, 0x81, 0x01, 0x00],
    &[0xC1, 0x03, 0x00, 0xC2, 0x00, 0x5F, 0x24, 0x02, 0x00, 0x00],
    // Templates, one in the other, and an object after each.
    &[0xE1, 0x08, 0xE2, 0x04, 0xC1, 0x02, 0xAA, 0xBB, 0xC3, 0x00, 0xC4, 0x00],
    // The same tag at each level, twice at the first one.
    &[0xE1, 0x04, 0xE1, 0x02, 0xE1, 0x00, 0xE1, 0x03, 0xC1, 0x01, 0xAA],
    // Bytes that cannot be read: in a value in two templates; in a template; and, in the standard reading, after both.
    &[0xE1, 0x07, 0xE2, 0x03, 0xC1, 0x01, 0x5F, 0xC2, 0x05, 0xC3, 0x00, 0x5F, 0x1E, 0x00],
];

/// How many levels of a small record get zero bytes: the values of the deepest objects too.
const LEVELS: usize = 4;

/// How many zero bytes are in a row; and so many that a template has room for few more bytes.
const RUNS: [usize; 6] = [1, 2, 3, 4, 40, 300];
const LONG_RUN: usize = 65_520;

/// A tag that none of the small records has.
const MISSING: u32 = 0x9F02;

/// No zero bytes.
fn no_zeros(_: &mut Random) -> usize {
    0
}

/// A random number of zero bytes.
fn some_zeros(random: &mut Random) -> usize {
    match random.below(8) {
        0..=2 => 0,
        7 => random.below(40),
        _ => 1 + random.below(3),
    }
}

/// Copies of a record. In each there is one run of zero bytes, of this length, at another place where an object may
/// start.
fn with_a_run(random: &mut Random, record: &[u8], run: usize) -> Vec<Record> {
    let mut places = 0;
    with_zeros(random, record, LEVELS, &mut |_| {
        places += 1;
        0
    });
    let with_run_at = |place| {
        let mut next = 0..;
        with_zeros(random, record, LEVELS, &mut |_| if next.next() == Some(place) { run } else { 0 })
    };
    (0..places).map(with_run_at).collect()
}

/// Looks up a path in the standard reading, in a record and in a copy from whose levels, as many as the path has tags,
/// the zero bytes between objects are removed. The reply, the value's length and bytes, and how many tags matched must
/// be the same.
fn zeros_removed(tally: &mut Tally, random: &mut Random, record: &[u8], path: &[u32]) {
    let copy = with_zeros(random, record, path.len(), &mut no_zeros).bytes;
    let outcome = |from: &[u8]| {
        let (mut to, mut out) = (bytes(record.len()), numbers(LOOKUP_NUMBERS));
        let reply = gorvisclen::value(STANDARD_READING, from, path, to.part(), out.part());
        // The place may be another one.
        out.part()[0] = 0;
        Outcome::new(reply, out, to)
    };
    let input = || format!("{:?}, without zeros {:?}, path {:?}", Hex(record), Hex(&copy), Hex(path));
    tally.compare((ZEROS_REMOVED, &[]), input, &outcome(&copy), &outcome(record));
}

/// The empty path and the paths to all objects of a record; and each with one more tag, which is 0 or missing.
fn every_path(record: &Record) -> Vec<Vec<u32>> {
    let paths = iter::once(Vec::new()).chain(record.paths.clone());
    let more: [&[u32]; 3] = [&[], &[0], &[MISSING]];
    pairs(paths, more).map(|(path, more)| [&path, more].concat()).collect()
}

/// Looks up the paths in some bytes, also without the zero bytes between objects.
fn lookups(tally: &mut Tally, random: &mut Random, bytes: &[u8], paths: &[Vec<u32>]) {
    for path in paths {
        every_lookup(tally, random, bytes, path);
        zeros_removed(tally, random, bytes, path);
    }
}

/// Objects at every place of some bytes, and at one past the end.
fn objects(tally: &mut Tally, random: &mut Random, bytes: &[u8]) {
    for at in 0..=bytes.len() + 1 {
        every_object(tally, random, bytes, at);
    }
}

/// Damaged copies of some bytes: cut at a place, with the byte there changed, and with zero bytes inserted there, also
/// between a tag and its length. No length is adjusted.
fn damaged_at(random: &mut Random, bytes: &[u8], at: usize) -> [Vec<u8>; 3] {
    let [mut changed, mut inserted] = [bytes, bytes].map(<[u8]>::to_vec);
    let byte = random.byte();
    let new = random.one_of(&[0x00, 0x5F, 0x81, byte]);
    changed[at..].iter_mut().take(1).for_each(|byte| *byte = new);
    inserted.splice(at..at, vec![0; 1 + random.below(3)]);
    [bytes[..at].to_vec(), changed, inserted]
}

/// Every string of up to four bytes out of a few: a tag, a length, objects at every place, and lookups.
fn every_string(tally: &mut Tally, random: &mut Random) {
    let one = TAGS.map(|tag| vec![tag]);
    let two = pairs(OF_LEVELS, OF_LEVELS).map(|(outer, inner)| vec![outer, inner]);
    let paths: Vec<Vec<u32>> = iter::once(Vec::new()).chain(one).chain(two).collect();
    let mut strings = vec![Vec::new()];
    for at in 0.. {
        let Some(string) = strings.get(at).cloned() else { return };
        every_take(tally, random, &string);
        objects(tally, random, &string);
        lookups(tally, random, &string, &paths);
        if string.len() < 4 {
            strings.extend(BYTES.map(|byte| [&string[..], &[byte]].concat()));
        }
    }
}

/// A small record with each run of zero bytes at each place where an object may start.
fn every_run(tally: &mut Tally, random: &mut Random, record: &[u8]) {
    for copy in RUNS.map(|run| with_a_run(random, record, run)).concat() {
        objects(tally, random, &copy.bytes);
        lookups(tally, random, &copy.bytes, &every_path(&copy));
    }
}

/// A small record with random runs of zero bytes, which is damaged at every place.
fn every_damage(tally: &mut Tally, random: &mut Random, record: &[u8]) {
    let copy = with_zeros(random, record, LEVELS, &mut |random| random.below(3));
    let paths = every_path(&copy);
    let every_copy: Vec<_> = (0..=copy.bytes.len()).flat_map(|at| damaged_at(random, &copy.bytes, at)).collect();
    for damaged in every_copy {
        lookups(tally, random, &damaged, &paths);
        let at = random.below(damaged.len() + 1);
        every_object(tally, random, &damaged, at);
    }
}

/// Long runs of zero bytes; and a long record with zero bytes between many small objects.
fn long(tally: &mut Tally, random: &mut Random) {
    let templates = [0xE1, 0x03, 0xC1, 0x01, 0xAA];
    for copy in with_a_run(random, &templates, LONG_RUN) {
        lookups(tally, random, &copy.bytes, &every_path(&copy));
    }
    let front = [&[0; 140_000][..], &templates].concat();
    lookups(tally, random, &front, &[vec![0xE1, 0xC1], vec![0xE1, MISSING], vec![MISSING]]);
    let Record { bytes, paths } = long_record(random, 60_000, 10_000);
    let copy = with_zeros(random, &bytes, 2, &mut some_zeros);
    lookups(tally, random, &copy.bytes, &paths);
    lookups(tally, random, &copy.bytes, &[vec![MISSING], vec![paths[1][0], MISSING]]);
}

/// A random record with random runs of zero bytes, whole and damaged.
pub fn random_cases(tally: &mut Tally, random: &mut Random) {
    let depth = 1 + random.below(3);
    let record = random_record(random, depth);
    let copy = with_zeros(random, &record.bytes, depth + 1, &mut some_zeros);
    let paths = every_path(&copy);
    objects(tally, random, &copy.bytes);
    lookups(tally, random, &copy.bytes, &paths);
    let at = random.below(copy.bytes.len() + 1);
    for damaged in damaged_at(random, &copy.bytes, at) {
        lookups(tally, random, &damaged, &paths);
        every_object(tally, random, &damaged, at);
    }
}

/// The short run.
pub fn compare(tally: &mut Tally, random: &mut Random) {
    every_string(tally, random);
    for record in RECORDS {
        every_run(tally, random, record);
        every_damage(tally, random, record);
    }
    long(tally, random);
    for _ in 0..300 {
        random_cases(tally, random);
    }
}
