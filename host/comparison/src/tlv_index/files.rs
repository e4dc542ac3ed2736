//! Files that are no index of the record, or no index at all: with every byte changed, cut at every place, with more
//! bytes, with counts that lie, with the sections of another file, and in other forms. Each must get a reply, and 25
//! exactly where the request says so.

use std::iter;

use super::model::{self, file_of, End, Entry, Index, Section};
use super::operations::{check_guarded, Indexed};
use crate::loops::{pairs, triples};
use crate::random::Random;
use crate::tally::Tally;

/// Records of 0 to 3 objects: whole and damaged, with two objects of one tag, and with objects in a value.
const RECORDS: [&[u8]; 7] = [
    &[],
    &[0x5F],
    &[0xC1, 0x01, 0xAA],
    &[0xC1, 0x01, 0xAA, 0xC1, 0x02, 0xBB, 0xCC, 0x5F],
    &[0xE1, 0x03, 0xC1, 0x01, 0xAA, 0x5F, 0x24, 0x00],
    &[0xC1, 0x00, 0xE1, 0x04, 0xC2, 0x00, 0x5F, 0x80, 0xDF, 0x81, 0x01, 0x02, 0xAA, 0xBB],
    &[0x5F, 0x24, 0x01, 0xAA, 0xC1, 0x81, 0x00, 0xE1, 0x02, 0xC1, 0x00, 0xC1, 0x05],
];

/// A tag that none of the records has.
const MISSING: u32 = 0x9F02;

/// Counts that a section can say instead of its own.
fn other_counts(count: u16) -> Vec<u16> {
    let near = (0..=4).flat_map(|n| [count.wrapping_add(n), count.wrapping_sub(n)]);
    near.chain([0, 1, 2, 254, 255, 256, 257, 511, 512, 32_768, 0xFFFE, 0xFFFF, count.swap_bytes()]).collect()
}

/// The empty path, a path to each object that the record has, one deeper, and one that is missing.
pub fn paths_of(record: &[u8]) -> Vec<Vec<u32>> {
    let entries = model::build(record).map_or(Vec::new(), |index| index.entries);
    let mut tags: Vec<u32> = entries.iter().map(|entry| entry.tag).chain([MISSING]).collect();
    tags.dedup();
    let paths = tags.iter().map(|&tag| vec![tag]).chain([vec![0xE1, 0xC1]]);
    iter::once(Vec::new()).chain(paths).collect()
}

/// A file: its form, with `out` of a random length, and lookups through it.
pub fn read(tally: &mut Tally, random: &mut Random, file: &[u8], record: &[u8], paths: &[Vec<u32>]) {
    let out_len = 1 + random.below(4);
    check_guarded(tally, random, file, out_len);
    if random.below(4) == 0 {
        check_guarded(tally, random, file, 0);
    }
    for path in paths {
        Indexed::new(file, record, path).compare(tally, random);
    }
}

/// Copies of a file with each byte replaced by each other value.
fn every_byte(file: &[u8]) -> impl Iterator<Item = Vec<u8>> + '_ {
    pairs(0..file.len(), 0..=255).filter(|&(at, byte)| file[at] != byte).map(|(at, byte)| {
        let mut copy = file.to_vec();
        copy[at] = byte;
        copy
    })
}

/// Copies of a file that are cut at a place, without the byte there, and with a byte more there.
fn damaged_at(file: &[u8], at: usize) -> [Vec<u8>; 4] {
    let [mut removed, mut doubled, mut inserted] = [file; 3].map(<[u8]>::to_vec);
    removed.splice(at..file.len().min(at + 1), []);
    doubled.splice(at..at, file.get(at).copied());
    inserted.insert(at, 0);
    [file[..at].to_vec(), removed, doubled, inserted]
}

/// A file with bytes behind it: zeros, its own last bytes, and a whole file.
fn extended(file: &[u8]) -> Vec<Vec<u8>> {
    let more = (1..=8).flat_map(|n| [vec![0; n], file[file.len() - n..].to_vec()]);
    let more = more.chain([file.to_vec(), vec![0; 256], vec![0; 65_536]]);
    more.map(|more| [file, &more].concat()).collect()
}

/// Files with other counts: each of the four, several at once, and one that is more while another is less. The bytes of
/// the entries are as they are.
fn lying_counts(index: &Index) -> Vec<Vec<u8>> {
    let sections = index.sections();
    let lie = |which: usize, count: u16| {
        let mut copy = sections.clone();
        (0..4).filter(|i| which >> i & 1 == 1).for_each(|i| copy[i].count = count);
        file_of(&copy)
    };
    let unlike = |(more, less, n): (usize, usize, u16)| {
        let mut copy = sections.clone();
        copy[more].count = copy[more].count.wrapping_add(n);
        copy[less].count = copy[less].count.wrapping_sub(n);
        file_of(&copy)
    };
    let counts = [other_counts(sections[0].count), other_counts(1)].concat();
    let lies = pairs(1..16, counts).map(|(which, count)| lie(which, count));
    lies.chain(triples(0..4, 0..4, [1, 2, 256]).map(unlike)).collect()
}

/// Files in which each section has as many entries as it says, up to four, but not all have the same: in some the bytes
/// are as many as in a right one.
fn uneven() -> Vec<Vec<u8>> {
    let tags: [&[u8]; 4] = [&[0, 0, 0xC1], &[0, 0, 0xE1], &[0, 0x5F, 0x24], &[0, 0, 0xC1]];
    let numbers: [&[u8]; 4] = [&[0, 0], &[0, 1], &[0, 2], &[0, 0]];
    let ends: [&[u8]; 3] = [&[0, 11, 0, 0], &[0, 12, 0, 1], &[0, 11, 0, 0]];
    let of = |(a, b, c): (usize, usize, usize), d: usize| {
        file_of(&[&tags[..a], &numbers[..b], &numbers[..c], &ends[..d]].map(Section::of))
    };
    pairs(triples(0..=4, 0..=4, 0..=4), 0..=3).map(|(counts, d)| of(counts, d)).collect()
}

/// The sections of two files, each taken from one of them.
fn exchanged(one: &Index, other: &Index) -> Vec<Vec<u8>> {
    let (one, other) = (one.sections(), other.sections());
    let of = |which: usize| [0, 1, 2, 3].map(|i| if which >> i & 1 == 1 { &other[i] } else { &one[i] }.clone());
    (0..16).map(|which| file_of(&of(which))).collect()
}

/// The sections of a file in every order; in some files one stands twice, and another is missing.
fn reordered(index: &Index) -> Vec<Vec<u8>> {
    let sections = index.sections();
    let of = |order: usize| [0, 2, 4, 6].map(|i| sections[order >> i & 3].clone());
    (0..256).map(|order| file_of(&of(order))).collect()
}

/// Numbers of `width` bytes each, with the bytes of each in the other order.
fn reversed(bytes: &[u8], width: usize) -> Vec<u8> {
    bytes.chunks(width).flat_map(|number| number.iter().rev().copied()).collect()
}

/// Numbers of two bytes, in four bytes each.
fn widened(bytes: &[u8]) -> Vec<u8> {
    bytes.chunks(2).flat_map(|two| [0, 0, two[0], two[1]]).collect()
}

/// An index in other forms: entry by entry, with fewer counts, little-endian, with narrower and wider fields, with the
/// reason in one byte or behind the place, with more in front.
fn other_forms(index: &Index) -> Vec<Vec<u8>> {
    let row = |entry: &Entry| {
        let tag = entry.tag.to_be_bytes();
        [&tag[1..], &entry.place.to_be_bytes(), &entry.len.to_be_bytes()].concat()
    };
    let rows: Vec<u8> = index.entries.iter().flat_map(row).collect();
    let (sections, file) = (index.sections(), index.file());
    let [tags, places, lens, end] = sections.each_ref().map(|section| &section.entries[..]);
    let (count, one) = (sections[0].count.to_be_bytes(), [0, 1]);
    let (little, [reason, place]) = (reversed(&count, 2), [&end[..2], &end[2..]]);
    let front = [&count, tags, &count, places, &count, lens].concat();
    vec![
        [&count, &rows[..], &one, end].concat(),
        [&count, &rows[..], end].concat(),
        [&count, &rows[..], &count, &count, &one, end].concat(),
        [&count, tags, places, lens, &one, end].concat(),
        [&count, tags, places, lens, end].concat(),
        [&count, &count, &count, &one, tags, places, lens, end].concat(),
        [&little, tags, &little, places, &little, lens, &[1, 0], end].concat(),
        [&little, tags, &little, places, &little, lens, &one, end].concat(),
        [&count, &reversed(tags, 3)[..], &count, &reversed(places, 2), &count, &reversed(lens, 2), &one, end].concat(),
        [&count, tags, &count, &widened(places), &count, &widened(lens), &one, reason, &widened(place)].concat(),
        [&count[1..], tags, &count[1..], places, &count[1..], lens, &one[1..], end].concat(),
        [&front, &one[..], &reversed(end, 2)].concat(),
        [&front, &one[..], &reason[1..], place].concat(),
        [&front, &one[..], place, reason].concat(),
        [&front[..], &[0, 2], reason, place].concat(),
        [&front, end].concat(),
        [&[0xFF, 0xFF], &file[..]].concat(),
        [&[0x00], &file[..]].concat(),
        [&[0x00, 0x00], &file[..]].concat(),
    ]
}

/// Files with other reasons.
fn other_reasons(index: &Index) -> Vec<Vec<u8>> {
    let reasons = (0..=25).chain([0x0B00, 0x0C00, 0x010B, 0x010C, 0x0B0B, 0x0C0C, 0x8B, 0x8C, 0x800B, 0xFFFF]);
    let of = |reason| Index { end: End { reason, ..index.end }, ..index.clone() }.file();
    reasons.map(of).collect()
}

/// Every file that is made from the index of a small record.
fn every_file(tally: &mut Tally, random: &mut Random, record: &[u8]) {
    let Ok(index) = model::build(record) else { return };
    let (file, paths) = (index.file(), paths_of(record));
    let files = every_byte(&file).chain((0..=file.len()).flat_map(|at| damaged_at(&file, at)));
    let files = files.chain(extended(&file)).chain(lying_counts(&index)).chain(other_reasons(&index));
    for other in files.chain(reordered(&index)).chain(other_forms(&index)).chain(uneven()) {
        read(tally, random, &other, record, &paths);
    }
    // Cut files once more, with the bytes that are cut off behind them.
    for cut in 0..=file.len() {
        read(tally, random, &file[..cut], record, &paths);
    }
    for other in RECORDS {
        let Ok(of_other) = model::build(other) else { continue };
        read(tally, random, &of_other.file(), record, &paths);
        for mixed in exchanged(&index, &of_other) {
            read(tally, random, &mixed, record, &paths);
        }
    }
}

/// Every file of twelve bytes in which each first byte of two is 00 or 01, and each second one is 00, 01, 0B or 0C.
fn every_short_file(tally: &mut Tally, random: &mut Random) {
    let path = [vec![MISSING]];
    for number in 0..1_u32 << 18 {
        let two =
            |i: u32| [(number >> (3 * i) & 1) as u8, [0x00, 0x01, 0x0B, 0x0C][(number >> (3 * i + 1) & 3) as usize]];
        let file: Vec<u8> = (0..6).flat_map(two).collect();
        match model::read(&file) {
            Ok(_) => read(tally, random, &file, &[0x01; 260], &path),
            // Those of another form are many: not all of them are checked.
            Err(_) if number % 5 == 0 => check_guarded(tally, random, &file, 1),
            Err(_) => (),
        }
    }
}

/// Every string of up to six bytes out of a few: all are too short for a file.
fn every_string(tally: &mut Tally, random: &mut Random) {
    let mut strings = vec![Vec::new()];
    for at in 0.. {
        let Some(string) = strings.get(at).cloned() else { return };
        read(tally, random, &string, &[0xC1, 0x00], &[vec![], vec![0xC1]]);
        if string.len() < 6 {
            strings.extend([0x00, 0x01, 0x0B].map(|byte| [&string[..], &[byte]].concat()));
        }
    }
}

/// Files of around 255 entries, otherwise of the right form; with other counts, cut, and with bytes behind. Then one of
/// 65,535 entries.
fn every_long_file(tally: &mut Tally, random: &mut Random) {
    let record = [0xC1, 0x00].repeat(256);
    let paths = [vec![], vec![0xC1], vec![0x5F_0101], vec![MISSING], vec![0x5F_00FE, 0xC1]];
    for count in [253, 254, 255, 256, 257, 511, 512, 65_535] {
        let entry = |i: usize| Entry { tag: 0x5F_0000 + i as u32, place: i as u16, len: (i % 5) as u16 };
        let index = Index { entries: (0..count).map(entry).collect(), end: End { reason: 12, place: 512 } };
        let file = index.file();
        read(tally, random, &file, &record, &paths);
        if count > 512 {
            return;
        }
        let shorter = [1, 2, 3, 4, 6, 12, 13, file.len() / 2].map(|n| file[..file.len() - n].to_vec());
        for other in shorter.into_iter().chain(extended(&file)).chain(lying_counts(&index)) {
            read(tally, random, &other, &record, &paths[1..4]);
        }
    }
}

/// The short run.
pub fn compare(tally: &mut Tally, random: &mut Random) {
    for record in RECORDS {
        every_file(tally, random, record);
    }
    every_short_file(tally, random);
    every_string(tally, random);
    every_long_file(tally, random);
}
