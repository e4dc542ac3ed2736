//! Files of a right form whose entries do not fit the record: a place, a length or an end at the record's edge or past
//! it. Only the entry that is used counts: the first with the tag, or the end.

use super::model::{End, Entry, Index};
use super::operations::{check_guarded, Indexed};
use crate::loops::{pairs, triples};
use crate::random::Random;
use crate::tally::Tally;

/// The tag that is looked up, one that no entry has, and one of an object in a value.
const TAG: u32 = 0xC1;
const MISSING: u32 = 0x9F02;
const INNER: u32 = 0xE2;

/// Entries that lie outside of every record, or of most.
const ABSURD: [Entry; 3] = [
    Entry { tag: 0xC2, place: 65_535, len: 65_535 },
    Entry { tag: 0x00, place: 1, len: 65_535 },
    Entry { tag: 0xFF_FFFF, place: 65_535, len: 0 },
];

/// Looks up paths through the file of an index.
fn lookups(tally: &mut Tally, random: &mut Random, index: &Index, record: &[u8], paths: &[&[u32]]) {
    let file = index.file();
    check_guarded(tally, random, &file, 1);
    for path in paths {
        Indexed::new(&file, record, path).compare(tally, random);
    }
}

/// Numbers at the edges of a record of this length, and of two bytes.
fn edges(len: usize) -> Vec<u16> {
    let near = [0, 1, 2, len / 2, len.wrapping_sub(1), len, len + 1, len + 2, 255, 256, 32_768, 65_534, 65_535];
    let mut edges: Vec<u16> = near.iter().filter_map(|&n| n.try_into().ok()).collect();
    edges.sort();
    edges.dedup();
    edges
}

/// Every place and length of an entry, and every place of an end, at the edges of short records. Absurd entries are in
/// front of it or behind it.
fn every_edge(tally: &mut Tally, random: &mut Random) {
    for len in [0, 1, 2, 3, 7, 300] {
        let record = &[0xE2, 0x00].repeat(150)[..len];
        for (place, value_len) in pairs(edges(len), edges(len)) {
            let entry = Entry { tag: TAG, place, len: value_len };
            let end = End { reason: random.one_of(&[11, 12]), place: random.one_of(&edges(len)) };
            let entries = match random.below(3) {
                0 => vec![entry],
                1 => [&[entry], &ABSURD[..]].concat(),
                _ => [&ABSURD[..], &[entry, entry]].concat(),
            };
            let paths: [&[u32]; 5] = [&[TAG], &[TAG, INNER], &[], &[MISSING], &[TAG, MISSING]];
            lookups(tally, random, &Index { entries, end }, record, &paths);
        }
        for (place, reason) in pairs(edges(len), [11, 12]) {
            for entries in [&[][..], &ABSURD, &[Entry { tag: TAG, place: 0, len: 0 }]] {
                let index = Index { entries: entries.to_vec(), end: End { reason, place } };
                lookups(tally, random, &index, record, &[&[MISSING], &[TAG], &[], &[MISSING, TAG], &[0]]);
            }
        }
    }
}

/// Long records, also above 65,535 bytes: entries that end at their end, a byte before it and a byte after it.
fn every_long_record(tally: &mut Tally, random: &mut Random) {
    let string = random.bytes(131_072);
    let lengths: [usize; 8] = [65_534, 65_535, 65_536, 65_537, 65_791, 131_069, 131_070, 131_071];
    for (len, value_len, less) in triples(lengths, [0, 1, 255, 65_534, 65_535], 0..=2) {
        let Some(Ok(place)) = (len + 1 - less).checked_sub(value_len).map(u16::try_from) else { continue };
        let entry = Entry { tag: TAG, place, len: value_len as u16 };
        let index = Index { entries: vec![ABSURD[1], entry], end: End { reason: 11, place: 65_535 } };
        lookups(tally, random, &index, &string[..len], &[&[TAG], &[], &[MISSING], &[TAG, INNER]]);
    }
}

/// Of several entries with the tag the first counts, whatever the others and the end say.
fn every_first(tally: &mut Tally, random: &mut Random) {
    let record = [0xC1, 0x02, 0xE2, 0x00, 0xC1, 0x05, 0xE2, 0x01, 0xAA, 0xE2, 0x00];
    let ways = [(2, 2), (6, 5), (2, 9), (11, 0), (12, 0), (65_535, 65_535), (10, 1), (10, 2), (0, 11), (0, 12)];
    for (first, second, third) in triples(ways, ways, ways) {
        let entries = [first, second, third].map(|(place, len)| Entry { tag: TAG, place, len }).to_vec();
        let end = End { reason: 12, place: first.0 };
        lookups(tally, random, &Index { entries, end }, &record, &[&[TAG], &[TAG, INNER]]);
    }
}

/// Numbers that a path and an entry may have: tags, numbers that are none, and numbers that differ in one byte or in
/// their order. A number above FFFFFF is in no entry.
const NUMBERS: [u32; 16] = [
    0x00, 0xC1, 0xC100, 0xC10000, 0xC1C1, 0x010000C1, 0xC1000000, 0xC10000C1, 0x5F24, 0x245F, 0x5F2400, 0x5F240000,
    0x1F, 0x5F80, 0xFFFFFF, 0xFFFFFFFF,
];

/// Each number in an entry, and each in a path. An entry has the three low bytes of its number.
fn every_number(tally: &mut Tally, random: &mut Random) {
    let record = [0xC1, 0x00, 0x5F, 0x24, 0x01, 0xAA];
    for (listed, also, number) in triples(NUMBERS, [0x00, 0xC1, 0xFF_FFFF], NUMBERS) {
        let at = |tag: u32, place| Entry { tag: tag & 0xFF_FFFF, place, len: 1 };
        let index = Index { entries: vec![at(listed, 1), at(also, 2)], end: End { reason: 11, place: 6 } };
        lookups(tally, random, &index, &record, &[&[number], &[number, 0xC1]]);
    }
}

/// The short run.
pub fn compare(tally: &mut Tally, random: &mut Random) {
    every_edge(tally, random);
    every_long_record(tally, random);
    every_first(tally, random);
    every_number(tally, random);
}
