//! Records that an index is built from: around 255 objects, around 65,535 bytes, with damage behind; and buffers and
//! places around the bytes that the index needs.

use gorvisclen::INDEX_BYTES;

use super::model;
use super::operations::{build, own_index, Indexed};
use crate::call::Call;
use crate::guarded::with_guards;
use crate::lent::places_past;
use crate::loops::{pairs, triples};
use crate::random::Random;
use crate::tally::Tally;
use crate::tlv::records::{length_forms, tag_bytes};

/// Bytes that end a list: none, or an object that cannot be read, because of its tag, of its length, or of a value that
/// is too short.
const ENDINGS: [&[u8]; 7] =
    [&[], &[0x5F], &[0x5F, 0x80], &[0xC1], &[0xC1, 0x83, 0x00], &[0xC1, 0x01], &[0xC1, 0x81, 0x80]];

/// The tags of many objects, in turn. Some come twice, and one is a zero byte.
const TAGS: [u32; 9] = [0xC1, 0x5F24, 0xDF8101, 0xC1, 0x00, 0xE1, 0x7F8100, 0xE1, 0x5F1E];

/// A tag that no record here has.
const MISSING: u32 = 0x9F02;

/// An object whose length is in a random form.
fn object(random: &mut Random, tag: u32, value: &[u8]) -> Vec<u8> {
    let forms = length_forms(value.len());
    [&tag_bytes(tag), &forms[random.below(forms.len())], value].concat()
}

/// So many objects, with tags in turn and values of up to `longest` bytes.
fn objects(random: &mut Random, count: usize, longest: usize) -> Vec<u8> {
    let one = |i: usize| {
        let n = random.below(longest + 1);
        let value = random.bytes(n);
        object(random, TAGS[i % TAGS.len()], &value)
    };
    (0..count).flat_map(one).collect()
}

/// One object in front of another one, such that the record has `len` bytes and the last value has `last` bytes.
fn long_record(random: &mut Random, len: usize, last: usize) -> Vec<u8> {
    let value = random.bytes(last);
    let end = [&[0x5F, 0x24], &length_forms(last)[0][..], &value].concat();
    let first = len - end.len() - 4;
    let value = random.bytes(first);
    [&[0xC1], &length_forms(first)[length_forms(first).len() - 1][..], &value, &end].concat()
}

/// How many bytes the index of a record needs; if there is none, as many as the longest.
fn need(record: &[u8]) -> usize {
    model::build(record).map_or(INDEX_BYTES, |index| index.file().len())
}

/// An index in a buffer that it fits exactly from a place, that is a byte too short and a byte longer; `out` of every
/// length; and places around the end.
fn around_the_end(tally: &mut Tally, record: &[u8], before: usize) {
    let need = need(record);
    let exact = before + need;
    for (buffer_len, (after, out_len)) in pairs([exact, exact - 1, exact + 1], [(0, 1), (1, 2), (0, 0)]) {
        build(record, before + after).compare(tally, buffer_len, out_len);
    }
    for at in places_past(before, need) {
        build(record, at).compare(tally, exact, 1);
    }
}

/// The index of a record in a buffer that it fits, and often in others. The record is right before a guard, or right
/// after one.
pub fn built(tally: &mut Tally, random: &mut Random, record: &[u8]) {
    let (before, need) = (random.below(4), need(record));
    let (exact, at_end) = (before + need, random.below(4) > 0);
    with_guards(|[here, ..]| {
        let record = here.copy(record, at_end);
        build(record, before).compare(tally, exact + random.below(3), 1 + random.below(4));
        match random.below(6) {
            0 => build(record, before).compare(tally, exact + random.below(3), 0),
            1 => build(record, before).compare(tally, exact - 1, 1),
            2 => build(record, before).compare(tally, random.below(exact + 1), random.below(3)),
            3 => build(record, random.one_of(&places_past(before, need))).compare(tally, exact, 1),
            _ => (),
        }
    });
}

/// Paths to objects that an index lists: to the first, to the last and to others, and one that is missing; each as it
/// is, and with a tag more.
fn some_paths(record: &[u8]) -> Vec<Vec<u32>> {
    let entries = model::build(record).map_or(Vec::new(), |index| index.entries);
    let listed = [0, 1, entries.len() / 2, entries.len().saturating_sub(1)];
    let tags = listed.iter().filter_map(|&i| entries.get(i)).map(|entry| entry.tag);
    let one = tags.chain([MISSING, 0x0100_00C1]).map(|tag| vec![tag]);
    let paths = std::iter::once(Vec::new()).chain(one);
    pairs(paths, [&[][..], &[0xC1]]).map(|(path, more): (_, &[u32])| [&path[..], more].concat()).collect()
}

/// A record with everything that is done with its own index.
fn whole(tally: &mut Tally, random: &mut Random, record: &[u8]) {
    around_the_end(tally, record, random.below(4));
    let paths = some_paths(record);
    own_index(tally, random, record, &paths);
    let Ok(index) = model::build(record) else { return };
    let file = index.file();
    for path in &paths {
        Indexed::new(&file, record, path).compare(tally, random);
    }
}

/// Records of 0 to 4 and of 253 to 258 objects, with each ending; also many more, and with longer values.
fn every_count(tally: &mut Tally, random: &mut Random) {
    let counts = (0..=4).chain(253..=258).chain([300, 511, 512, 513, 1_000]);
    for (count, longest, ending) in triples(counts, [0, 3, 200], ENDINGS) {
        let record = [&objects(random, count, longest)[..], ending].concat();
        whole(tally, random, &record);
    }
    // The smallest objects: so many that their number has more than eight bits, or is 0 in eight bits.
    for (count, ending) in pairs([254, 255, 256, 257, 32_766], ENDINGS) {
        whole(tally, random, &[&[0xC1, 0x00].repeat(count), ending].concat());
    }
}

/// Records of around 65,535 bytes, and longer ones: with last values of every short length, which end at the record's
/// end or a few bytes before it, so that the last place is 65,535 too.
fn every_length(tally: &mut Tally, random: &mut Random) {
    for (len, last) in pairs([65_533, 65_534, 65_535, 65_536, 65_537, 65_538], [0, 1, 2, 127, 65_520]) {
        let record = long_record(random, len, last);
        whole(tally, random, &record);
        for cut in [1, 2, 3] {
            whole(tally, random, &record[..len - cut]);
        }
        whole(tally, random, &[&record[..len - 1], &[0x5F]].concat());
    }
    for (len, ending) in pairs([65_534, 65_535, 65_536, 65_537], ENDINGS) {
        let front = long_record(random, len - ending.len(), 0);
        whole(tally, random, &[&front[..], ending].concat());
    }
    // Records that cannot be read at all, and records of too many objects, which are too long as well.
    for len in [65_535, 65_536, 65_537, 131_072] {
        whole(tally, random, &vec![0x5F; len]);
        whole(tally, random, &vec![0x00; len]);
        whole(tally, random, &vec![0x01; len]);
    }
}

/// 24 comes before 16 of the buffer, and 16 of `out` before 24.
fn every_order(tally: &mut Tally) {
    let many = [0xC1, 0x00].repeat(256);
    let records: [&[u8]; 4] = [&many, &many[..510], &[0x00; 65_536], &[0x5F; 65_536]];
    for (record, buffer_len) in pairs(records, [0, 1, 11, 12, 1_796, 1_797, 1_798, 1_804, 1_805]) {
        for (at, out_len) in pairs([0, 1, 11, 12, 1_797, 1_798, usize::MAX], 0..=4) {
            build(record, at).compare(tally, buffer_len, out_len);
        }
    }
}

/// Small buffers: every place from the beginning to past the end, `out` of every length up to 4.
fn every_place(tally: &mut Tally) {
    for record in [&[][..], &[0x5F], &[0xC1, 0x01, 0xAA], &[0xC1, 0x00, 0x5F, 0x24, 0x00, 0x5F]] {
        let need = need(record);
        for buffer_len in (0..=3).chain(need - 2..=need + 4) {
            for (at, out_len) in pairs((0..=buffer_len + 2).chain([usize::MAX - 1, usize::MAX]), 0..=4) {
                build(record, at).compare(tally, buffer_len, out_len);
            }
        }
    }
}

/// The short run.
pub fn compare(tally: &mut Tally, random: &mut Random) {
    every_place(tally);
    every_order(tally);
    every_count(tally, random);
    every_length(tally, random);
}
