//! Random records of nested objects, and paths to look up in them.

use std::ops::Range;

use gorvisclen::STANDARD_READING;

use super::model;
use crate::random::Random;

/// Tags that both readings read, of one, two and three bytes. Some are next to tags that are refused. But the first, a
/// zero byte, is a tag in the crate's reading only: the standard reading skips it.
const TAGS: [u32; 24] = [
    0x00, 0x5A, 0xC1, 0x24, 0x70, 0x6F, 0xE1, 0x5F24, 0x5F25, 0x5F1F, 0x5F7F, 0x1F20, 0x9F36, 0x7F21, 0xBF2C, 0xFF1F,
    0xDF8101, 0x7F8100, 0x1FFE7F, 0x5F9024, 0xFF817F, 0x3FC01F, 0xDFA45F, 0x9F8124,
];

/// Tags that one reading reads, or neither.
const DIFFERING: [u32; 12] =
    [0x5F1E, 0xFFFF, 0x1FFF, 0x5FFF24, 0xFF8180, 0xDFFEFF, 0x5F80, 0x5F1D, 0x1F00, 0x7F8181, 0x9F90FE, 0xFF8001];

/// Numbers that are no tag in either reading.
const NO_TAGS: [u32; 14] = [
    0x1F, 0x5F, 0xFF, 0x0124, 0x5A00, 0x5F1D, 0x5F80, 0x5F8181, 0x015F24, 0x5F2400, 0x01000000, 0x01005F24, 0x5F240000,
    0xFFFFFFFF,
];

/// The tag of a template that contains other records. It is none of the tags above.
const TEMPLATE: u32 = 0x7F4E;

/// Bytes that no reading reads as an object: because of the tag, of the length, or of a value past the end of a short
/// record.
const UNREADABLE: [&[u8]; 7] = [
    &[0x1F, 0x80],
    &[0x5F, 0x00],
    &[0xDF, 0x81, 0x81],
    &[0x5A, 0x80],
    &[0x5F, 0x24, 0x83],
    &[0x5A, 0x7F],
    &[0xDF, 0x81, 0x01, 0x82, 0xFF, 0xFF],
];

/// The bytes of a record, and the paths to its objects.
#[derive(Clone, Default)]
pub struct Record {
    pub bytes: Vec<u8>,
    pub paths: Vec<Vec<u32>>,
}

/// The bytes of a tag: its number without leading zero bytes, but at least one byte.
pub fn tag_bytes(tag: u32) -> Vec<u8> {
    let bytes = tag.to_be_bytes();
    let zeros = bytes[..3].iter().take_while(|&&byte| byte == 0).count();
    bytes[zeros..].to_vec()
}

fn random_tag(random: &mut Random) -> u32 {
    match random.below(24) {
        0 => random.one_of(&DIFFERING),
        1..=8 => TAGS[7 + random.below(2)],
        _ => random.one_of(&TAGS),
    }
}

/// The forms in which a length can be written, the shortest first. `n` is at most 65,535.
pub fn length_forms(n: usize) -> Vec<Vec<u8>> {
    let [.., high, low] = n.to_be_bytes();
    let forms = [(0x7F, vec![low]), (0xFF, vec![0x81, low])];
    let fits = forms.into_iter().filter(|(most, _)| n <= *most);
    fits.map(|(_, form)| form).chain([vec![0x82, high, low]]).collect()
}

/// A random value without objects: often empty, often with bytes that look like objects.
fn random_value(random: &mut Random) -> Vec<u8> {
    let n = match random.below(8) {
        0 | 1 => 0,
        2 | 3 => return [&tag_bytes(random_tag(random))[..], &[0x03, 0x26, 0x10, 0x09]].concat(),
        4 => random.one_of(&[126, 127, 128, 129, 255, 256, 257]),
        5 => return vec![0; random.below(6)],
        _ => random.below(12),
    };
    random.bytes(n)
}

impl Record {
    /// Adds an object. Its length is in the shortest form or in another one. A value that is too long is cut to 65,535
    /// bytes.
    fn add(&mut self, random: &mut Random, tag: u32, mut value: Record) {
        value.bytes.truncate(65_535);
        let forms = length_forms(value.bytes.len());
        let form = if random.below(2) == 0 { 0 } else { random.below(forms.len()) };
        self.bytes.extend([&tag_bytes(tag), &forms[form], &value.bytes[..]].concat());
        self.paths.push(vec![tag]);
        let inner = value.paths.into_iter();
        self.paths.extend(inner.map(|path| [&[tag], &path[..]].concat()));
    }
}

/// A random record in which the deepest path has `depth` tags. With depth 0 it has no objects.
pub fn random_record(random: &mut Random, depth: usize) -> Record {
    if depth == 0 {
        let bytes = random_value(random);
        return Record { bytes, ..Record::default() };
    }
    let mut record = Record::default();
    let objects = 1 + random.below(4);
    let deepest = random.below(objects);
    for i in 0..objects {
        let deeper = if i == deepest { depth - 1 } else { random.below(depth) };
        let value = random_record(random, deeper);
        let tag = random_tag(random);
        record.add(random, tag, value);
        if random.below(16) == 0 {
            record.bytes.extend(vec![0; 1 + random.below(4)]);
        }
    }
    record
}

/// A copy of a record with other zero bytes in front of each object and of the end, and so in the value of each object,
/// `levels` levels deep. `run` says how many there are each time. Lengths are as they must be then, in a random form.
/// Objects are those of the standard reading; the bytes from one that cannot be read stay. The paths lead to all
/// objects.
pub fn with_zeros(
    random: &mut Random,
    bytes: &[u8],
    levels: usize,
    run: &mut dyn FnMut(&mut Random) -> usize,
) -> Record {
    if levels == 0 {
        return Record { bytes: bytes.to_vec(), ..Record::default() };
    }
    let (mut copy, mut at) = (Record::default(), 0);
    loop {
        copy.bytes.extend(vec![0; run(random)]);
        match model::object(STANDARD_READING, bytes, at) {
            Ok([_, tag, value, len]) => {
                at = (value + len) as usize;
                let inside = with_zeros(random, &bytes[value as usize..at], levels - 1, run);
                copy.add(random, tag as u32, inside);
            }
            Err((_, [place, ..])) => {
                copy.bytes.extend(&bytes[place as usize..]);
                return copy;
            }
        }
    }
}

/// Small objects with random tags out of these, up to a few bytes more than `len`.
fn small_objects(random: &mut Random, tags: &[u32], len: usize) -> Record {
    let mut record = Record::default();
    while record.bytes.len() < len {
        let tag = random.one_of(tags);
        let n = random.below(6);
        let bytes = random.bytes(n);
        record.add(random, tag, Record { bytes, ..Record::default() });
    }
    record
}

/// A long record of small objects, then a template, then one last object. In the template are small objects of `inner`
/// bytes or a few more, and the last object too. The paths lead to the last object of the record and of the template.
/// Both readings read all of it.
pub fn long_record(random: &mut Random, outer: usize, inner: usize) -> Record {
    let [_, tags @ .., last] = TAGS;
    let end = Record { bytes: vec![0x26, 0x10, 0x09], ..Record::default() };
    let mut inside = small_objects(random, &tags, inner);
    inside.add(random, last, end.clone());
    let mut record = small_objects(random, &tags, outer);
    record.add(random, TEMPLATE, inside);
    record.add(random, last, end);
    record.paths = vec![vec![last], vec![TEMPLATE, last]];
    record
}

/// A record in which these bytes are the value of a template in a template, and so on, of `depth` templates. In each
/// there are small objects before the next one and any bytes after it. The path leads to the bytes.
pub fn in_templates(random: &mut Random, bytes: &[u8], depth: usize) -> Record {
    let mut bytes = bytes.to_vec();
    for _ in 0..depth {
        let before = random.below(8);
        let mut outer = small_objects(random, &TAGS[..TAGS.len() - 1], before);
        outer.add(random, TEMPLATE, Record { bytes, ..Record::default() });
        outer.bytes.extend(random_value(random));
        bytes = outer.bytes;
    }
    Record { bytes, paths: vec![vec![TEMPLATE; depth]] }
}

/// A copy of a record in which the object at the start of a part can often not be read. No other part is changed.
pub fn unreadable_at(random: &mut Random, record: &[u8], part: Range<usize>) -> Vec<u8> {
    let mut copy = record.to_vec();
    copy[part].iter_mut().zip(random.one_of(&UNREADABLE)).for_each(|(byte, &new)| *byte = new);
    copy
}

/// A number that is no tag in either reading.
pub fn no_tag(random: &mut Random) -> u32 {
    random.one_of(&NO_TAGS)
}

/// A random number for a path: a tag, a tag that not both readings read, or no tag at all.
fn random_number(random: &mut Random) -> u32 {
    match random.below(4) {
        0 => no_tag(random),
        1 => random.one_of(&DIFFERING),
        _ => random_tag(random),
    }
}

/// A number that is similar to a tag: with bytes removed or added at the front or at the end, or with one bit changed.
fn similar_number(random: &mut Random, tag: u32) -> u32 {
    match random.below(7) {
        0 => tag & 0xFF,
        1 => tag & 0xFFFF,
        2 => tag >> 8,
        3 => tag << 8,
        4 => tag | 0x0100_0000,
        5 => tag | (tag << 16),
        _ => tag ^ (1 << random.below(32)),
    }
}

/// Paths to look up in a record, of at most 6 tags: the empty path, paths to its objects, and similar ones.
pub fn random_paths(random: &mut Random, record: &Record) -> Vec<Vec<u32>> {
    let existing = |random: &mut Random| match record.paths.len() {
        0 => vec![random_number(random)],
        n => record.paths[random.below(n)].clone(),
    };
    let mut paths = vec![Vec::new(), existing(random), existing(random)];
    for _ in 0..4 {
        let mut path = existing(random);
        let at = random.below(path.len());
        match random.below(5) {
            0 => path[at] = random_number(random),
            1 => path[at] = similar_number(random, path[at]),
            2 => path.insert(at, random_number(random)),
            3 => path.push(random_number(random)),
            _ => {
                path.remove(at);
            }
        }
        path.truncate(6);
        paths.push(path);
    }
    paths
}
