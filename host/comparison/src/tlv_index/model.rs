//! A model of the index, from request 4 of document 02 and its page: the list that is built, the file in four sections,
//! and a lookup through it. Objects are read by the Rust, and so are the levels below the first.

use std::ops::Range;

use gorvisclen::{CRATE_READING, LOOKUP_NUMBERS};

use crate::answer::{Answer, Told};
use crate::tlv::{rust_walk, Lookup};

/// The most objects that an index lists, and the longest record that one is built from.
pub const MOST_OBJECTS: usize = 255;
pub const LONGEST_RECORD: usize = 65_535;

/// The reasons for the end of a list: the end of the record, or an object that cannot be read.
pub const REASONS: [u16; 2] = [11, 12];

/// An object that is listed: its tag, the place of its value, the length of the value.
#[derive(Clone, Copy, Debug, PartialEq)]
pub struct Entry {
    pub tag: u32,
    pub place: u16,
    pub len: u16,
}

/// The end of a list: its reason and its place.
#[derive(Clone, Copy, Debug, PartialEq)]
pub struct End {
    pub reason: u16,
    pub place: u16,
}

/// An index. A file of a wrong form is made of one too: with other reasons, or with more entries.
#[derive(Clone, Debug, PartialEq)]
pub struct Index {
    pub entries: Vec<Entry>,
    pub end: End,
}

/// A section of a file: its count, and the bytes of its entries. The count may be another than that of the entries.
#[derive(Clone, Debug)]
pub struct Section {
    pub count: u16,
    pub entries: Vec<u8>,
}

/// What a lookup through an index uses.
pub enum Used {
    /// Nothing: the path is empty.
    Nothing,
    Entry(Entry),
    End(End),
}

impl Entry {
    /// The part of the record that it says.
    fn part(self) -> Range<usize> {
        let place = usize::from(self.place);
        place..place + usize::from(self.len)
    }
}

impl Section {
    /// A section with as many entries as it has.
    pub fn of(entries: &[&[u8]]) -> Self {
        Section { count: entries.len() as u16, entries: entries.concat() }
    }

    pub fn bytes(&self) -> Vec<u8> {
        [&self.count.to_be_bytes()[..], &self.entries].concat()
    }
}

impl Index {
    /// The sections of its file.
    pub fn sections(&self) -> [Section; 4] {
        let of = |bytes: &[Vec<u8>]| Section::of(&bytes.iter().map(|entry| &entry[..]).collect::<Vec<_>>());
        let tags: Vec<_> = self.entries.iter().map(|entry| entry.tag.to_be_bytes()[1..].to_vec()).collect();
        let places: Vec<_> = self.entries.iter().map(|entry| entry.place.to_be_bytes().to_vec()).collect();
        let lens: Vec<_> = self.entries.iter().map(|entry| entry.len.to_be_bytes().to_vec()).collect();
        let End { reason, place } = self.end;
        let end = [reason.to_be_bytes(), place.to_be_bytes()].concat();
        [of(&tags), of(&places), of(&lens), of(&[end])]
    }

    /// Its file.
    pub fn file(&self) -> Vec<u8> {
        file_of(&self.sections())
    }
}

/// The bytes of some sections, one after the other.
pub fn file_of(sections: &[Section]) -> Vec<u8> {
    sections.iter().flat_map(Section::bytes).collect()
}

/// The index of a record: its objects in the crate's reading, from the first one on, up to where the Rust reads no
/// further.
pub fn build(record: &[u8]) -> Result<Index, u8> {
    if record.len() > LONGEST_RECORD {
        return Err(24);
    }
    let (mut entries, mut at) = (Vec::new(), 0);
    loop {
        match rust_walk::object(&record[at..], record) {
            Ok([_, tag, place, len]) => {
                at = (place + len) as usize;
                entries.push(Entry { tag: tag as u32, place: place as u16, len: len as u16 });
            }
            Err((reason, [place, ..])) => {
                return Ok(Index { entries, end: End { reason: reason.into(), place: place as u16 } })
            }
        }
        if entries.len() > MOST_OBJECTS {
            return Err(24);
        }
    }
}

/// Two bytes as a number.
fn two(bytes: &[u8]) -> u16 {
    u16::from_be_bytes([bytes[0], bytes[1]])
}

/// The entries of the section at the front of some bytes, `width` bytes each, and the bytes behind it; nothing if bytes
/// are missing.
fn section(bytes: &[u8], width: usize) -> Option<(Vec<&[u8]>, &[u8])> {
    let (count, rest) = bytes.split_at_checked(2)?;
    let (entries, behind) = rest.split_at_checked(usize::from(two(count)) * width)?;
    Some((entries.chunks(width).collect(), behind))
}

/// The index that a file is, if it has the form of one.
fn formed(file: &[u8]) -> Option<Index> {
    let (tags, rest) = section(file, 3)?;
    let (places, rest) = section(rest, 2)?;
    let (lens, rest) = section(rest, 2)?;
    let (ends, behind) = section(rest, 4)?;
    let same_counts = tags.len() == places.len() && tags.len() == lens.len() && tags.len() <= MOST_OBJECTS;
    let [end] = ends[..] else { return None };
    let end = End { reason: two(end), place: two(&end[2..]) };
    let columns = tags.iter().zip(&places).zip(&lens);
    let entry = |((tag, place), len): ((&&[u8], &&[u8]), &&[u8])| Entry {
        tag: u32::from_be_bytes([0, tag[0], tag[1], tag[2]]),
        place: two(place),
        len: two(len),
    };
    let right = same_counts && behind.is_empty() && REASONS.contains(&end.reason);
    right.then(|| Index { entries: columns.map(entry).collect(), end })
}

/// The index that a file is; 25 if it has another form.
pub fn read(file: &[u8]) -> Result<Index, u8> {
    formed(file).ok_or(25)
}

/// What a lookup of a path through a file uses.
pub fn used(file: &[u8], path: &[u32]) -> Result<Used, u8> {
    let index = read(file)?;
    let Some(&first) = path.first() else { return Ok(Used::Nothing) };
    let entry = index.entries.into_iter().find(|entry| entry.tag == first);
    Ok(entry.map_or(Used::End(index.end), Used::Entry))
}

/// The part of a record whose bytes may alter a lookup through a file. Besides it there is only the record's length.
pub fn part_seen(file: &[u8], record: &[u8], path: &[u32]) -> Range<usize> {
    match used(file, path) {
        Ok(Used::Entry(entry)) if record.get(entry.part()).is_some() => entry.part(),
        _ => 0..0,
    }
}

/// A lookup of further tags in the value of an entry, which has matched. Places count in the whole record.
fn inside(entry: Entry, value: &[u8], tags: &[u32]) -> Told<LOOKUP_NUMBERS> {
    let shifted = |[place, len, matched]: [u64; LOOKUP_NUMBERS]| [u64::from(entry.place) + place, len, 1 + matched];
    let told = Lookup::new(CRATE_READING, value, tags).told();
    told.map(shifted).map_err(|(number, numbers)| (number, shifted(numbers)))
}

/// A lookup of a path through a file.
pub fn lookup(file: &[u8], record: &[u8], path: &[u32]) -> Answer<'static, LOOKUP_NUMBERS> {
    let told = match used(file, path)? {
        Used::Nothing => Ok([0, record.len() as u64, 0]),
        Used::Entry(entry) => inside(entry, record.get(entry.part()).ok_or(25)?, &path[1..]),
        Used::End(End { place, .. }) if usize::from(place) > record.len() => return Err(25),
        Used::End(End { reason, place }) => Err((reason as u8, [place.into(), 0, 0])),
    };
    Ok(told.into())
}
