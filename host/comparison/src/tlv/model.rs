//! A model of BER records in both readings, from document 01, and from document 02: of the places that request 2 adds,
//! and of the zero bytes that the standard reading skips since request 3. If the Rust returns `None` for a tag or a
//! length, the model says whether that is 11 or 12. It is the reference for the standard reading, which the Rust does
//! not have, and which document 01 takes from EMV Book 3 Annex B; and for numbers in a path that no tag of the Rust can
//! hold.

use gorvisclen::{CRATE_READING, LEN_NUMBERS, LOOKUP_NUMBERS, OBJECT_NUMBERS, STANDARD_READING, TAG_NUMBERS};

use crate::answer::Told;

/// The end at an object boundary.
const END: u8 = 11;

/// An object starts here, but cannot be read.
const UNREADABLE: u8 = 12;

/// Bytes as one big-endian number.
pub fn number(bytes: &[u8]) -> u64 {
    bytes.iter().fold(0, |n, &byte| n * 256 + u64::from(byte))
}

/// How many bytes the tag has: the rows of document 01, "BER records". The first row that fits counts.
fn tag_len(reading: u8, bytes: &[u8]) -> Result<usize, u8> {
    let low_five = bytes.first().map(|b1| b1 % 32);
    match (reading, bytes) {
        (_, []) => Err(END),
        // Request 3: in the standard reading, which has every number from 1 on, a zero byte is no tag.
        (STANDARD_READING.., [0x00, ..]) => Err(UNREADABLE),
        _ if low_five != Some(31) => Ok(1),
        (_, [_]) => Err(UNREADABLE),
        (CRATE_READING, [_, 0x00..=0x1D | 0x80, ..]) => Err(UNREADABLE),
        (CRATE_READING, [_, 0x81..=0xFE]) => Err(UNREADABLE),
        (CRATE_READING, [_, 0x81..=0xFE, 0x81..=0xFE, ..]) => Err(UNREADABLE),
        (CRATE_READING, [_, 0x81..=0xFE, ..]) => Ok(3),
        (CRATE_READING, _) => Ok(2),
        (_, [_, 0x1F..=0x7F, ..]) => Ok(2),
        (_, [_, 0x81..=0xFF, 0x00..=0x7F, ..]) => Ok(3),
        _ => Err(UNREADABLE),
    }
}

/// A tag: its number, and how many bytes it takes.
pub fn tag(reading: u8, bytes: &[u8]) -> Result<[u64; TAG_NUMBERS], u8> {
    let len = tag_len(reading, bytes)?;
    Ok([number(&bytes[..len]), len as u64])
}

/// A length, and how many bytes it takes. Both readings read it the same way.
pub fn len(bytes: &[u8]) -> Result<[u64; LEN_NUMBERS], u8> {
    match *bytes {
        [l @ 0x00..=0x7F, ..] => Ok([l.into(), 1]),
        [0x81, l, ..] => Ok([l.into(), 2]),
        [0x82, high, low, ..] => Ok([number(&[high, low]), 3]),
        _ => Err(UNREADABLE),
    }
}

/// Request 3: how many zero bytes are skipped at the front of some bytes, where an object may start. The standard
/// reading skips all of them, the crate's reading none.
fn skipped(reading: u8, bytes: &[u8]) -> usize {
    match reading {
        CRATE_READING => 0,
        _ => bytes.iter().take_while(|&&byte| byte == 0).count(),
    }
}

/// The object at a place of a record, after the zero bytes that are skipped there: its place, its tag, the place of its
/// value, the value's length. 11 is at the end of the record, 12 at the object's first byte.
pub fn object(reading: u8, record: &[u8], at: usize) -> Told<OBJECT_NUMBERS> {
    let at = at.min(record.len());
    let at = at + skipped(reading, &record[at..]);
    let bytes = &record[at..];
    let at = at as u64;
    let refused = |number| (number, [at, 0, 0, 0]);
    let [tag, tag_len] = tag(reading, bytes).map_err(refused)?;
    let [len, len_len] = len(&bytes[tag_len as usize..]).map_err(refused)?;
    let head = tag_len + len_len;
    if head + len > bytes.len() as u64 {
        return Err(refused(UNREADABLE));
    }
    Ok([at, tag, at + head, len])
}

/// The value at a path: its place in the record, its length, and how many tags matched. At each level the first object
/// with the tag is entered, and the record is read up to the end of its value. A refusal has its place in the record,
/// no length, and how many tags matched before it.
pub fn lookup(reading: u8, record: &[u8], path: &[u32]) -> Told<LOOKUP_NUMBERS> {
    walk(reading, record, path, &mut false)
}

/// Whether a lookup skips zero bytes right before it ends: before the object that it finds, before the one that it
/// cannot read, or before the end that it reaches.
pub fn ends_after_zeros(reading: u8, record: &[u8], path: &[u32]) -> bool {
    let mut after_zeros = false;
    let _ = walk(reading, record, path, &mut after_zeros);
    after_zeros
}

/// A lookup. It also notes whether the object that it reads, or the end, comes after zero bytes.
fn walk(reading: u8, record: &[u8], path: &[u32], after_zeros: &mut bool) -> Told<LOOKUP_NUMBERS> {
    let (mut start, mut end) = (0, record.len());
    for (matched, &wanted) in (0..).zip(path) {
        let mut at = start;
        loop {
            let object = object(reading, &record[..end], at);
            let (Ok([place, ..]) | Err((_, [place, ..]))) = object;
            *after_zeros = place > at as u64;
            let [_, tag, value, len] = object.map_err(|(number, _)| (number, [place, 0, matched]))?;
            at = (value + len) as usize;
            if tag == wanted.into() {
                (start, end) = (value as usize, at);
                break;
            }
        }
    }
    Ok([start, end - start, path.len()].map(|n| n as u64))
}
