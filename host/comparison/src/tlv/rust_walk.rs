//! What the Rust reads in a record, with places: where the parts that it returns start. If it returns `None`, the place
//! is the start of the remainder that could not be read; the refusal is 11 if that remainder is empty, otherwise 12.

use std::ops::Range;

use gorvisclen::{LOOKUP_NUMBERS, OBJECT_NUMBERS};
use original::tlv::{get_data_object, take_data_object, Tag};

use super::model;
use crate::answer::Told;

/// The number of a tag, from the bytes that it is written as. (In a debug build the Rust panics here, for 5F24 too.)
pub fn tag_number(tag: Tag) -> u64 {
    model::number(&tag.serialize())
}

/// Where a part of some bytes is in them.
pub fn place_of(part: &[u8], bytes: &[u8]) -> Range<usize> {
    let start = part.as_ptr() as usize - bytes.as_ptr() as usize;
    start..start + part.len()
}

/// The refusal of a remainder of a record that the Rust does not read, and its place.
fn refusal(remainder: &[u8], record: &[u8]) -> (u8, u64) {
    let number = if remainder.is_empty() { 11 } else { 12 };
    (number, place_of(remainder, record).start as u64)
}

/// The object at the start of a remainder of a record: its place, its tag, the place of its value, the value's length.
pub fn object(remainder: &[u8], record: &[u8]) -> Told<OBJECT_NUMBERS> {
    let Some((tag, value, rest)) = take_data_object(remainder) else {
        let (number, place) = refusal(remainder, record);
        return Err((number, [place, 0, 0, 0]));
    };
    let [object, value, rest] = [remainder, value, rest].map(|part| place_of(part, record));
    assert_eq!(rest, value.end..object.end);
    Ok([object.start as u64, tag_number(tag), value.start as u64, value.len() as u64])
}

/// The steps of the Rust's `get_data_object`, each by its `take_data_object` on the remainder that the step before
/// returned: the value that they lead to; or the refusal, its place, and how many tags matched before it.
fn steps<'a>(tags: &[Tag], record: &'a [u8]) -> Result<&'a [u8], (u8, [u64; LOOKUP_NUMBERS])> {
    let (mut value, mut remainder) = (record, record);
    for (matched, wanted) in (0..).zip(tags) {
        loop {
            let Some((tag, entered, rest)) = take_data_object(remainder) else {
                let (number, place) = refusal(remainder, record);
                return Err((number, [place, 0, matched]));
            };
            remainder = rest;
            if tag == *wanted {
                (value, remainder) = (entered, entered);
                break;
            }
        }
    }
    Ok(value)
}

/// The value at a path: its place, its length, and how many tags matched; or where the steps of the lookup end. They
/// must find what the Rust's `get_data_object` finds.
pub fn lookup(tags: &[Tag], record: &[u8]) -> Told<LOOKUP_NUMBERS> {
    let end = steps(tags, record).map(|value| place_of(value, record));
    let found = get_data_object(tags, record).map(|value| place_of(value, record));
    assert!(end.as_ref().ok() == found.as_ref(), "the steps are not the Rust's: {tags:?}, {record:?}");
    end.map(|part| [part.start, part.len(), tags.len()].map(|n| n as u64))
}
