//! Objects that are written into buffers.

use gorvisclen::STANDARD_READING;
use original::command::{BufferFull, DataSource, DataStream};
use original::tlv::{Tag, Tlv};
use original::Data;

use super::lookup::Lookup;
use super::records::{length_forms, tag_bytes};
use super::take::{self, Take};
use crate::answer::Writes;
use crate::call::{call, Call};
use crate::hex::Hex;
use crate::lent::places_past;
use crate::loops::{pairs, triples};
use crate::random::Random;
use crate::recording::Operation;
use crate::tally::Tally;

const WRITE: &str = "Tlv::to_writer";
const TOO_LONG: &str = "Tlv::to_writer, above 65,535 bytes (the Rust's fails, its tag already out)";
const PAST: &str = "Tlv::to_writer, a place past the buffer's end (no Rust: checked against a rule, 16)";
const READ_BACK: &str = "Tlv::to_writer, then the standard reading (checked against a rule: tag and value come back)";

/// Tags of each size, with zero bytes at the front, inside and at the end. Some are read in no reading.
const TAGS: [u32; 22] = [
    0x00, 0x01, 0x5A, 0x1F, 0xFF, 0x5F24, 0x5F00, 0x1F00, 0x0100, 0xFFFF, 0x5F1E, 0x5F80, 0x5F2400, 0x5F0024, 0x5F0000,
    0x010000, 0x7F8100, 0xDF8101, 0x1FFF7F, 0x1F0001, 0x808080, 0xFFFFFF,
];

/// An object to write: its tag in three bytes, with leading zero bytes, and its value.
pub type Object<'a> = ([u8; 3], Hex<'a, u8>);

pub fn object(tag: u32, value: &[u8]) -> Object<'_> {
    let [_, tag @ ..] = tag.to_be_bytes();
    (tag, Hex(value))
}

/// The Rust's object.
pub fn rust_object((tag, value): Object<'_>) -> Tlv<&[u8]> {
    Tlv::new(Tag::from(tag), value.0)
}

/// Whether the value is too long for the Rust. Then the Rust has written the tag; the room here has no space for more.
fn too_long(object: Object) -> bool {
    let mut room = Data::<3>::new();
    let written = rust_object(object).to_writer(&mut room);
    let failed = matches!(written, Err(BufferFull::Serialization(_)));
    assert!(!failed || *room == *Tag::from(object.0).serialize());
    failed
}

/// An object that is written into a buffer from a place. The Rust writes to the part of the buffer from this place on.
pub fn put_data_object(object: Object<'_>, at: usize) -> impl Call<1> + '_ {
    call(
        (WRITE, &[]),
        (object, at),
        |((tag, value), at), to, out| gorvisclen::put_data_object(*tag, value, to, *at, out),
        |&(object, at), to_len| {
            if too_long(object) {
                return Err(19);
            }
            let mut written = vec![0; to_len.checked_sub(at).ok_or(16)?];
            let mut rest = &mut written[..];
            rust_object(object).to_writer(&mut rest).map_err(|_| 16)?;
            let n = to_len - at - rest.len();
            assert_eq!(n, DataSource::len(&rust_object(object)));
            assert!(!rust_object(object).is_empty());
            written.truncate(n);
            Ok(Writes::new([n as u64], at, written))
        },
    )
    .labelled_by(|((_, value), at), to_len, _| match value.len() {
        65_536.. => Some((TOO_LONG, &[])),
        _ => (*at > to_len).then_some((PAST, &[])),
    })
    .recorded_as(Operation::PutDataObject)
}

/// Buffers that an object fits exactly from a place, that are a byte too short and a byte longer; and places around the
/// end.
fn around_the_end(tally: &mut Tally, object: Object, before: usize) {
    let need = DataSource::len(&rust_object(object));
    let exact = before + need;
    for (buffer_len, (at, len)) in pairs([exact, exact - 1, exact + 1], [(before, 1), (before + 1, 2), (before, 0)]) {
        put_data_object(object, at).compare(tally, buffer_len, len);
    }
    for at in places_past(before, need) {
        put_data_object(object, at).compare(tally, exact, 1);
    }
}

/// Small buffers: every place from the beginning to past the end, `out` of every length up to 2.
fn every_place(tally: &mut Tally, random: &mut Random) {
    for (tag, n) in pairs(TAGS, [0, 1, 2, 5]) {
        let value = &random.bytes(n);
        for buffer_len in 0..=12 {
            for (at, len) in pairs((0..=buffer_len + 3).chain([usize::MAX - 1, usize::MAX]), 0..=2) {
                put_data_object(object(tag, value), at).compare(tally, buffer_len, len);
            }
        }
    }
}

/// Values with lengths around each boundary.
pub fn every_boundary(tally: &mut Tally, random: &mut Random) {
    let string = &random.bytes(131_100);
    let short = [0, 1, 2, 126, 127, 128, 129, 254, 255, 256, 257, 511, 512];
    let long = [65_534, 65_535, 65_536, 65_537, 65_541, 65_791, 131_072];
    for (tag, n, before) in triples(TAGS, short, [0, 1, 7]) {
        around_the_end(tally, object(tag, &string[..n]), before);
    }
    for (tag, n) in pairs([TAGS[2], TAGS[5], TAGS[16]], long) {
        let object = object(tag, &string[..n]);
        around_the_end(tally, object, random.below(3));
        around_the_end(tally, object, 66_000);
        // 19 comes before 16.
        for (buffer_len, at) in [(0, 0), (0, 1), (4, 0), (n, 0), (n, n + 1)] {
            put_data_object(object, at).compare(tally, buffer_len, random.below(3));
        }
    }
}

/// The boundaries with every place from the beginning to past the end. The longest values have only one buffer, a
/// little longer than needed.
fn every_place_at_a_boundary(tally: &mut Tally, random: &mut Random) {
    let string = &random.bytes(65_536);
    for n in [0, 127, 128, 255, 256, 65_535, 65_536] {
        let object = object(TAGS[5], &string[..n]);
        let need = DataSource::len(&rust_object(object));
        for buffer_len in [need + 3, need, need - 1].into_iter().take(if n > 256 { 1 } else { 3 }) {
            for at in 0..=buffer_len + 3 {
                put_data_object(object, at).compare(tally, buffer_len, 1);
            }
        }
    }
}

/// Every first and second byte of a tag of three bytes.
fn every_tag(tally: &mut Tally, random: &mut Random) {
    for (front, last) in pairs(0..=0xFFFF, [0x00, 0x01, 0x1F, 0x80, 0xFF]) {
        let n = random.below(3);
        let value = &random.bytes(n);
        put_data_object(object((front << 8) + last, value), random.below(4)).compare(tally, 8, 1);
    }
}

/// Every tag with this first byte that the standard reading reads.
fn accepted(b1: u32) -> Vec<u32> {
    // Request 3: a zero byte is no tag.
    if b1 == 0 {
        return Vec::new();
    }
    if b1 % 32 != 31 {
        return vec![b1];
    }
    let two = (0x1F..=0x7F).map(|b2| (b1 << 8) + b2);
    let three = pairs(0x81..=0xFF, 0x00..=0x7F).map(|(b2, b3)| (b1 << 16) + (b2 << 8) + b3);
    two.chain(three).collect()
}

/// A tag that is written, then read in the standard reading, comes back with its value, also after zero bytes.
fn read_back(tally: &mut Tally, random: &mut Random, tag: u32) {
    let n = match random.below(64) {
        0 => random.one_of(&[127, 128, 255, 256]),
        _ => random.below(4),
    };
    let (value, at) = (&random.bytes(n)[..], random.below(6));
    // It is read from a place up to three zero bytes before its own.
    let from = at / 2;
    let mut buffer = [vec![0; at], vec![0xEE; n + 6]].concat();
    // After a refusal there is nothing to read, and the comparison fails.
    let _ = gorvisclen::put_data_object(object(tag, value).0, value, &mut buffer, at, &mut [0]);

    let head = tag_bytes(tag).len() + length_forms(n)[0].len();
    let answer = [at as u64, tag.into(), (at + head) as u64, n as u64].into();
    let object = take::Object { reading: STANDARD_READING, at: from };
    object.call(&buffer).compare_with_table(tally, READ_BACK, &Ok(answer), 0);
    let found = Ok(((at - from + head) as u64, value, 1));
    Lookup::new(STANDARD_READING, &buffer[from..], &[tag]).compare_with_table(tally, READ_BACK, found);
}

/// A random object, in buffers that it just fits, and in a random buffer from a random place; and a tag that is read
/// back.
pub fn random_cases(tally: &mut Tally, random: &mut Random) {
    let any = random.number();
    let three = (any >> 40) as u32;
    let tag = match random.below(4) {
        0 => random.one_of(&TAGS),
        1 => three & 0xFF,
        2 => three & 0xFFFF,
        _ => three,
    };
    let n = match random.below(1_000) {
        0 => 65_530 + random.below(12),
        1..300 => 120 + random.below(145),
        _ => random.below(20),
    };
    let string = random.long_string();
    let start = random.below(string.len() - n + 1);
    let object = object(tag, &string[start..start + n]);
    around_the_end(tally, object, random.below(9));
    let (buffer_len, at) = (random.below(n + 12), random.below(12));
    put_data_object(object, at).compare(tally, buffer_len, random.below(3));
    let [_, _, _, b1, b2, b3, ..] = any.to_be_bytes().map(u32::from);
    let b1 = b1 | 0x1F;
    let tag = match b2 {
        0x1F..=0x7F => (b1 << 8) + b2,
        0x81..=0xFF => (b1 << 16) + (b2 << 8) + (b3 & 0x7F),
        _ => b1 & 0xFE,
    };
    read_back(tally, random, tag);
}

/// The short run.
pub fn compare(tally: &mut Tally, random: &mut Random) {
    every_place(tally, random);
    every_boundary(tally, random);
    every_place_at_a_boundary(tally, random);
    every_tag(tally, random);
    for tag in (0..=0xFF).flat_map(accepted) {
        read_back(tally, random, tag);
    }
}
