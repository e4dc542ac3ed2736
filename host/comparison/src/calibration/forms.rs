//! Records of another form: with each byte changed, cut at both ends, with a byte more at every place, with objects
//! that a lookup would find, with longer forms of the lengths, and short strings.

use std::iter;

use super::questions::{every_question, read_and_one};
use super::samples::{good_record, object, random_day, random_serial, record_due, template};
use crate::loops::{pairs, triples, up_to_two_bytes};
use crate::random::Random;
use crate::tally::Tally;
use crate::tlv::records::length_forms;

/// The bytes of strings of three.
const BYTES: [u8; 13] = [0x00, 0x01, 0x04, 0x0F, 0x10, 0x20, 0x81, 0x82, 0xC1, 0xC2, 0xC3, 0xE1, 0xFF];

/// Bytes that stand before or behind a record, or between its objects: zeros, other objects, and what cannot be read.
const MORE: [&[u8]; 12] = [
    &[0x00],
    &[0x00, 0x00],
    &[0x00; 15],
    &[0xFF],
    &[0xC4, 0x00],
    &[0x5F, 0x24, 0x01, 0x26],
    &[0xC1, 0x01, 0x42],
    &[0xC2, 0x04, 0x20, 0x30, 0x01, 0x01],
    &[0xC3, 0x04, 0x00, 0x00, 0x00, 0x02],
    &[0xE1, 0x00],
    &[0x90, 0x00],
    &[0xC1],
];

/// A good record with each byte replaced by each other value.
fn every_byte(tally: &mut Tally, random: &mut Random, record: &[u8]) {
    let mut copy = record.to_vec();
    for (at, byte) in pairs(0..record.len(), 0..=255) {
        if record[at] != byte {
            copy[at] = byte;
            every_question(tally, random, &copy);
            copy[at] = record[at];
        }
    }
}

/// Every part of a good record; the record with each part twice, and without each part.
fn every_part(tally: &mut Tally, random: &mut Random, record: &[u8]) {
    for (start, end) in pairs(0..=record.len(), 0..=record.len()) {
        if let Some(part) = record.get(start..end) {
            every_question(tally, random, part);
        }
        every_question(tally, random, &[&record[..end], &record[start..]].concat());
    }
}

/// A good record with many bytes behind it. Its length is a good one if it is cut to one or two bytes.
fn far_too_long(tally: &mut Tally, random: &mut Random, record: &[u8]) {
    for more in [256, 512, 65_536] {
        every_question(tally, random, &[record, &vec![0; more]].concat());
    }
}

/// A record with the lengths of the objects that contain a place made greater by `more`: none of them, the template's,
/// or the template's and that of the object in it.
fn mended(record: &[u8], at: usize, more: usize) -> Vec<Vec<u8>> {
    let n = usize::from(record[3]);
    let inner = [(3, 4..=n + 4), (n + 5, n + 6..=n + 10), (n + 11, n + 12..=n + 16)];
    let longer = |places: &[usize]| {
        let mut copy = record.to_vec();
        places.iter().for_each(|&place| copy[place] += more as u8);
        copy
    };
    let both = inner.into_iter().filter(|(_, value)| value.contains(&at)).map(|(place, _)| longer(&[1, place]));
    let outer = (at >= 2).then(|| longer(&[1]));
    iter::once(record.to_vec()).chain(outer).chain(both).collect()
}

/// A good record with bytes more at a place, with lengths as they were and made greater.
fn inserted(tally: &mut Tally, random: &mut Random, record: &[u8], at: usize, bytes: &[u8]) {
    for mut copy in mended(record, at, bytes.len()) {
        copy.splice(at..at, bytes.iter().copied());
        read_and_one(tally, random, &copy);
    }
}

/// A good record with a byte more, and with several, at every place: before, behind and between.
fn every_insertion(tally: &mut Tally, random: &mut Random, record: &[u8]) {
    for at in 0..=record.len() {
        (0..=255).for_each(|byte| inserted(tally, random, record, at, &[byte]));
        MORE.iter().for_each(|bytes| inserted(tally, random, record, at, bytes));
    }
}

/// Templates of up to four parts, each of which is one of the three objects, another one, or a zero byte; alone and
/// with bytes before and behind.
fn every_order(tally: &mut Tally, random: &mut Random) {
    let mut contents: Vec<(usize, Vec<u8>)> = vec![(0, Vec::new())];
    for i in 0.. {
        let Some((parts, bytes)) = contents.get(i).cloned() else { return };
        let (whole, more) = (template(&bytes), random.one_of(&MORE));
        for record in [&whole, &bytes, &[more, &whole].concat(), &[&whole, more].concat()] {
            every_question(tally, random, record);
        }
        if parts < 4 {
            let due = random_day(random).bytes;
            let objects = [object(0xC1, &[0x41]), object(0xC2, &due), object(0xC3, &[0, 3, 0x0D, 0x40])];
            let others = [object(0xC4, &[]), vec![0]];
            let next = objects.iter().chain(&others).map(|part| (parts + 1, [&bytes[..], part].concat()));
            contents.extend(next);
        }
    }
}

/// Values of many lengths in templates that are otherwise good: also a date and a capacity that are longer or shorter,
/// and a serial of no bytes or too many.
fn every_length(tally: &mut Tally, random: &mut Random) {
    for (n, date_len, capacity_len) in triples(0..=20, 0..=8, 0..=8) {
        let serial = random_serial(random, n);
        let date = [&random_day(random).bytes[..], &[0; 4]].concat();
        let capacity = random.bytes(capacity_len);
        let objects = [object(0xC1, &serial), object(0xC2, &date[..date_len]), object(0xC3, &capacity)];
        every_question(tally, random, &template(&objects.concat()));
    }
}

/// Lengths in each form for each of the four objects, with serials up to 300 bytes.
fn every_form(tally: &mut Tally, random: &mut Random) {
    for n in (0..=20).chain([99, 100, 113, 114, 127, 128, 200, 241, 242, 255, 256, 257, 272, 300]) {
        let (serial, due) = (random_serial(random, n), random_day(random).bytes);
        for (of_serial, of_date, of_capacity) in triples(length_forms(n), length_forms(4), length_forms(4)) {
            let parts: [&[u8]; 9] =
                [&[0xC1], &of_serial, &serial, &[0xC2], &of_date, &due, &[0xC3], &of_capacity, &[0, 3, 0x0D, 0x40]];
            let contents = parts.concat();
            for form in length_forms(contents.len()) {
                every_question(tally, random, &[&[0xE1], &form[..], &contents].concat());
            }
        }
        // Lengths of one byte each, also where that is too few.
        let contents = [&[0xC1, n as u8], &serial[..], &[0xC2, 4], &due, &[0xC3, 4, 0, 3, 0x0D, 0x40]].concat();
        every_question(tally, random, &[&[0xE1, contents.len() as u8], &contents[..]].concat());
    }
}

/// Every string of up to two bytes, some of three; and strings of one byte of every length up to 300.
fn every_short_string(tally: &mut Tally, random: &mut Random) {
    for string in up_to_two_bytes() {
        read_and_one(tally, random, &string);
    }
    for (one, two, three) in triples(BYTES, BYTES, BYTES) {
        every_question(tally, random, &[one, two, three]);
    }
    for (byte, len) in pairs([0x00, 0xC1, 0xE1, 0xFF], 0..=300) {
        every_question(tally, random, &vec![byte; len]);
    }
}

/// Two bytes changed at once: the two lengths, and a tag or a length together with the date.
fn two_bytes(tally: &mut Tally, random: &mut Random) {
    for n in [1, 8, 16] {
        let mut record = good_record(random, n);
        for lengths in pairs(0..=255, 0..=255) {
            (record[1], record[3]) = lengths;
            read_and_one(tally, random, &record);
        }
    }
    let no_dates = [[0x20, 0x26, 0x02, 0x29], [0x20, 0x26, 0x13, 0x01], [0x19, 0x99, 0x12, 0x31], [0xFF; 4]];
    for (n, date, byte) in triples([1, 7, 16], no_dates, 0..=255) {
        let record = record_due(random, n, date);
        every_question(tally, random, &record);
        for at in [0, 1, 2, 3, n + 4, n + 5, n + 10, n + 11] {
            let mut copy = record.clone();
            copy[at] = byte;
            read_and_one(tally, random, &copy);
        }
        every_question(tally, random, &record[..record.len() - 1]);
        every_question(tally, random, &[&record[..], &[byte]].concat());
    }
}

pub fn compare(tally: &mut Tally, random: &mut Random) {
    for n in 1..=16 {
        let record = good_record(random, n);
        every_byte(tally, random, &record);
        every_part(tally, random, &record);
        every_insertion(tally, random, &record);
        far_too_long(tally, random, &record);
    }
    every_order(tally, random);
    every_length(tally, random);
    every_form(tally, random);
    every_short_string(tally, random);
    two_bytes(tally, random);
}
