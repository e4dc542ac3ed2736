//! Inputs for the program apdulist: named ones, and random ones, of which half are damaged.

use crate::model::MAX_INPUT;
use crate::random::Random;

/// The bytes of an input with these commands and records.
fn input(commands: &[Vec<u8>], records: &[Vec<u8>]) -> Vec<u8> {
    let mut bytes = Vec::new();
    for items in [commands, records] {
        bytes.extend((items.len() as u16).to_be_bytes());
        for item in items {
            bytes.extend((item.len() as u16).to_be_bytes());
            bytes.extend(item);
        }
    }
    bytes
}

/// The bytes, damaged once in `times` times.
fn sometimes_damaged(random: &mut Random, times: usize, bytes: Vec<u8>) -> Vec<u8> {
    match random.below(times) {
        0 => random.damaged(&bytes),
        _ => bytes,
    }
}

/// A random command, damaged once in three times.
fn random_command(random: &mut Random) -> Vec<u8> {
    let header = [[0x00, 0xA4, 0x04, 0x00], [0x80, 0x10, 0xFF, 0x01], [0xFF, 0xB0, 0x00, 0x00]];
    let mut bytes = header[random.below(20).saturating_sub(17)].to_vec();
    let extended = random.below(2) == 1;
    let n = [0, 1, 2, 5, 255, 256, 300][random.below(if extended { 7 } else { 5 })];
    let le = random.below(2) == 1;
    match (n, extended) {
        (0, _) => (),
        (_, true) => bytes.extend([0, (n >> 8) as u8, n as u8]),
        (_, false) => bytes.push(n as u8),
    }
    bytes.extend(random.bytes(n));
    if le {
        let [high, low] = random.one_of(&[0, 1, 256, 0x1234_u16]).to_be_bytes();
        match (extended, n) {
            (true, 0) => bytes.extend([0, high, low]),
            (true, _) => bytes.extend([high, low]),
            (false, _) => bytes.push(low),
        }
    }
    sometimes_damaged(random, 3, bytes)
}

/// A random object.
fn random_object(random: &mut Random) -> Vec<u8> {
    let tags: [&[u8]; 9] =
        [b"\x00", b"\x5A", b"\xE1", b"\xFE", b"\x5F\x24", b"\x9F\x7F", b"\xDF\xFF", b"\xDF\x81\x01", b"\x7F\xFE\xFF"];
    let mut bytes = random.one_of(&tags).to_vec();
    let n = random.one_of(&[0, 1, 3, 8, 127, 128, 200, 256]);
    match random.below(3) {
        0 if n < 128 => bytes.push(n as u8),
        1 if n < 256 => bytes.extend([0x81, n as u8]),
        _ => bytes.extend([0x82, (n >> 8) as u8, n as u8]),
    }
    bytes.extend(random.bytes(n));
    bytes
}

/// A random record, damaged once in three times.
fn random_record(random: &mut Random) -> Vec<u8> {
    let bytes = (0..random.below(6)).flat_map(|_| random_object(random)).collect();
    sometimes_damaged(random, 3, bytes)
}

/// A random input, damaged every second time.
pub fn random_input(random: &mut Random) -> Vec<u8> {
    let [commands, records] =
        [random_command, random_record].map(|item| (0..random.below(5)).map(|_| item(random)).collect::<Vec<_>>());
    sometimes_damaged(random, 2, input(&commands, &records))
}

/// An input of `len` bytes: no command, and one record of the smallest objects.
fn of_length(len: usize) -> Vec<u8> {
    let bytes = one_record(&vec![0x00; len - 6]);
    assert_eq!(bytes.len(), len);
    bytes
}

/// The example of document 01.
const EXAMPLE: &[u8] =
    b"\x00\x02\x00\x04\x00\xA4\x04\x00\x00\x05\xFF\xB0\x00\x00\x00\x00\x01\x00\x06\x5F\x24\x03\x26\x10\x09";

/// The record of request 2's vector, whose second object cannot be read.
const BROKEN: &[u8] = &[0xC1, 0x01, 0xAA, 0xC2, 0x05];

/// The example of document 01 and the vector of request 2, with their texts.
pub fn documents() -> [(Vec<u8>, &'static str); 2] {
    let example = "commands 2\n1 00 A4 04 00 lc 0 le 0 short\n2 refused 3\nrecords 1\n1.1 5F24 3\n";
    let vector = "commands 0\nrecords 1\n1.1 C1 1\n1.2 refused 12 at 3\n";
    [(EXAMPLE.to_vec(), example), (one_record(BROKEN), vector)]
}

/// An input with one command.
fn one_command(apdu: &[u8]) -> Vec<u8> {
    input(&[apdu.to_vec()], &[])
}

/// An input with one record.
fn one_record(record: &[u8]) -> Vec<u8> {
    input(&[], &[record.to_vec()])
}

/// Inputs that are malformed, or nearly so, and inputs around the longest.
fn malformed_and_longest() -> Vec<Vec<u8>> {
    let empty = input(&[], &[]);
    vec![
        vec![],
        empty.clone(),
        [&empty[..], &[0]].concat(),
        vec![0, 0, 0],
        vec![0, 1, 0, 0],
        vec![0xFF, 0xFF, 0, 0],
        vec![0, 1, 0xFF, 0xFF, 0, 0],
        of_length(MAX_INPUT),
        of_length(MAX_INPUT + 1),
        [of_length(MAX_INPUT), vec![0]].concat(),
        [of_length(MAX_INPUT), vec![0; 10_000]].concat(),
        one_record(&[0x5A, 0x00, 0x5F, 0x80, 0x00, 0x5A, 0x00]),
        input(&vec![vec![]; 14_998], &vec![vec![]; 15_000]),
        input(&vec![vec![0; 4]; 9_999], &[]),
    ]
}

/// An input with one command and `before` empty records, then a record of `objects` small objects and one that cannot
/// be read. Its place in the record is not its place in the input.
fn refused_after(before: usize, objects: usize) -> Vec<u8> {
    let refused = [&vec![0x00; 2 * objects][..], &[0x5F]].concat();
    input(&[vec![0x00, 0xB0, 0x00, 0x00]], &[vec![vec![]; before], vec![refused]].concat())
}

/// Records that are empty or end too early; several records; and refusals at places of one to five digits.
fn records_at_edges() -> Vec<Vec<u8>> {
    let several = [vec![0x5F, 0x24, 0x00], vec![], vec![0x5F], vec![], vec![0xDF, 0x81, 0x01, 0x81, 0x00]];
    vec![
        one_record(BROKEN),
        refused_after(0, 4),
        refused_after(1, 5),
        refused_after(9, 49),
        refused_after(99, 500),
        refused_after(999, 4_999),
        refused_after(9_999, 10_000),
        refused_after(0, 29_000),
        one_record(&[]),
        one_record(&[0x00, 0x00]),
        one_record(&[0x5A, 0x00, 0x5F, 0x80, 0x00]),
        one_record(&[0x5F]),
        one_record(&[0x5A]),
        one_record(&[0x5A, 0x02, 0x00]),
        one_record(&[0x5A, 0x83, 0x00, 0x00, 0x01, 0x00]),
        input(&[], &several),
    ]
}

/// A record of three objects, which is cut at every place.
const THREE_OBJECTS: [u8; 16] =
    [0x5A, 0x01, 0xAA, 0x5F, 0x24, 0x03, 0x26, 0x10, 0x09, 0xDF, 0x81, 0x01, 0x82, 0x00, 0x01, 0xBB];

/// Bodies of commands: of every case, and some that fit no case.
const BODIES: [&[u8]; 13] = [
    &[],
    &[0x00],
    &[0x07],
    &[0x00, 0x05],
    &[0x02, 0xAA],
    &[0x01, 0xAA],
    &[0x01, 0xAA, 0x00],
    &[0x00, 0x00, 0x00],
    &[0x00, 0x00, 0x01],
    &[0x00, 0x00, 0x01, 0xAA],
    &[0x00, 0x00, 0x01, 0xAA, 0x00, 0x00],
    &[0x00, 0x00, 0x00, 0x01, 0x02],
    &[0x00, 0x00, 0x02, 0xAA],
];

/// The example, and inputs at the edges of the form, of records and of commands.
pub fn named_inputs() -> Vec<Vec<u8>> {
    let mut all = vec![EXAMPLE.to_vec()];
    all.extend(malformed_and_longest());
    all.extend(records_at_edges());
    all.extend((0..=THREE_OBJECTS.len()).map(|n| one_record(&THREE_OBJECTS[..n])));
    for body in BODIES {
        all.push(one_command(&[&[0x00, 0xB0, 0x00, 0x00], body].concat()));
        all.push(one_command(&[&[0xFF, 0xB0, 0x00, 0x00], body].concat()));
    }
    all.extend((0..4).map(|n| one_command(&[0x00; 4][..n])));
    all
}
