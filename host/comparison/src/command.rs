//! Commands that are read: every body of up to two bytes, every length up to 66,000, and the other tests below. The
//! crate's reading is compared with the Rust. The standard reading, which the Rust does not have, is compared with a
//! table.

mod benchmark;
mod operations;
mod rust_reading;
mod standard_reading;

use gorvisclen::{COMMAND_NUMBERS, CRATE_READING, OWNED_NUMBERS, STANDARD_READING};

pub use self::benchmark::bench;
pub(crate) use self::operations::rooms;
use self::operations::{data, data_len, own, parse, Room, ROOMS, SHORT_ROOMS};
use self::rust_reading::encoded;
pub use self::rust_reading::{owned_numbers, parse_by_rust};
use self::standard_reading::CASES;
use crate::call::Call;
use crate::hex::Hex;
use crate::loops::{pairs, triples, up_to_two_bytes};
use crate::random::Random;
use crate::tally::Tally;

/// A command of each of the seven cases; one that only the standard reading refuses; commands that are refused.
const SAMPLES: [&[u8]; 13] = [
    &[0x00, 0xA4, 0x04, 0x00],
    &[0x00, 0xB0, 0x01, 0x02, 0x00],
    &[0x80, 0xDB, 0x3F, 0xFF, 0x02, 0xAA, 0xBB],
    &[0x10, 0xCB, 0x3F, 0xFF, 0x01, 0xAA, 0x00],
    &[0x0C, 0xB0, 0x00, 0x00, 0x00, 0x00, 0x00],
    &[0x01, 0xDA, 0x00, 0x5E, 0x00, 0x00, 0x02, 0xAA, 0xBB],
    &[0x40, 0xCA, 0x00, 0x6E, 0x00, 0x00, 0x01, 0xAA, 0x01, 0x02],
    &[0x00, 0xCA, 0x00, 0x6E, 0x00, 0x00, 0x00, 0x01, 0x02],
    &[0x00, 0xA4, 0x04],
    &[0xFF, 0xA4, 0x04, 0x00],
    &[0x00, 0xA4, 0x04, 0x00, 0x02, 0xAA],
    &[0x00, 0xA4, 0x04, 0x00, 0x00, 0x05],
    &[0x00, 0xA4, 0x04, 0x00, 0x00, 0x00, 0x01, 0xAA, 0xBB],
];

/// The shortest room of at least `n` bytes, and the room before it.
fn rooms_around(n: usize) -> [&'static Room; 2] {
    let at = ROOMS.iter().position(|room| room.len >= n).unwrap();
    [&ROOMS[at], &ROOMS[at.saturating_sub(1)]]
}

/// A command parsed, its data, and its owned copy, with buffers and rooms around the lengths that each needs.
fn every_reading(tally: &mut Tally, random: &mut Random, apdu: &[u8]) {
    for reading in [CRATE_READING, 1 + random.below(255) as u8] {
        let input = (reading, Hex(apdu));
        parse(input).compare_numbers(tally, COMMAND_NUMBERS + random.below(3));
        parse(input).compare_numbers(tally, random.below(COMMAND_NUMBERS));
        let n = data_len(input);
        data(input).compare(tally, n, random.below(3));
        data(input).compare(tally, n.saturating_sub(1), 1);
        data(input).compare(tally, n + random.below(20), 1);
        for room in rooms_around(n) {
            own(input).compare(tally, room.len, OWNED_NUMBERS + random.below(3));
        }
        let any = &ROOMS[random.below(SHORT_ROOMS)];
        own(input).compare(tally, any.len, random.below(OWNED_NUMBERS + 3));
    }
    let input = (STANDARD_READING, Hex(apdu));
    let n = data_len(input);
    for room_len in [n, n.saturating_sub(1), n + random.below(20)] {
        own(input).compare(tally, room_len, OWNED_NUMBERS);
    }
}

/// Every operation once or more.
fn every_operation(tally: &mut Tally, random: &mut Random, apdu: &[u8]) {
    every_reading(tally, random, apdu);
    every_extension(tally, random, apdu);
}

/// Extensions by data that just fit and that just do not, by no data, in a full room, and with held lengths past the
/// room.
fn every_extension(tally: &mut Tally, random: &mut Random, apdu: &[u8]) {
    let n = parse_by_rust(apdu).map_or(0, |parsed| parsed.data.len());
    let room = rooms_around(n)[0];
    let fits = room.len - n;
    for len in [fits, fits + 1, 0, room.len, random.below(room.len + 1)] {
        if len <= room.len {
            let out_len = match random.below(4) {
                0 => random.below(OWNED_NUMBERS),
                more => OWNED_NUMBERS + more - 1,
            };
            room.extend(tally, len, (apdu, out_len));
        }
    }
    let some = random.below(room.len + 1);
    let past = [room.len + 1, room.len + 65_536, some + (1 << 32), usize::MAX, (usize::MAX - n).wrapping_add(1 + some)];
    for len in past {
        if len > room.len {
            let out_len = OWNED_NUMBERS - usize::from(random.below(8) == 0);
            room.extend(tally, len, (apdu, out_len));
        }
    }
}

/// A command with a random header, `n` random bytes of data, and fields Lc and Le that fit. Le is sometimes zero.
fn random_command(random: &mut Random, n: usize) -> Vec<u8> {
    let fits = |lc| match lc {
        0 => n == 0,
        1 => (1..256).contains(&n),
        _ => true,
    };
    let cases: Vec<_> = CASES.into_iter().filter(|case| fits(case.1)).collect();
    let (_, lc, le) = random.one_of(&cases);
    let mut le = random.bytes(le);
    if random.below(4) == 0 {
        le.fill(0);
    }
    if let [first, _, _] = &mut le[..] {
        *first = 0;
    }
    encoded(&random.bytes(4), lc, &random.bytes(n), &le)
}

/// Every body of up to two bytes after several headers: whole headers and parts of a header.
fn every_short_body(tally: &mut Tally, random: &mut Random) {
    let whole =
        [[0x00, 0xA4, 0x04, 0x00], [0x90, 0x61, 0xFF, 0x01], [0xFF, 0xA4, 0x04, 0x00], [0xFE, 0xFF, 0xFF, 0xFF]];
    let parts: [&[u8]; 6] = [&[], &[0x00], &[0xFF], &[0x00, 0xA4], &[0x00, 0xA4, 0x04], &[0xFF, 0xFF, 0xFF]];
    let headers = whole.iter().map(|header| &header[..]).chain(parts);
    for (header, body) in pairs(headers, up_to_two_bytes()) {
        let apdu = &[header, &body].concat();
        for reading in [CRATE_READING, STANDARD_READING] {
            let input = (reading, Hex(apdu));
            parse(input).compare_numbers(tally, COMMAND_NUMBERS);
            data(input).compare(tally, random.below(3), 1);
            own(input).compare(tally, ROOMS[random.below(3)].len, OWNED_NUMBERS);
        }
        let room = &ROOMS[random.below(3)];
        room.extend(tally, room.len / 2, (apdu, OWNED_NUMBERS));
    }
}

/// Every class with every instruction.
fn every_header(tally: &mut Tally, random: &mut Random) {
    for number in 0..=u16::MAX {
        let apdu = SAMPLES[random.below(SAMPLES.len())];
        let apdu = &[&number.to_be_bytes(), &apdu[2..]].concat();
        for reading in [CRATE_READING, STANDARD_READING] {
            let input = (reading, Hex(apdu));
            parse(input).compare_numbers(tally, COMMAND_NUMBERS);
            own(input).compare(tally, ROOMS[4].len, OWNED_NUMBERS);
        }
    }
}

/// Every expected length of two bytes: without data, after an extended Lc of zero, and after one byte of data.
fn every_expected_length(tally: &mut Tally) {
    for (le, front) in pairs(0..=u16::MAX, [&[0][..], &[0, 0, 0], &[0, 0, 1, 0xAA]]) {
        let apdu = &[&[0x00, 0xC0, 0x00, 0x00], front, &le.to_be_bytes()].concat();
        for reading in [CRATE_READING, STANDARD_READING] {
            parse((reading, Hex(apdu))).compare_numbers(tally, COMMAND_NUMBERS);
        }
    }
}

/// Fields Lc, short and extended, for a body of `l` bytes: those that fit it, with and without Le, and those next to
/// them. A number that does not fit into the field is cut.
fn fields_lc(l: usize) -> impl Iterator<Item = Vec<u8>> {
    let short = (0..=3).map(move |less| vec![l.wrapping_sub(less) as u8]);
    let extended = (2..=6).map(move |less| [&[0][..], &(l.wrapping_sub(less) as u16).to_be_bytes()].concat());
    short.chain(extended)
}

/// Parses bodies of every length up to 66,000. The commands are parts of one longer string.
fn every_length(tally: &mut Tally, random: &mut Random) {
    let mut string = random.bytes(66_100);
    string[0] = 0x00;
    for l in 0..=66_000 {
        for field in fields_lc(l) {
            string[4..4 + field.len()].copy_from_slice(&field);
            let apdu = &string[..4 + l];
            for reading in [CRATE_READING, STANDARD_READING] {
                parse((reading, Hex(apdu))).compare_output_only(tally, COMMAND_NUMBERS);
            }
        }
    }
}

/// Every operation on commands whose lengths are around each boundary, with an Le around each boundary.
pub fn every_boundary(tally: &mut Tally, random: &mut Random) {
    let lengths = (0..=8).chain(246..=262).chain(65_526..=65_545);
    for l in lengths {
        let mut apdu = random.bytes(4 + l);
        for (field, le) in pairs(fields_lc(l), [0, 1, 255, 256, 65_535_u16]) {
            if l >= 2 {
                apdu[2 + l..].copy_from_slice(&le.to_be_bytes());
            }
            // If the body is too short for both, Lc overwrites Le.
            let len = field.len().min(l);
            apdu[4..4 + len].copy_from_slice(&field[..len]);
            apdu[0] = if random.below(16) == 0 { 0xFF } else { 0x80 };
            every_operation(tally, random, &apdu);
        }
    }
}

/// Each sample in each reading, with buffers of every length up to more than it needs.
fn every_buffer(tally: &mut Tally) {
    for (apdu, reading, len) in triples(SAMPLES, 0..=255, 0..=COMMAND_NUMBERS + 2) {
        let input = (reading, Hex(apdu));
        parse(input).compare_numbers(tally, len);
        for room in &ROOMS[..5] {
            data(input).compare(tally, room.len, len);
            own(input).compare(tally, room.len, len);
        }
    }
    for (apdu, out_len, room) in triples(SAMPLES, 0..=OWNED_NUMBERS + 2, &ROOMS[..6]) {
        for len in 0..=room.len + 4 {
            room.extend(tally, len, (apdu, out_len));
        }
    }
}

/// Commands whose data are around the length of a room, in every room, whole and damaged.
fn every_room(tally: &mut Tally, random: &mut Random) {
    let lengths = ROOMS.iter().flat_map(|room| room.len.saturating_sub(1)..=(room.len + 1).min(65_535));
    for (n, _) in pairs(lengths, 0..6) {
        let apdu = random_command(random, n);
        let damaged = random.damaged(&apdu);
        for room in &ROOMS {
            own((CRATE_READING, Hex(&apdu))).compare(tally, room.len, OWNED_NUMBERS);
            own((STANDARD_READING, Hex(&apdu))).compare(tally, room.len, random.below(9));
            own((CRATE_READING, Hex(&damaged))).compare(tally, room.len, OWNED_NUMBERS);
        }
    }
}

/// A series of extensions, up to the end of the room and past it. Some are by commands that are refused.
fn extensions(tally: &mut Tally, random: &mut Random, room: &Room) {
    let start = if random.below(3) == 0 { random.below(room.len + 1) } else { 0 };
    let mut free = room.len - start;
    let mut apdus = Vec::new();
    for _ in 0..12 {
        let n = match random.below(8) {
            0 => 0,
            1 => free,
            2 => free + 1,
            3 => free.saturating_sub(1),
            _ => random.below(free / 3 + 2),
        };
        let n = n.min(65_535);
        let apdu = random_command(random, n);
        if random.below(6) == 0 {
            apdus.push(random.damaged(&apdu));
        }
        apdus.push(apdu);
        free -= if n <= free { n } else { 0 };
    }
    let mut out_len = || OWNED_NUMBERS - usize::from(random.below(16) == 0);
    let extensions: Vec<_> = apdus.iter().map(|apdu| (&apdu[..], out_len())).collect();
    (room.extended)(tally, start, &extensions);
}

/// Series of extensions in every room.
fn every_extension_series(tally: &mut Tally, random: &mut Random) {
    for room in &ROOMS {
        for _ in 0..if room.len < 1_000 { 400 } else { 12 } {
            extensions(tally, random, room);
        }
    }
}

/// A random command, the same damaged, and random bytes.
fn random_commands(random: &mut Random) -> [Vec<u8>; 3] {
    let most = [2, 20, 300, 700][random.below(4)];
    let n = random.below(most);
    let apdu = random_command(random, n);
    let damaged = random.damaged(&apdu);
    let n = random.below(24);
    [apdu, damaged, random.bytes(n)]
}

/// Random commands, parsed and owned.
pub fn random_cases(tally: &mut Tally, random: &mut Random) {
    for apdu in random_commands(random) {
        every_reading(tally, random, &apdu);
    }
}

/// Extensions by random commands, and a series of them in a random room, mostly a short one.
pub fn random_extensions(tally: &mut Tally, random: &mut Random) {
    for apdu in random_commands(random) {
        every_extension(tally, random, &apdu);
    }
    let rooms = if random.below(100) == 0 { ROOMS.len() } else { SHORT_ROOMS };
    let room = &ROOMS[random.below(rooms)];
    extensions(tally, random, room);
}

/// The short run.
pub fn compare(tally: &mut Tally, random: &mut Random) {
    every_short_body(tally, random);
    every_header(tally, random);
    every_expected_length(tally);
    every_length(tally, random);
    every_boundary(tally, random);
    every_buffer(tally);
    every_room(tally, random);
    every_extension_series(tally, random);
    for _ in 0..20_000 {
        for apdu in random_commands(random) {
            every_operation(tally, random, &apdu);
        }
    }
}
