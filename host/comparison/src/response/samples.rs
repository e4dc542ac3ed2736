//! Random responses, numbers of held bytes for them, and lengths of `out`.

use super::model::WORDS;
use crate::random::Random;

/// Status words at the edges of the classes, and words that look like others.
pub const EDGES: [u16; 36] = [
    0x0000, 0x0061, 0x006C, 0x5FFF, 0x6000, 0x60FF, 0x6100, 0x6101, 0x61FF, 0x6200, 0x6282, 0x63C0, 0x63FF, 0x6400,
    0x65FF, 0x66FF, 0x6700, 0x6A85, 0x6A87, 0x6BFF, 0x6C00, 0x6C01, 0x6CFF, 0x6D61, 0x6D6C, 0x6F00, 0x6FFF, 0x7000,
    0x8FFF, 0x9000, 0x9001, 0x9061, 0x906C, 0x90FF, 0x9100, 0xFFFF,
];

/// Numbers of data bytes around a boundary.
const LENGTHS: [usize; 10] = [0, 1, 2, 3, 4, 254, 255, 256, 257, 300];

/// Numbers of data bytes that few responses have.
const LONG_LENGTHS: [usize; 6] = [4_000, 65_533, 65_534, 65_535, 65_536, 65_537];

/// Held bytes and data that come, whose sum would be small or zero if it were cut to two bytes.
pub const LONG: [(usize, usize); 11] = [
    (0, 65_535),
    (0, 65_536),
    (0, 65_537),
    (1, 65_534),
    (1, 65_535),
    (65_534, 1),
    (65_535, 1),
    (65_535, 2),
    (65_536, 0),
    (65_536, 1),
    (3, 131_072),
];

/// The two bytes of a random status: often 61xx or 6Cxx.
pub fn random_status(random: &mut Random) -> [u8; 2] {
    match random.below(6) {
        0 => [0x61, random.byte()],
        1 => [0x6C, random.byte()],
        2 => WORDS[random.below(WORDS.len())].0.to_be_bytes(),
        3 => [random.byte(), random.byte()],
        _ => random.one_of(&EDGES).to_be_bytes(),
    }
}

/// A random response, sometimes a damaged one or one of under two bytes.
pub fn random_response(random: &mut Random) -> Vec<u8> {
    let n = match random.below(400) {
        0 => random.one_of(&LONG_LENGTHS),
        1..200 => random.one_of(&LENGTHS),
        _ => random.below(40),
    };
    let response = [random.bytes(n), random_status(random).to_vec()].concat();
    match random.below(10) {
        0 => random.damaged(&response),
        1 => random.one_byte_off(&response),
        2 => response[..random.below(2)].to_vec(),
        _ => response,
    }
}

/// A random number of held bytes, and the length of a room, for `n` bytes that come: the room is too short by one,
/// exact, or longer; or the held bytes are past the room, would not be if they were cut to fewer bytes, or are so many
/// that the sum overflows.
pub fn random_held(random: &mut Random, n: usize) -> (usize, usize) {
    let (held, room_len) = (random.below(300), random.below(300));
    let sum = held + n;
    match random.below(11) {
        0 | 1 => (held, sum),
        2 | 3 => (held, sum.saturating_sub(1)),
        4 => (held, sum + 1),
        5 => (held, sum + room_len),
        6 => (room_len + 1 + random.below(2), room_len),
        7 => (usize::MAX - random.below(3), room_len),
        8 => (0_usize.wrapping_sub(n).wrapping_add(random.below(3)), sum),
        9 => (held | 1 << (16 + random.below(48)), sum),
        _ => (random.number() as usize, room_len),
    }
}

/// The length of `out` for a call that writes `n` numbers: mostly long enough.
pub fn random_out_len(random: &mut Random, n: usize) -> usize {
    match random.below(10) {
        0 => random.below(n),
        1 => n - 1,
        more => n + more % 3,
    }
}
