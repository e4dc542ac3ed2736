//! Values for the fields of commands to build: those around a boundary, and random ones.

use gorvisclen::{EXTENDED_FORCED, EXTENDED_SUPPORTED, SHORT_ONLY};

use crate::random::Random;

pub const MODES: [u8; 3] = [SHORT_ONLY, EXTENDED_SUPPORTED, EXTENDED_FORCED];

/// Expected lengths around each boundary. Several numbers mean Max; some of them would be small if they were cut to
/// fewer bytes.
pub const EXPECTED_LENGTHS: [u32; 20] = [
    0, 1, 2, 254, 255, 256, 257, 258, 511, 512, 65_280, 65_534, 65_535, 65_536, 65_537, 65_791, 65_792, 131_071,
    0x100_0000, 0xFFFFFFFF,
];

/// Lengths of data around each boundary.
pub const DATA_LENGTHS: [usize; 13] = [0, 1, 2, 5, 254, 255, 256, 257, 511, 512, 65_280, 65_534, 65_535];

/// Lengths of data that are too long. Cut to two bytes, each would be short enough.
pub const TOO_LONG_LENGTHS: [usize; 6] = [65_536, 65_537, 65_541, 65_791, 65_792, 131_072];

/// Headers. The class of the last one is refused.
pub const HEADERS: [[u8; 4]; 6] = [
    [0x00, 0xA4, 0x04, 0x00],
    [0x80, 0xDB, 0x3F, 0xFF],
    [0x10, 0x00, 0xFF, 0x01],
    [0xEF, 0xFF, 0x00, 0x00],
    [0xFE, 0x61, 0x01, 0x02],
    [0xFF, 0xA4, 0x04, 0x00],
];

/// Commands that are refused with 1, 3, 4 and 5.
pub const REFUSED_COMMANDS: [&[u8]; 9] = [
    &[],
    &[0x00, 0xA4, 0x04],
    &[0xFF, 0xFF, 0xFF],
    &[0xFF, 0xA4, 0x04, 0x00],
    &[0xFF, 0xA4, 0x04, 0x00, 0x00, 0x05],
    &[0x00, 0xA4, 0x04, 0x00, 0x02, 0xAA],
    &[0x00, 0xA4, 0x04, 0x00, 0x01, 0xAA, 0xBB, 0xCC],
    &[0x00, 0xA4, 0x04, 0x00, 0x00, 0x05],
    &[0x00, 0xA4, 0x04, 0x00, 0x00, 0x00, 0x01, 0xAA, 0xBB],
];

pub fn random_header(random: &mut Random) -> [u8; 4] {
    let any = (random.number() as u32).to_be_bytes();
    match random.below(3) {
        0 => random.one_of(&HEADERS),
        _ => any,
    }
}

pub fn random_mode(random: &mut Random) -> u8 {
    match random.below(4) {
        3 => random.byte(),
        mode => mode as u8,
    }
}

/// A random expected length: any, a small one, or more often one of a list.
pub fn random_expected_len(random: &mut Random, list: &[u32]) -> u32 {
    match random.below(4) {
        0 => random.below(70_000) as u32,
        1 => random.below(600) as u32,
        _ => random.one_of(list),
    }
}
