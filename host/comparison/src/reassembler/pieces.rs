//! Random pieces to join.

use super::model::CHAINING_BIT;
use crate::random::Random;

/// Headers of last pieces. Their classes can be chained.
pub const HEADERS: [[u8; 4]; 5] = [
    [0x00, 0xA4, 0x04, 0x00],
    [0x80, 0xDB, 0x3F, 0xFF],
    [0x0C, 0x61, 0x00, 0x01],
    [0xEE, 0x00, 0xFF, 0x00],
    [0x6F, 0x9F, 0x01, 0x02],
];

/// A random header for a chain: its class is neither 0xFF nor 0xEF.
pub fn random_header(random: &mut Random) -> [u8; 4] {
    let any = random.below(2) == 1;
    let header = if any { (random.number() as u32).to_be_bytes() } else { random.one_of(&HEADERS) };
    match header[0] | CHAINING_BIT {
        0xFF => HEADERS[0],
        _ => header,
    }
}

/// A random number around `n`, or below it; at most 65,535.
pub fn number_around(random: &mut Random, n: usize) -> usize {
    let number = match random.below(8) {
        0 => n,
        1 => n + 1,
        2 => n.saturating_sub(1),
        3 => 0,
        4 => random.below(n + 2),
        _ => random.below(n.min(300) + 2),
    };
    number.min(65_535)
}

/// A piece with this header and `n` random data bytes, in one of the cases that fit.
pub fn piece_with_data(random: &mut Random, header: [u8; 4], n: usize) -> Vec<u8> {
    let extended = n > 255 || random.below(4) == 0;
    let le = random.below(2) == 0;
    let lc: &[u8] = match (n, extended) {
        // An extended Lc of zero, or none.
        (0, true) if le && random.below(2) == 0 => &[0, 0, 0],
        (0, true) if le => &[0],
        (0, _) => &[],
        (_, true) => &[0, (n >> 8) as u8, n as u8],
        (_, false) => &[n as u8],
    };
    let data = random.bytes(n);
    let le = match (le, 1 + usize::from(extended)) {
        (false, _) => Vec::new(),
        (true, len) if random.below(3) == 0 => vec![0; len],
        (true, len) => random.bytes(len),
    };
    [&header[..], lc, &data, &le].concat()
}

/// A random piece for a chain with this header, if `free` bytes of the room are free: mostly one that fits the chain.
pub fn random_piece(random: &mut Random, header: [u8; 4], free: usize) -> Vec<u8> {
    let [class, instruction, p1, p2] = header;
    let not_last = [class | CHAINING_BIT, instruction, p1, p2];
    let last = [class & !CHAINING_BIT, instruction, p1, p2];
    let n = number_around(random, free.min(1_000));
    match random.below(16) {
        0..=6 => piece_with_data(random, not_last, n),
        7..=9 => piece_with_data(random, last, n),
        10 => {
            let mut other = header;
            other[random.below(4)] ^= 1 << random.below(8);
            piece_with_data(random, other, n)
        }
        11 => {
            let piece = piece_with_data(random, not_last, n);
            random.damaged(&piece)
        }
        12 => piece_with_data(random, [0xFF, instruction, p1, p2], n),
        13 => last[..random.below(4)].to_vec(),
        14 => {
            let n = number_around(random, free);
            piece_with_data(random, not_last, n)
        }
        _ => {
            let n = random.below(12);
            random.bytes(n)
        }
    }
}
