//! A model of joining, from document 01, "Reassembly" and "Numbers of refusal". The Rust reads the pieces.

use gorvisclen::{Reassembler, JOIN_NUMBERS, OWNED_NUMBERS};

use crate::answer::{Answer, Writes};
use crate::command::parse_by_rust;

/// The class bit of a piece that is not the last.
pub const CHAINING_BIT: u8 = 0x10;

/// The numbers that `join` writes if this command is held: the command, or the state of a chain that goes on.
pub fn join_numbers(held: [u64; OWNED_NUMBERS]) -> [u64; JOIN_NUMBERS] {
    let mut numbers = [0; JOIN_NUMBERS];
    if held[0] as u8 & CHAINING_BIT == 0 {
        numbers[0] = 1;
        numbers[1..8].copy_from_slice(&held);
    } else {
        numbers[8] = 1;
        numbers[9..].copy_from_slice(&held[..5]);
    }
    numbers
}

/// A header without the chaining bit.
fn without_bit([class, rest @ ..]: [u8; 4]) -> (u8, [u8; 3]) {
    (class & !CHAINING_BIT, rest)
}

/// Joins a piece in a room of this length.
pub fn join(state: Reassembler, piece: &[u8], room_len: usize) -> Answer<'_, JOIN_NUMBERS> {
    let open = state.open != 0;
    let parsed = parse_by_rust(piece);
    if open && state.header[0] == 0xFF && !matches!(parsed, Err(1)) {
        return Err(3);
    }
    let parsed = parsed?;
    let [class, instruction, p1, p2, _, _, expected, extended] = parsed.numbers;
    let header = [class as u8, instruction as u8, p1 as u8, p2 as u8];
    if open && without_bit(header) != without_bit(state.header) {
        return Err(17);
    }
    let from = if open { state.held } else { 0 };
    let len = from.checked_add(parsed.data.len()).filter(|&len| len <= room_len).ok_or(18)? as u64;
    let held = [class, instruction, p1, p2, len, expected, extended.max(open.into())];
    Ok(Writes::new(join_numbers(held), from, parsed.data))
}
