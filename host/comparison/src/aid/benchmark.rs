//! Times AIDs: a call makes an AID from its name, then uses it. Both sides make it in each call. Only in the line `made
//! before` the Rust uses an AID that it has; the library keeps none.

use original::aid::Aid;

use super::operations::{matches, part, part_len_number, rust_aid, rust_part, try_new_truncatable, AidInput, PIV};
use crate::benchmark::{ours, Size, Table, NO_LIMIT};
use crate::hex::Hex;

const OWN: &[u8] = &[0xF0; 16];

/// Names, in words and as bytes, with a truncated length.
const SAMPLES: [(&str, &[u8], usize); 7] = [
    ("international, 11 bytes", PIV, 9),
    ("national, 7 bytes", &[0xD2, 0x76, 0x00, 0x01, 0x24, 0x01, 0x02], 6),
    ("standard, 5 bytes", &[0xE8, 0x28, 0xBD, 0x08, 0x0F], 5),
    ("proprietary, 16 bytes", OWN, 16),
    ("other, 1 byte", &[0x3F], 0),
    ("refused 7, 17 bytes", &[0xF0; 17], 5),
    ("refused 10, 4 bytes", &[0xA0, 0x00, 0x00, 0x03], 4),
];

/// Copies a part of the Rust's AID.
#[inline(never)]
fn copy((input, part): &(AidInput, u8), to: &mut [u8], out: &mut [u64]) -> u8 {
    let aid = match rust_aid(input) {
        Ok(aid) => aid,
        Err(number) => return number,
    };
    let part = rust_part(&aid, *part);
    let bytes = part.unwrap_or(&[]);
    to[..bytes.len()].copy_from_slice(bytes);
    out[0] = part_len_number(part);
    0
}

#[inline(never)]
fn rust_matches((aid, selected): &(Aid, &[u8]), _: &mut [u8], out: &mut [u64]) -> u8 {
    out[0] = aid.matches(selected).into();
    0
}

pub fn bench(table: &mut Table) {
    let size = Size::default();
    for (words, name, truncated_len) in SAMPLES {
        table.calls(&format!("aid {words}"), NO_LIMIT, &[try_new_truncatable((Hex(name), truncated_len))], size);
    }
    let input = (Hex(PIV), 9);
    for (words, selected) in [("all of it", PIV), ("its truncated part", &PIV[..9]), ("another", OWN)] {
        table.calls(&format!("aid matches, {words}"), NO_LIMIT, &[matches(input, selected)], size);
    }
    let size = Size { to: 16, out: 1, bytes: 0 };
    let before = (rust_aid(&input).unwrap(), PIV);
    let name = "aid matches, all of it, made before";
    table.sides((name, NO_LIMIT), size, (&[before], &[matches(input, PIV)]), rust_matches, ours);
    for (number, words) in [(2, "RID"), (3, "PIX")] {
        let name = format!("aid {words}, copied");
        table.sides((&name, NO_LIMIT), size, (&[(input, number)], &[part(input, number)]), copy, ours);
    }
}
