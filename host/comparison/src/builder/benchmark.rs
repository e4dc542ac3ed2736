//! Times builders: writing a command to the front of a buffer, its length, and whether it equals a command that is
//! parsed. Both sides make the builder in each call. Only for writing the Rust's builder is made before the calls; a
//! call of the library makes it too.

use gorvisclen::{EXTENDED_FORCED, EXTENDED_SUPPORTED};
use original_private::command::CommandView;

use super::input::{Builder, BuilderInput};
use super::operations::{equals, force_extended, required_len, serialize_into};
use crate::benchmark::{ours, Size, Table, HEADER, NO_LIMIT};
use crate::loops::{pairs, triples};

/// The limit of the ratio to the Rust's time. Above 256 data bytes most of the time goes into copying them: the
/// compiler does not turn the kit's copy into a `memcpy`, because it does not know that two references do not overlap.
fn limit(data_len: usize) -> f64 {
    match data_len {
        0..=256 => 1.10,
        _ => 2.00,
    }
}

/// Lengths of data, as numbers and in words.
const DATA_LENGTHS: [(usize, &str); 7] = [
    (0, "no data"),
    (5, "5 bytes"),
    (16, "16 bytes"),
    (255, "255 bytes"),
    (256, "256 bytes"),
    (4_096, "4,096 bytes"),
    (65_535, "65,535 bytes"),
];

const MODES: [(u8, &str); 2] = [(EXTENDED_SUPPORTED, "supported"), (EXTENDED_FORCED, "forced")];

/// The most bytes that a command takes.
const LONGEST: usize = 4 + 3 + 65_535 + 2;

/// Writes the command of a builder, which is made before the calls.
#[inline(never)]
pub fn write_built(builder: &Builder, buffer: &mut [u8], out: &mut [u64]) -> u8 {
    let len = buffer.len();
    let mut rest = buffer;
    if builder.serialize_into(&mut rest).is_err() {
        return 16;
    }
    out[0] = (len - rest.len()) as u64;
    0
}

fn writing(table: &mut Table) {
    for ((mode, of_mode), (n, words), (le, with)) in triples(MODES, DATA_LENGTHS, [(0, ""), (256, ", Le")]) {
        let data = vec![0xAA; n];
        let input = BuilderInput::new(HEADER, le, mode, &data);
        table.sides(
            (&format!("write {of_mode}, {words}{with}"), limit(n)),
            Size { to: LONGEST, out: 1, bytes: n },
            (&[input.rust_builder().unwrap()], &[serialize_into(input, 0)]),
            write_built,
            ours,
        );
    }
}

/// Makes the Rust's builder, and writes a number that it gives.
#[inline(always)]
fn with_built(input: &BuilderInput, out: &mut [u64], number: impl Fn(Builder) -> Option<u64>) -> u8 {
    let Ok(builder) = input.rust_builder() else {
        return 3;
    };
    let Some(number) = number(builder) else {
        return 5;
    };
    out[0] = number;
    0
}

#[inline(never)]
fn len(input: &BuilderInput, _: &mut [u8], out: &mut [u64]) -> u8 {
    with_built(input, out, |builder| Some(builder.required_len() as u64))
}

#[inline(never)]
fn forced_len(input: &BuilderInput, _: &mut [u8], out: &mut [u64]) -> u8 {
    with_built(input, out, |builder| Some(builder.force_extended().required_len() as u64))
}

#[inline(never)]
fn equal((input, apdu): &(BuilderInput, &[u8]), _: &mut [u8], out: &mut [u64]) -> u8 {
    with_built(input, out, |builder: Builder| CommandView::try_from(*apdu).ok().map(|view| (builder == view).into()))
}

const SIZE: Size = Size { to: 0, out: 1, bytes: 0 };

fn equality(table: &mut Table, words: &str, data: &[u8], other: &[u8]) {
    let [input, other] = [data, other].map(|data| BuilderInput::new(HEADER, 256, EXTENDED_SUPPORTED, data));
    let apdu = &other.bytes()[..];
    let both = (&[(input, apdu)][..], &[equals(input, apdu)][..]);
    table.sides((&format!("equal, {words}"), NO_LIMIT), SIZE, both, equal, ours);
}

pub fn bench(table: &mut Table) {
    writing(table);
    let data = [0xAA; 4_096];
    for ((mode, of_mode), (n, words)) in pairs(MODES, [(0, "no data"), (16, "16 bytes"), (256, "256 bytes")]) {
        let name = format!("length {of_mode}, {words}, Le");
        let input = BuilderInput::new(HEADER, 256, mode, &data[..n]);
        table.sides((&name, NO_LIMIT), SIZE, (&[input], &[required_len(input)]), len, ours);
    }
    let name = "length once forced, 16 bytes, Le";
    let input = BuilderInput::new(HEADER, 256, EXTENDED_SUPPORTED, &data[..16]);
    table.sides((name, NO_LIMIT), SIZE, (&[input], &[force_extended(input)]), forced_len, ours);
    for (n, words) in [(16, "16 bytes"), (255, "255 bytes"), (4_096, "4,096 bytes")] {
        equality(table, words, &data[..n], &data[..n]);
    }
    let mut other = data;
    other[254] = 0;
    equality(table, "255 bytes, the last is not", &other[..255], &data[..255]);
}
