//! Times cutting. One step: the Rust returns two builders; the library returns the numbers in which they differ from
//! the first builder. A whole chain: a call writes all pieces to the front of one buffer, each over the one before it,
//! and returns how many pieces and how many bytes they are. The Rust returns each piece as a builder, which then writes
//! it. The library is called once to make the chain, and once for each piece.

use gorvisclen::{Pieces, Reply, BUFFER_LEN, EXTENDED_SUPPORTED, PIECE_NUMBERS};

use super::chains;
use super::steps::should_split;
use crate::answer::reply_number;
use crate::benchmark::{checked, Size, Table, HEADER, NO_LIMIT};
use crate::builder::{Builder, BuilderInput};
use crate::call::Call;
use crate::loops::triples;

/// The limit of the ratio to the Rust's time.
const LIMIT: f64 = 1.10;

/// How many data bytes are cut, as a number and in words: about a hundredth of the most, a tenth of it, and the most.
const LENGTHS: [(usize, &str); 3] = [(655, "655 bytes"), (6_553, "6,553 bytes"), (65_535, "65,535 bytes")];

/// The Rust's two builders, if any.
#[inline(never)]
fn split<'a>(input: &BuilderInput<'a>) -> Option<Option<(Builder<'a>, Builder<'a>)>> {
    Some(input.rust_builder().ok()?.should_split(BUFFER_LEN))
}

fn one_step(table: &mut Table, name: &str, data: &[u8]) {
    let input = BuilderInput::new(HEADER, 256, EXTENDED_SUPPORTED, data);
    let size = checked(name, &[should_split(input, BUFFER_LEN)], Size::default());
    table.returning(
        (name, NO_LIMIT),
        size,
        &[(input, should_split(input, BUFFER_LEN))],
        |(input, _)| split(input),
        |(_, step), to, out| reply_number(step.ours(to, out)),
    );
}

#[inline(never)]
fn rust(input: &chains::ChainInput, buffer: &mut [u8], out: &mut [u64]) -> u8 {
    let Ok(chain) = input.rust_chain() else {
        return 3;
    };
    out.fill(0);
    for piece in chain {
        let mut rest = &mut buffer[..];
        if piece.serialize_into(&mut rest).is_err() {
            return 16;
        }
        let left = rest.len();
        out[0] += 1;
        out[1] += (buffer.len() - left) as u64;
    }
    0
}

#[inline(never)]
fn ours(input: &chains::ChainInput, buffer: &mut [u8], out: &mut [u64]) -> Reply {
    let Pieces { header, le, available, .. } = input.pieces;
    let mut pieces = Pieces::new_non_extended(header, &input.data, le, available)?;
    out.fill(0);
    while !pieces.done {
        let mut numbers = [0; PIECE_NUMBERS];
        pieces.write_next(&input.data, buffer, 0, &mut numbers)?;
        out[0] += 1;
        out[1] += numbers[1];
        pieces = pieces.after(numbers);
    }
    Ok(())
}

pub fn bench(table: &mut Table) {
    let data = [0xAA; 65_535];
    for (n, words) in [(254, "fits"), (655, "655 bytes")] {
        one_step(table, &format!("one step for {BUFFER_LEN}, {words}"), &data[..n]);
    }
    for (available, (n, words), (le, with)) in triples([BUFFER_LEN, 10], LENGTHS, [(0, ""), (256, ", Le")]) {
        let input = chains::ChainInput::new(HEADER, &data[..n], le, available);
        table.sides(
            (&format!("cut for {available}, {words}{with}"), LIMIT),
            Size { to: available, out: 2, bytes: 40 * n },
            (&[input], &[input]),
            rust,
            |input, to, out| reply_number(ours(input, to, out)),
        );
    }
}
