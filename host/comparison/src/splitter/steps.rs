//! The calls of a single step of splitting, in every mode.

use gorvisclen::{SHORT_ONLY, SPLIT_NUMBERS};
use original_private::command::fields;

use crate::builder::{bytes_of, expected_number, BuilderInput};
use crate::call::{call, Call};
use crate::lent::{bytes, numbers, Outcome};
use crate::panics::unless_it_panics;
use crate::recording::Operation;
use crate::tally::Tally;

const LABELS: [&str; 3] = [
    "CommandBuilder::should_split, short only",
    "CommandBuilder::should_split, extended supported",
    "CommandBuilder::should_split, extended forced",
];
const TOO_LONG_LABEL: &str = "CommandBuilder::should_split, data above 65,535 bytes (the Rust panics: 13)";
const PARTS_LABEL: &str =
    "CommandBuilder::should_split, then both parts written by our numbers (as the Rust writes them)";

/// The numbers of a step of the Rust; 14 if it panics. `original_private` gives the fields of its parts.
fn split_by_rust(input: &BuilderInput, available: usize) -> Result<[u64; SPLIT_NUMBERS], u8> {
    let builder = input.rust_builder()?;
    let parts = unless_it_panics(|| builder.should_split(available)).ok_or(14)?;
    let Some((now, later)) = parts else {
        return Ok([0; SPLIT_NUMBERS]);
    };
    // What the numbers do not say: each part has a part of these data, and the other fields of the command.
    let ([_, rest @ ..], _, mode) = fields(&builder);
    let (now_data, later_data) = input.data.split_at(now.data().len());
    let [[class, le], [kept, kept_le]] = [(now, now_data), (later, later_data)].map(|(part, data)| {
        let ([class, others @ ..], le, part_mode) = fields(&part);
        let same = part.data().as_ptr_range() == data.as_ptr_range() && (others, part_mode) == (rest, mode);
        assert!(same, "the Rust's parts differ in other fields: {input:?}");
        [class.into(), expected_number(le)]
    });
    Ok([1, now_data.len() as u64, class, le, kept, kept_le])
}

/// A command that is split once, for a buffer of `available` bytes.
pub fn should_split(input: BuilderInput<'_>, available: usize) -> impl Call<SPLIT_NUMBERS> + '_ {
    let label = match input.data.len() {
        0..=65_535 => LABELS[usize::from(input.mode).min(2)],
        _ => TOO_LONG_LABEL,
    };
    call(
        (label, &[]),
        (input, available),
        |&(BuilderInput { header, le, mode, data }, available), _, out| {
            gorvisclen::should_split(header, le, mode, data, available, out)
        },
        |(input, available), _| Ok(split_by_rust(input, *available)?.into()),
    )
    .recorded_as(Operation::ShouldSplit)
}

/// Both parts, written by the library from the numbers of its step.
fn written_parts(input: BuilderInput, available: usize) -> [Vec<u8>; 2] {
    let BuilderInput { header: [_, instruction, p1, p2], mode, data, .. } = input;
    let mut numbers = [0; SPLIT_NUMBERS];
    // After a refusal the numbers are zeros, and the comparison fails.
    let _ = should_split(input, available).ours(&mut [], &mut numbers);
    let [_, n, class, le, kept, kept_le] = numbers;
    let (now, later) = data.split_at((n as usize).min(data.len()));
    [(class, le, now), (kept, kept_le, later)].map(|(class, le, data)| {
        let header = [class as u8, instruction, p1, p2];
        let (mut bytes, mut written) = (vec![0; data.len() + 16], [0]);
        let _ = gorvisclen::serialize_into(header, le as u32, mode, data, &mut bytes, 0, &mut written);
        bytes.truncate(written[0] as usize);
        bytes
    })
}

/// Writes both parts of a split with the library, from the numbers of its step, and compares their bytes with the
/// Rust's. Not in short mode, in which a host cannot make such builders. Nor with class 0xEF: the first part has class
/// 0xFF, which cannot be built. The chains compare its bytes.
pub fn compare_parts(tally: &mut Tally, input: BuilderInput, available: usize) {
    if input.header[0] == 0xEF || input.mode == SHORT_ONLY {
        return;
    }
    let Some((now, later)) = input.rust_builder().ok().and_then(|builder| builder.should_split(available)) else {
        return;
    };
    let [reference, ours] = [[&now, &later].map(bytes_of), written_parts(input, available)].map(|[now, later]| {
        let input = [&now[..], &[0xEE; 4], &later].concat();
        Outcome::new(Ok(()), numbers(0), bytes(0)).with_input(input)
    });
    tally.compare((PARTS_LABEL, &[]), || format!("{input:?}, buffer of {available} bytes"), &reference, &ours);
}
