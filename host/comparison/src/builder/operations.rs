//! The calls of the operations on a builder.

use gorvisclen::{COMMAND_NUMBERS, CRATE_READING, EXTENDED_FORCED, SHORT_ONLY, STANDARD_READING};
use original_private::command::CommandView;

use super::input::BuilderInput;
use crate::answer::{Answer, Writes};
use crate::call::{call, Call};
use crate::command::parse_by_rust;
use crate::hex::Hex;
use crate::panics::unless_it_panics;
use crate::recording::Operation;
use crate::tally::Tally;

/// The labels of an operation: if the Rust builds too, if only its private code does, and if it panics.
macro_rules! labels {
    ($operation:literal) => {
        [
            $operation,
            concat!($operation, ", short only with over 255 bytes or Max (checked against a model of document 01)"),
            concat!($operation, ", data above 65,535 bytes (the Rust panics)"),
        ]
    };
}

const PAST: &str =
    "CommandBuilder::serialize_into, a place past the buffer's end (no Rust: checked against a rule, 16)";
const READ_BACK: &str =
    "CommandBuilder::serialize_into, then both readings (checked against a rule: header, data, lowered Le come back)";

impl BuilderInput<'_> {
    fn label(&self, [public, private, too_long]: [&'static str; 3]) -> &'static str {
        match self.data.len() {
            0..=65_535 if self.only_private_code_builds() => private,
            0..=65_535 => public,
            _ => too_long,
        }
    }

    /// Ends the program if the model differs from the Rust.
    fn checked<T: PartialEq>(&self, rust: T, model: T) -> T {
        assert!(rust == model, "the model is not the Rust: {self:?}");
        rust
    }
}

/// The length of a command.
pub fn required_len(input: BuilderInput<'_>) -> impl Call<1> + '_ {
    call(
        (input.label(labels!("CommandBuilder::required_len")), &[]),
        input,
        |&BuilderInput { header, le, mode, data }, _, out| gorvisclen::required_len(header, le, mode, data, out),
        |input, _| Ok([input.checked(input.rust_builder()?.required_len(), input.required_len()) as u64].into()),
    )
    .recorded_as(Operation::RequiredLen)
}

/// The length of a command after extended length is forced; 15 if the Rust panics.
pub fn force_extended(input: BuilderInput<'_>) -> impl Call<1> + '_ {
    call(
        (input.label(labels!("CommandBuilder::force_extended")), &[]),
        input,
        |&BuilderInput { header, le, mode, data }, _, out| gorvisclen::force_extended(header, le, mode, data, out),
        |input, _| {
            let builder = input.rust_builder()?;
            let forced = unless_it_panics(|| builder.force_extended().required_len());
            let model =
                (input.mode != SHORT_ONLY).then(|| BuilderInput { mode: EXTENDED_FORCED, ..*input }.required_len());
            Ok([input.checked(forced, model).ok_or(15)? as u64].into())
        },
    )
    .recorded_as(Operation::ForceExtended)
}

/// Whether the input equals a command, by the model. The Rust parses the command.
fn model_equals(input: &BuilderInput, apdu: &[u8]) -> Result<bool, u8> {
    let parsed = parse_by_rust(apdu)?;
    let [cla, ins, p1, p2, _, _, ne, _] = parsed.numbers;
    Ok(input.header.map(u64::from) == [cla, ins, p1, p2]
        && input.data == parsed.data
        && u64::from(input.compared_expected_len()) == ne)
}

/// Whether a command to build equals a command that is read.
pub fn equals<'a>(input: BuilderInput<'a>, apdu: &'a [u8]) -> impl Call<1> + 'a {
    call(
        (input.label(labels!("CommandBuilder == CommandView")), &[]),
        (input, Hex(apdu)),
        |&(BuilderInput { header, le, mode, data }, apdu), _, out| {
            gorvisclen::builder_eq(header, le, mode, data, &apdu, out)
        },
        |(input, apdu), _| {
            let (builder, model) = match (input.rust_builder(), model_equals(input, apdu)) {
                (Ok(builder), Ok(model)) => (builder, model),
                (Err(one), Err(other)) => return Err(one.min(other)),
                (Err(number), _) | (_, Err(number)) => return Err(number),
            };
            let view = CommandView::try_from(apdu.0).unwrap();
            let [equal, _] = input.checked([builder == view, view == builder], [model; 2]);
            Ok([equal.into()].into())
        },
    )
    .recorded_as(Operation::BuilderEq)
}

/// A command that the Rust writes into a buffer from a place: to the part of the buffer from this place on.
pub fn written_by_rust(input: &BuilderInput, at: usize, to_len: usize) -> Answer<'static, 1> {
    let builder = input.rust_builder()?;
    let mut written = vec![0; to_len.checked_sub(at).ok_or(16)?];
    let mut rest = &mut written[..];
    builder.serialize_into(&mut rest).map_err(|_| 16)?;
    let n = to_len - at - rest.len();
    assert_eq!(n, builder.required_len());
    written.truncate(n);
    input.checked(&written, &input.bytes());
    Ok(Writes::new([n as u64], at, written))
}

/// A command written into a buffer from a place.
pub fn serialize_into(input: BuilderInput<'_>, at: usize) -> impl Call<1> + '_ {
    call(
        (input.label(labels!("CommandBuilder::serialize_into")), &[]),
        (input, at),
        |&(BuilderInput { header, le, mode, data }, at), to, out| {
            gorvisclen::serialize_into(header, le, mode, data, to, at, out)
        },
        |(input, at), to_len| written_by_rust(input, *at, to_len),
    )
    .labelled_by(|(input, at), to_len, _| {
        let past = *at > to_len && input.data.len() <= 65_535;
        past.then_some((PAST, &[]))
    })
    .recorded_as(Operation::SerializeInto)
}

/// Compares the fields of a command with those that are read from its written bytes, in both readings.
pub fn read_back(tally: &mut Tally, input: BuilderInput, at: usize) {
    let n = input.data.len();
    let (mut buffer, mut written) = (vec![0xEE; at + input.required_len() + 3], [0]);
    // After a refusal there is nothing to read, and the comparison fails.
    let _ = serialize_into(input, at).ours(&mut buffer, &mut written);
    let apdu = buffer[at..].get(..written[0] as usize).unwrap_or(&[]);
    for reading in [CRATE_READING, STANDARD_READING] {
        call(
            (READ_BACK, &[]),
            (input, (reading, Hex(apdu))),
            |&(_, (reading, apdu)), to, out| {
                gorvisclen::command(reading, &apdu, out)?;
                gorvisclen::command_data(reading, &apdu, to, &mut [0])
            },
            |&(input, _), _| {
                let [lc_len, le_len] = input.length_fields().map(|field| field.len());
                let [cla, ins, p1, p2] = input.header.map(u64::from);
                let (place, extended) = (4 + lc_len as u64, (lc_len > 1 || le_len > 1).into());
                let numbers =
                    [cla, ins, p1, p2, place, input.data.len() as u64, input.written_expected_len().into(), extended];
                Ok(Writes::new(numbers, 0, input.data))
            },
        )
        .compare(tally, n, COMMAND_NUMBERS);
    }
}
