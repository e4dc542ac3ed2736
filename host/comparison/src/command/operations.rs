//! The calls of the operations on a command that is read.

use gorvisclen::{COMMAND_NUMBERS, CRATE_READING, OWNED_NUMBERS};
use original::command::{Command, CommandView};

use super::rust_reading::{owned_numbers, parse_by_rust, refusal, Parsed};
use super::standard_reading::{parse_by_table, NO_CASE, STANDARD_DATA, STANDARD_OWNED};
use crate::answer::{Answer, Writes};
use crate::call::{call, Call};
use crate::hex::Hex;
use crate::lent::bytes;
use crate::recording::Operation;
use crate::tally::{Labels, Tally};

/// The label of each number of a command.
const NUMBER_LABELS: [&str; COMMAND_NUMBERS] = [
    "CommandView::class",
    "CommandView::instruction",
    "CommandView::p1",
    "CommandView::p2",
    "CommandView::data, its place",
    "CommandView::data, its length",
    "CommandView::expected",
    "CommandView::extended",
];

/// The label of each number of an owned command.
const OWNED_NUMBER_LABELS: [&str; OWNED_NUMBERS] = [
    "Command::class",
    "Command::instruction",
    "Command::p1",
    "Command::p2",
    "Command::data, its length",
    "Command::expected",
    "Command::extended",
];

const EXTENDED_LABELS: Labels = ("Command::extend_from_command_view", &OWNED_NUMBER_LABELS);
const PAST_ROOM: &str =
    "Command::extend_from_command_view, held length past the room (no Rust: checked against a rule, 18)";

/// A reading, and a command that is read in it.
pub type CommandInput<'a> = (u8, Hex<'a, u8>);

/// The reference: in the crate's reading the Rust, in the standard reading a table.
fn parse_in_reading((reading, apdu): CommandInput<'_>) -> Result<Parsed<'_>, u8> {
    match reading {
        CRATE_READING => parse_by_rust(apdu.0),
        _ => parse_by_table(apdu.0),
    }
}

/// The length of the data; 0 if the command is refused.
pub fn data_len(input: CommandInput) -> usize {
    parse_in_reading(input).map_or(0, |parsed| parsed.data.len())
}

/// The operation, if the Rust has it: in the crate's reading.
fn if_recorded(reading: u8, operation: Operation) -> Option<Operation> {
    (reading == CRATE_READING).then_some(operation)
}

/// A command that is parsed.
pub fn parse(input: CommandInput<'_>) -> impl Call<COMMAND_NUMBERS> + '_ {
    let labels: Labels = match input.0 {
        CRATE_READING => ("CommandView::try_from", &NUMBER_LABELS),
        _ => (parse_by_table(&input.1).map_or(NO_CASE, |parsed| parsed.label), &[]),
    };
    call(
        labels,
        input,
        |(reading, apdu), _, out| gorvisclen::command(*reading, apdu, out),
        |(_, apdu), _| Ok(parse_by_rust(apdu)?.numbers.into()),
    )
    .with_reference(|input, _| Ok(parse_in_reading(*input)?.numbers.into()))
    .recorded_as(if_recorded(input.0, Operation::Command))
}

/// The data of a command, copied.
pub fn data(input: CommandInput<'_>) -> impl Call<1> + '_ {
    let name = if input.0 == CRATE_READING { "CommandView::data" } else { STANDARD_DATA };
    call(
        (name, &[]),
        input,
        |(reading, apdu), to, out| gorvisclen::command_data(*reading, apdu, to, out),
        |(_, apdu), _| Ok(Some(parse_by_rust(apdu)?.data.into()).into()),
    )
    .with_reference(|input, _| Ok(Some(parse_in_reading(*input)?.data.into()).into()))
    .recorded_as(if_recorded(input.0, Operation::CommandData))
}

/// An owned copy of a command. In the crate's reading `to` must be as long as one of the rooms.
pub fn own(input: CommandInput<'_>) -> impl Call<OWNED_NUMBERS> + '_ {
    let labels: Labels = match input.0 {
        CRATE_READING => ("Command::try_from", &OWNED_NUMBER_LABELS),
        _ => (STANDARD_OWNED, &[]),
    };
    call(
        labels,
        input,
        |(reading, apdu), to, out| gorvisclen::command_owned(*reading, apdu, to, out),
        |(reading, apdu), to_len| match *reading {
            CRATE_READING => (ROOMS.iter().find(|room| room.len == to_len).unwrap().owned)(apdu),
            _ => own_by_table(apdu, to_len),
        },
    )
    .recorded_as(if_recorded(input.0, Operation::CommandOwned))
}

/// An owned copy in the standard reading.
fn own_by_table(apdu: &[u8], room_len: usize) -> Answer<'_, OWNED_NUMBERS> {
    let Parsed { numbers: [cla, ins, p1, p2, _, nc, ne, extended], data, .. } = parse_by_table(apdu)?;
    if data.len() > room_len {
        return Err(2);
    }
    Ok(Writes::new([cla, ins, p1, p2, nc, ne, extended], 0, data))
}

/// An owned command that holds `len` bytes, extended by another. If `len` is past the room, a rule is the reference;
/// otherwise it is compared with an answer of the Rust.
fn extend(len: usize, apdu: &[u8], past: bool) -> impl Call<OWNED_NUMBERS> + '_ {
    call(
        (PAST_ROOM, &[]),
        (len, Hex(apdu)),
        |(len, apdu), to, out| gorvisclen::command_extend(*len, to, apdu, out),
        |(len, apdu), _| {
            let [cla, ins, p1, p2, _, _, expected, _] = parse_by_rust(apdu)?.numbers;
            let writes = Writes::from([cla, ins, p1, p2, *len as u64, expected, 1]);
            Ok(Writes { refused: Some(18), ..writes })
        },
    )
    .recorded_as((!past).then_some(Operation::CommandExtend))
}

/// A command to extend by, and the length of `out`.
pub type Extension<'a> = (&'a [u8], usize);

/// A room whose length is a capacity of the Rust's `Command`, and the functions for that type.
pub struct Room {
    pub len: usize,
    owned: fn(&[u8]) -> Answer<OWNED_NUMBERS>,
    pub extended: fn(&mut Tally, usize, &[Extension]),
}

impl Room {
    /// Compares the extension of a command that holds `len` bytes.
    pub fn extend(&self, tally: &mut Tally, len: usize, extension: Extension) {
        match len > self.len {
            true => extend(len, extension.0, true).compare(tally, self.len, extension.1),
            false => (self.extended)(tally, len, &[extension]),
        }
    }
}

const fn room<const S: usize>() -> Room {
    Room { len: S, owned: owned::<S>, extended: extended::<S> }
}

/// The rooms of these lengths, each made by a function with the length as its parameter.
macro_rules! rooms {
    ($room:ident: $($len:literal),*) => {
        [$($room::<$len>()),*]
    };
}
pub(crate) use rooms;

pub static ROOMS: [Room; 13] = rooms!(room: 0, 1, 2, 3, 5, 16, 255, 256, 257, 600, 65_534, 65_535, 65_536);

/// How many of the rooms are short.
pub const SHORT_ROOMS: usize = 10;

/// The Rust's owned copy in a room of S bytes.
fn owned<const S: usize>(apdu: &[u8]) -> Answer<'_, OWNED_NUMBERS> {
    let command = Command::<S>::try_from(apdu).map_err(refusal)?;
    Ok(Writes::new(owned_numbers(&command), 0, command.data().to_vec()))
}

/// Compares extensions one after the other. At first the command holds `len` bytes, at most S.
fn extended<const S: usize>(tally: &mut Tally, len: usize, extensions: &[Extension]) {
    let mut room = bytes(S);
    let mut held = Command::<S>::try_from(&[0x00, 0xA4, 0x04, 0x00]).unwrap();
    held.data_mut().extend_from_slice(&room.part()[..len]).unwrap();
    for &(apdu, out_len) in extensions {
        let len = held.data().len();
        let answer = match CommandView::try_from(apdu).map_err(refusal) {
            Err(number) => Err(number),
            Ok(_) if out_len < OWNED_NUMBERS => Err(16),
            Ok(view) => Ok(extend_held(&mut held, view, apdu)),
        };
        extend(len, apdu, false).compare_with(tally, EXTENDED_LABELS, &answer, &room, out_len);
        room.part()[..held.data().len()].copy_from_slice(held.data());
    }
}

/// Extends a held command of the Rust by a view. In a short room it also extends a copy by an owned command, which must
/// do the same.
fn extend_held<const S: usize>(
    held: &mut Command<S>,
    view: CommandView,
    apdu: &[u8],
) -> Writes<'static, OWNED_NUMBERS> {
    let mut other = held.clone();
    let done = held.extend_from_command_view(view);
    let (before, after) = held.data().split_at(other.data().len());
    assert!(before == &other.data()[..], "the Rust's extension changes held data");
    let writes = Writes::new(owned_numbers(held), before.len(), after.to_vec());
    if let Some(owned) = Command::<600>::try_from(apdu).ok().filter(|_| S <= 600) {
        let same = other.extend_from_command(&owned) == done && other == *held;
        assert!(same, "the Rust's extensions differ: {:?}", Hex(apdu));
    }
    Writes { refused: done.is_err().then_some(18), ..writes }
}
