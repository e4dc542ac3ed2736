//! Commands as the Rust reads them: the numbers and data of a command, and of an owned command.

use gorvisclen::{COMMAND_NUMBERS, OWNED_NUMBERS};
use original::command::{Command, CommandView, FromSliceError};

/// A parsed command: the label that the parse is counted under, its numbers, its data.
pub struct Parsed<'a> {
    pub label: &'static str,
    pub numbers: [u64; COMMAND_NUMBERS],
    pub data: &'a [u8],
}

/// The number of a refusal. The Rust's errors are in the order of the numbers.
pub fn refusal(error: FromSliceError) -> u8 {
    1 + error as u8
}

/// A command as the Rust reads it.
#[inline(always)]
pub fn parse_by_rust(apdu: &[u8]) -> Result<Parsed<'_>, u8> {
    let view = CommandView::try_from(apdu).map_err(refusal)?;
    let data = view.data();
    let place = data.as_ptr() as usize - apdu.as_ptr() as usize;
    let instruction: u8 = view.instruction().into();
    let numbers = [
        view.class().into_inner().into(),
        instruction.into(),
        view.p1.into(),
        view.p2.into(),
        place as u64,
        data.len() as u64,
        view.expected() as u64,
        view.extended.into(),
    ];
    Ok(Parsed { label: "CommandView::try_from", numbers, data })
}

/// The numbers of an owned command.
pub fn owned_numbers<const S: usize>(command: &Command<S>) -> [u64; OWNED_NUMBERS] {
    let instruction: u8 = command.instruction().into();
    [
        command.class().into_inner().into(),
        instruction.into(),
        command.p1.into(),
        command.p2.into(),
        command.data().len() as u64,
        command.expected() as u64,
        command.extended.into(),
    ]
}

/// The bytes of a command whose field Lc has `lc_len` bytes: none, one or three.
pub fn encoded(header: &[u8], lc_len: usize, data: &[u8], le: &[u8]) -> Vec<u8> {
    let [.., high, low] = data.len().to_be_bytes();
    [header, &[0, high, low][3 - lc_len..], data, le].concat()
}
