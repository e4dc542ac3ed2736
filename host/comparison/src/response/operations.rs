//! The calls of the operations on responses and status words. The Rust only has the names, those of the variants that
//! `Status::from_u16` gives.

use std::fmt;

use gorvisclen::{NONE, RESPONSE_NUMBERS, STATUS_NUMBERS};
use original_status::Status;

use super::model::{self, WORDS};
use crate::answer::Writes;
use crate::call::{call, Call, Input};
use crate::hex::Hex;
use crate::tally::Labels;

const SPLIT: Labels = ("response::split (no Rust: checked against a rule)", &[]);
const DATA: Labels = ("response::data (no Rust: checked against a rule)", &[]);
const APPEND: Labels = ("response::append (no Rust: checked against a rule)", &[]);
const NAME: Labels = ("status, its name, beside the variant of Status::from_u16", &[]);
const NO_NAME: Labels = ("status, no name if it is not listed (no Rust: checked against a rule)", &[]);
const STATUS: Labels = (
    "status (no Rust: checked against a rule)",
    &[
        "status, the word (no Rust: checked against a rule)",
        "status, its class (no Rust: checked against a rule)",
        "status, its place in the table (no Rust: checked against a table of document 02)",
    ],
);

/// A status word, printed in hex.
#[derive(Clone, Copy)]
pub struct Word(pub u16);

impl fmt::Debug for Word {
    fn fmt(&self, f: &mut fmt::Formatter<'_>) -> fmt::Result {
        write!(f, "word {:04X}", self.0)
    }
}

impl Input for Word {}

/// A response that is split.
pub fn split(response: &[u8]) -> impl Call<RESPONSE_NUMBERS> + '_ {
    call(
        SPLIT,
        Hex(response),
        |response, _, out| gorvisclen::response_split(response, out),
        |response, _| {
            let (data, [sw1, sw2]) = model::split(response.0)?;
            Ok([data.len() as u64, sw1.into(), sw2.into()].into())
        },
    )
}

/// The copy of a response's data.
pub fn data(response: &[u8]) -> impl Call<1> + '_ {
    call(
        DATA,
        Hex(response),
        |response, to, out| gorvisclen::response_data(response, to, out),
        |response, _| {
            let (data, _) = model::split(response.0)?;
            Ok(Writes::new([data.len() as u64], 0, data))
        },
    )
}

/// A response's data, appended in a room of which `held` bytes are held. The room is `to`.
pub fn append(response: &[u8], held: usize) -> impl Call<RESPONSE_NUMBERS> + '_ {
    call(
        APPEND,
        (Hex(response), held),
        |(response, held), to, out| gorvisclen::response_append(response, *held, to, out),
        |(response, held), to_len| {
            let (data, [sw1, sw2]) = model::split(response.0)?;
            let now = model::held_with(*held, data.len(), to_len)?;
            Ok(Writes::new([now as u64, sw1.into(), sw2.into()], *held, data))
        },
    )
}

/// A status: its word, its class, its place in the table.
pub fn status(word: u16) -> impl Call<STATUS_NUMBERS> {
    call(
        STATUS,
        Word(word),
        |Word(word), _, out| {
            let [sw1, sw2] = word.to_be_bytes();
            gorvisclen::status(sw1, sw2, out)
        },
        |&Word(word), _| {
            let place = model::place(word).map_or(NONE, |place| place as u64);
            Ok([word.into(), model::class(word), place].into())
        },
    )
}

/// The place of a word by the Rust: it is listed exactly if its variant has one of the names.
pub fn place_by_rust(word: u16) -> Option<usize> {
    let variant = format!("{:?}", Status::from_u16(word));
    WORDS.iter().position(|listed| listed.1 == variant)
}

/// The name of a listed word by the Rust. Ends the program if the table has another.
fn rust_name(word: u16, name: &str) -> String {
    let variant = format!("{:?}", Status::from_u16(word));
    assert!(variant == name, "the model is not the Rust: {word:04X}, {name}, {variant}");
    variant
}

/// The copy of a status's name.
pub fn name(word: u16) -> impl Call<1> {
    call(
        NAME,
        Word(word),
        |Word(word), to, out| {
            let [sw1, sw2] = word.to_be_bytes();
            gorvisclen::status_name(sw1, sw2, to, out)
        },
        |&Word(word), _| {
            let name = model::place(word).map_or(String::new(), |place| rust_name(word, WORDS[place].1));
            Ok(Writes::new([name.len() as u64], 0, name.into_bytes()))
        },
    )
    .labelled_by(|&Word(word), _, _| model::place(word).is_none().then_some(NO_NAME))
}
