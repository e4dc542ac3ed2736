//! The calls of the operations that collect. What is sent is compared with the Rust's builder, the rest with the model.

use gorvisclen::{Collection, COLLECTION_NUMBERS, COLLECT_NUMBERS, COMMAND};

use super::model;
use crate::answer::Writes;
use crate::builder::{written_by_rust, BuilderInput};
use crate::call::{call, Call, Input};
use crate::hex::Hex;
use crate::tally::Labels;

const START: Labels = ("collect::start (no Rust: checked against a model)", &[]);
const END: Labels = ("collect::step, the end (no Rust: checked against a model)", &[]);
const MORE: Labels = ("collect::step, 61xx (no Rust: checked against a model)", &[]);
const AGAIN: Labels = ("collect::step, 6Cxx, the command again (no Rust: checked against a model)", &[]);
const GET_AGAIN: Labels = ("collect::step, 6Cxx, GET RESPONSE again (no Rust: checked against a model)", &[]);
const REFUSED: Labels = ("collect::step, refused (no Rust: checked against a model)", &[]);
const WRITE: Labels = ("collect::write, the command, beside CommandBuilder::serialize_into", &[]);
const WRITE_GET: Labels = ("collect::write, GET RESPONSE, beside CommandBuilder::serialize_into", &[]);
const SENT_AFTER: Labels =
    ("collect, the five bytes after 61xx or 6Cxx without data (checked against document 02)", &[]);
const COLLECTED: Labels = ("collect::collected (no Rust: checked against a rule)", &[]);

impl Input for Collection {}

/// The start of a collection.
pub fn start(command: BuilderInput<'_>) -> impl Call<COLLECTION_NUMBERS> + '_ {
    call(
        START,
        command,
        |&BuilderInput { header, le, mode, data }, _, out| gorvisclen::collect_start(header, le, mode, data, out),
        |command, _| Ok(model::numbers(model::start(command)?).into()),
    )
}

/// A response that is taken. The room is `to`.
pub fn step(state: Collection, response: &[u8]) -> impl Call<COLLECT_NUMBERS> + '_ {
    call(
        REFUSED,
        (state, Hex(response)),
        |(state, response), to, out| state.step(response, to, out),
        |(state, response), to_len| model::step(*state, response.0, to_len),
    )
    .labelled_by(|(state, response), _, answer| match (answer, response.0) {
        (Ok(_), [.., 0x61, _]) => Some(MORE),
        (Ok(_), [.., 0x6C, _]) if state.kind == COMMAND => Some(AGAIN),
        (Ok(_), [.., 0x6C, _]) => Some(GET_AGAIN),
        (Ok(_), _) => Some(END),
        (Err(_), _) => None,
    })
}

/// The command that is sent in a state. GET RESPONSE has no data.
fn sent(state: Collection, data: &[u8]) -> BuilderInput<'_> {
    let Collection { kind, header, le, mode, .. } = state;
    BuilderInput::new(header, le, mode, if kind == COMMAND { data } else { &[] })
}

/// How many bytes are sent in a state.
pub fn sent_len(state: Collection, data: &[u8]) -> usize {
    sent(state, data).required_len()
}

/// What is to be sent, written into a buffer from a place.
pub fn write(state: Collection, data: &[u8], at: usize) -> impl Call<1> + '_ {
    call(
        if state.kind == COMMAND { WRITE } else { WRITE_GET },
        (state, (Hex(data), at)),
        |(state, (data, at)), to, out| state.write(data, to, *at, out),
        |(state, (data, at)), to_len| written_by_rust(&sent(*state, data.0), *at, to_len),
    )
}

/// What is sent after 61xx, and after 6Cxx to a command without data that is not forced to be extended: five bytes. The
/// response has no data.
pub fn sent_after(state: Collection, status: [u8; 2]) -> impl Call<1> {
    call(
        SENT_AFTER,
        (state, status),
        |(state, status), to, out| {
            let mut numbers = [0; COLLECT_NUMBERS];
            state.step(status, &mut [], &mut numbers)?;
            Collection::after(numbers).write(&[], to, 0, out)
        },
        |&(Collection { header: [class, instruction, p1, p2], .. }, [sw1, xx]), _| {
            let sent = match sw1 {
                0x61 => [class, 0xC0, 0x00, 0x00, xx],
                _ => [class, instruction, p1, p2, xx],
            };
            Ok(Writes::new([5], 0, sent.to_vec()))
        },
    )
}

/// The copy of what is collected: the first `len` bytes of the room, or all if it has fewer.
pub fn collected(len: usize, room: &[u8]) -> impl Call<1> + '_ {
    call(
        COLLECTED,
        (len, Hex(room)),
        |(len, room), to, out| gorvisclen::collected(*len, room, to, out),
        |(len, room), _| Ok(Some(room[..room.len().min(*len)].into()).into()),
    )
}
