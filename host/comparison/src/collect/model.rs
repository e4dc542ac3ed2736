//! A model of collecting, from request 1 of document 02: how it starts, and one step from any state.

use gorvisclen::{
    Collection, COLLECTION_NUMBERS, COLLECT_NUMBERS, COMMAND, EXPECTED_MAX, EXTENDED_FORCED, GET_RESPONSE, SHORT_ONLY,
};

use crate::answer::{Answer, Writes};
use crate::builder::BuilderInput;
use crate::response::model::{held_with, split};

/// The mode of each GET RESPONSE, whatever the mode of the command: its length is one byte.
pub const GET_RESPONSE_MODE: u8 = SHORT_ONLY;

/// The header of GET RESPONSE after a command of this class.
pub fn get_response_header(class: u8) -> [u8; 4] {
    [class, 0xC0, 0x00, 0x00]
}

/// The expected length that 61xx and 6Cxx ask for.
pub fn asked_len(xx: u8) -> u32 {
    match xx {
        0 => 256,
        n => n.into(),
    }
}

/// The numbers of a state. Several numbers mean one kind, mode or expected length; one of them is written.
pub fn numbers(state: Collection) -> [u64; COLLECTION_NUMBERS] {
    let Collection { kind, header, le, mode, held } = state;
    let [class, instruction, p1, p2] = header.map(u64::from);
    let (kind, mode) = (u64::from(kind != COMMAND), mode.min(EXTENDED_FORCED).into());
    [kind, class, instruction, p1, p2, le.min(EXPECTED_MAX).into(), mode, held as u64]
}

/// The numbers of a step after which this is to be sent.
pub fn goes_on(state: Collection) -> [u64; COLLECT_NUMBERS] {
    let mut all = [0; COLLECT_NUMBERS];
    all[4..].copy_from_slice(&numbers(state));
    all
}

/// The numbers of a step at which it ends.
pub fn ended([sw1, sw2]: [u8; 2], len: usize) -> [u64; COLLECT_NUMBERS] {
    let mut all = [0; COLLECT_NUMBERS];
    all[..4].copy_from_slice(&[1, sw1.into(), sw2.into(), len as u64]);
    all
}

/// The state in which a command is to be sent.
pub fn start(command: &BuilderInput) -> Result<Collection, u8> {
    let &BuilderInput { header, le, mode, data } = command;
    match (header[0], data.len()) {
        (0xFF, _) => Err(3),
        (_, 65_536..) => Err(13),
        _ => Ok(Collection { kind: COMMAND, header, le, mode, held: 0 }),
    }
}

/// One step: a response to what was sent, in a room of this length.
pub fn step(state: Collection, response: &[u8], room_len: usize) -> Answer<'_, COLLECT_NUMBERS> {
    let class = state.header[0];
    if class == 0xFF {
        return Err(3);
    }
    let (data, status) = split(response)?;
    let held = held_with(state.held, data.len(), room_len)?;
    let (header, mode) = (get_response_header(class), GET_RESPONSE_MODE);
    let numbers = match status {
        [0x61, xx] => goes_on(Collection { kind: GET_RESPONSE, header, le: asked_len(xx), mode, held }),
        [0x6C, xx] => goes_on(Collection { le: asked_len(xx), held, ..state }),
        _ => ended(status, held),
    };
    Ok(Writes::new(numbers, state.held, data))
}
