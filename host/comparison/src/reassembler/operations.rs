//! The calls of the reassembler's operations, compared with the model.

use gorvisclen::{Reassembler, Refused, JOIN_NUMBERS};

use super::model;
use crate::answer::Answer;
use crate::call::{call, Call, Input};
use crate::hex::Hex;
use crate::lent::{bytes, Lent};
use crate::tally::{Labels, Tally};

const MORE: &str = "Reassembler::join, more (no Rust: checked against a model)";
const SINGLE: &str = "Reassembler::join, the command of a single piece (no Rust: checked against a model)";
const SEVERAL: &str = "Reassembler::join, the command of several pieces (no Rust: checked against a model)";
const REFUSED: &str = "Reassembler::join, refused (no Rust: checked against a model)";
const CLASS_FF: &str = "Reassembler::join, an open chain of class FF (no Rust: checked against a model, 3)";

impl Input for Reassembler {}

/// A piece that is joined. The room is `to`.
pub fn join(state: Reassembler, piece: &[u8]) -> impl Call<JOIN_NUMBERS> + '_ {
    call(
        (REFUSED, &[]),
        (state, Hex(piece)),
        |(state, piece), to, out| state.join(piece, to, out),
        |(state, piece), to_len| model::join(*state, piece, to_len),
    )
    .labelled_by(|(Reassembler { open, header, .. }, _), _, answer| match answer {
        Ok(writes) if writes.numbers[0] == 0 => Some((MORE, &[])),
        Ok(_) if *open == 0 => Some((SINGLE, &[])),
        Ok(_) => Some((SEVERAL, &[])),
        Err(_) if *open != 0 && header[0] == 0xFF => Some((CLASS_FF, &[])),
        Err(_) => None,
    })
}

/// The state and the room of a reassembler, as they must be.
pub struct Reassembly {
    pub state: Reassembler,
    pub room: Lent<u8>,
}

impl Reassembly {
    /// No chain is open, in a room of this length.
    pub fn closed(room_len: usize) -> Self {
        Reassembly { state: Reassembler::CLOSED, room: bytes(room_len) }
    }

    /// Compares the joining of a piece with the model, and takes the state after it.
    pub fn join(&mut self, tally: &mut Tally, piece: &[u8], out_len: usize) {
        let call = join(self.state, piece);
        let answer = call.reference(self.room.len());
        self.join_with(tally, call.labels(self.room.len(), &answer), piece, &answer, out_len);
    }

    /// The same, compared with this answer.
    pub fn join_with(
        &mut self,
        tally: &mut Tally,
        labels: Labels,
        piece: &[u8],
        answer: &Answer<JOIN_NUMBERS>,
        out_len: usize,
    ) {
        join(self.state, piece).compare_with(tally, labels, answer, &self.room, out_len);
        if let (Ok(writes), JOIN_NUMBERS..) = (answer, out_len) {
            writes.write(self.room.part(), &mut [0; JOIN_NUMBERS]).unwrap();
            self.state = Reassembler::after(writes.numbers);
        }
    }
}

/// A reset: it is never refused, and no chain is open after it.
pub fn reset(state: Reassembler) -> impl Call<0> {
    call(
        ("Reassembler::reset (no Rust: checked against a rule)", &[]),
        state,
        |state, _, _| match state.reset() {
            Reassembler::CLOSED => Ok(()),
            open => Err(Refused(open.open)),
        },
        |_, _| Ok([].into()),
    )
}

/// The copy of a command's data: the first `joined` bytes of the room, or all if it has fewer.
pub fn data(joined: usize, room: &[u8]) -> impl Call<1> + '_ {
    call(
        ("reassembler::data (no Rust: checked against a rule)", &[]),
        (joined, Hex(room)),
        |(joined, room), to, out| gorvisclen::joined_data(*joined, room, to, out),
        |(joined, room), _| Ok(Some(room[..room.len().min(*joined)].into()).into()),
    )
}
