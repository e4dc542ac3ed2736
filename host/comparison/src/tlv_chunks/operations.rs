//! The calls of a walk in chunks: a chunk that is handed in, and the closing call. In any state they are compared with
//! the model; on the way through a record, with what the Rust reads in all of it.

use std::iter;

use gorvisclen::{ChunkWalk, CHUNK_NUMBERS};

use super::labels::{ChunkLabels, BY_MODEL, NO_RECORD, UNSEEN};
use super::model;
use super::told::TAKEN;
use crate::answer::Told;
use crate::call::{call, Call, Input};
use crate::guarded::with_guards;
use crate::hex::Hex;
use crate::lent::bytes;
use crate::random::Random;
use crate::tally::{Labels, Tally};

/// The longest chunk that is compared with itself after the call.
const COMPARED: usize = 1_000;

impl Input for ChunkWalk {}

/// The labels of a call that is compared with the model.
fn labels(state: ChunkWalk) -> ChunkLabels {
    match model::some_record_leads_to(state) {
        true => BY_MODEL,
        false => NO_RECORD,
    }
}

/// A chunk that is handed in.
pub fn take(state: ChunkWalk, chunk: &[u8]) -> impl Call<CHUNK_NUMBERS> + '_ {
    call(
        (UNSEEN, &[]),
        (state, Hex(chunk)),
        |(state, chunk), _, out| state.take(chunk, out),
        |(state, chunk), _| Ok(model::take(*state, chunk).into()),
    )
    .labelled_by(|(state, chunk), _, _| Some(labels(*state).of_take(*state, &model::take(*state, chunk))))
}

/// The closing call.
pub fn close(state: ChunkWalk) -> impl Call<CHUNK_NUMBERS> {
    call((UNSEEN, &[]), state, |state, _, out| state.close(out), |state, _| Ok(model::close(*state).into()))
        .labelled_by(|state, _, _| Some(labels(*state).of_close(*state)))
}

/// The lengths of `out` that a call is made with: one that is long enough, and every fourth time also one that is not.
fn out_lens(random: &mut Random) -> impl Iterator<Item = usize> {
    let too_short = random.below(CHUNK_NUMBERS);
    iter::once(CHUNK_NUMBERS + random.below(3)).chain((random.below(4) == 0).then_some(too_short))
}

/// Compares a chunk with what must be told of it. It stands right before a guard, or right after one.
pub fn taken(
    tally: &mut Tally,
    random: &mut Random,
    labels: Labels,
    (state, chunk): (ChunkWalk, &[u8]),
    told: Told<CHUNK_NUMBERS>,
) {
    let (answer, at_end) = (Ok(told.into()), random.below(4) > 0);
    with_guards(|[here, ..]| {
        let call = take(state, here.copy(chunk, at_end));
        for out_len in out_lens(random) {
            call.run(tally, labels, &answer, (&bytes(0), out_len), chunk.len() <= COMPARED);
        }
    });
}

/// The same for a closing call.
pub fn closed(tally: &mut Tally, random: &mut Random, labels: Labels, state: ChunkWalk, told: Told<CHUNK_NUMBERS>) {
    for out_len in out_lens(random) {
        close(state).compare_with(tally, labels, &Ok(told.into()), &bytes(0), out_len);
    }
}

/// Compares a chunk in any state with the model. Then the same with every byte inverted that may not alter the reply:
/// those of a value, and those that are not taken.
pub fn by_model(tally: &mut Tally, random: &mut Random, state: ChunkWalk, chunk: &[u8]) {
    let told = model::take(state, chunk);
    taken(tally, random, labels(state).of_take(state, &told), (state, chunk), told);
    let (Ok(numbers) | Err((_, numbers))) = told;
    let seen = if state.kind == 7 { 0 } else { numbers[TAKEN] as usize };
    if seen < chunk.len() {
        let mut other = chunk.to_vec();
        other[seen..].iter_mut().for_each(|byte| *byte = !*byte);
        taken(tally, random, (UNSEEN, &[]), (state, &other), told);
    }
}

/// Compares the closing call in any state with the model.
pub fn closed_by_model(tally: &mut Tally, random: &mut Random, state: ChunkWalk) {
    closed(tally, random, labels(state).of_close(state), state, model::close(state));
}
