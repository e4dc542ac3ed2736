//! The calls that take a tag or a length from the front of some bytes, or an object from a place of a record.

use std::fmt::Debug;
use std::hint::black_box;

use gorvisclen::{Reply, CRATE_READING, LEN_NUMBERS, OBJECT_NUMBERS, TAG_NUMBERS};
use original::tlv::{take_len, take_tag};

use super::rust_walk::{self, place_of, tag_number};
use super::{labels, model};
use crate::answer::{give, is_accepted, reply_number, Answer};
use crate::call::{call, Call, Input};
use crate::hex::Hex;
use crate::lent::{self, numbers, Lent, Outcome};
use crate::recording::{Arguments, Operation};
use crate::tally::{Labels, Tally};

/// One of the three, with all its arguments except the bytes.
pub trait Take<const N: usize>: Input + Copy {
    const OPERATION: Operation;

    fn reading(&self) -> u8;

    /// The call of the library.
    fn ours(&self, bytes: &[u8], out: &mut [u64]) -> Reply;

    /// The reference.
    fn answer(&self, bytes: &[u8]) -> Answer<'static, N>;

    /// The labels for an answer that is accepted or refused, if there are so many bytes.
    fn labels(&self, len: usize, accepted: bool) -> Labels;

    /// The labels for an answer on some bytes. Every string, below, is counted by its reply alone.
    fn labels_of(&self, bytes: &[u8], answer: &Answer<N>) -> Labels {
        self.labels(bytes.len(), is_accepted(answer))
    }

    /// The call on some bytes.
    fn call(self, bytes: &[u8]) -> impl Call<N> {
        let operation = (self.reading() == CRATE_READING).then_some(Self::OPERATION);
        call(
            self.labels(bytes.len(), true),
            (self, Hex(bytes)),
            |(take, bytes), _, out| take.ours(bytes, out),
            |(take, bytes), _| take.answer(bytes),
        )
        .labelled_by(|(take, bytes), _, answer| Some(take.labels_of(bytes, answer)))
        .recorded_as(operation)
    }

    /// Compares the call, with `out` of this length.
    fn compare(self, tally: &mut Tally, bytes: &[u8], out_len: usize) {
        self.call(bytes).compare_numbers(tally, out_len);
    }

    /// Compares every string of `len` bytes, at most 3. They are many: so equal answers are counted here first, and all
    /// calls use the same buffers.
    fn every_string(self, tally: &mut Tally, len: usize) {
        let [untouched, mut reference_out, mut out] = [0; 3].map(|_| numbers(N));
        let mut equal = [0; 256];
        for n in 0..1_u32 << (8 * len) {
            let before = n.to_be_bytes();
            let string = black_box(before);
            let bytes = &string[4 - len..];
            let answer = self.answer(bytes);
            let reference_reply = give(&answer, &mut [], reference_out.part());
            let reply = self.ours(bytes, out.part());
            if (black_box(&string), reply, &out) == (&before, reference_reply, &reference_out) {
                equal[usize::from(reply_number(reply))] += 1;
            } else {
                let outcome = |reply, out: &Lent<u64>| Outcome::new(reply, out.clone(), lent::bytes(0));
                let reference = outcome(reference_reply, &reference_out).with_input(before.to_vec());
                let ours = outcome(reply, &out).with_input(string.to_vec());
                let input = || format!("{:?}", (self, Hex(bytes)));
                tally.compare(self.labels(len, is_accepted(&answer)), input, &reference, &ours);
            }
            reference_out.clone_from(&untouched);
            out.clone_from(&untouched);
        }
        for (number, cases) in (0..=255).zip(equal) {
            tally.count(self.labels(len, number == 0), number, cases);
        }
    }
}

/// A tag, in a reading.
#[derive(Clone, Copy, Debug)]
pub struct Tag(pub u8);

/// A length, in a reading.
#[derive(Clone, Copy, Debug)]
pub struct Len(pub u8);

/// An object, in a reading, from a place on.
#[derive(Clone, Copy, Debug)]
pub struct Object {
    pub reading: u8,
    pub at: usize,
}

impl Input for Tag {
    fn add_to<'a>(&'a self, arguments: &mut Arguments<'a>) {
        self.0.add_to(arguments);
    }
}

impl Input for Len {
    fn add_to<'a>(&'a self, arguments: &mut Arguments<'a>) {
        self.0.add_to(arguments);
    }
}

impl Input for Object {
    fn add_to<'a>(&'a self, arguments: &mut Arguments<'a>) {
        self.reading.add_to(arguments);
        self.at.add_to(arguments);
    }
}

impl Take<TAG_NUMBERS> for Tag {
    const OPERATION: Operation = Operation::TakeTag;

    fn reading(&self) -> u8 {
        self.0
    }

    #[inline(always)]
    fn ours(&self, bytes: &[u8], out: &mut [u64]) -> Reply {
        gorvisclen::take_tag(self.0, bytes, out)
    }

    fn answer(&self, bytes: &[u8]) -> Answer<'static, TAG_NUMBERS> {
        let rust = |(tag, remainder)| [tag_number(tag), place_of(remainder, bytes).start as u64];
        by_model(model::tag(self.0, bytes), (self.0, bytes), || take_tag(bytes).map(rust))
    }

    fn labels(&self, _: usize, accepted: bool) -> Labels {
        labels::TAG.labels(self.0, accepted)
    }
}

impl Take<LEN_NUMBERS> for Len {
    const OPERATION: Operation = Operation::TakeLen;

    fn reading(&self) -> u8 {
        self.0
    }

    #[inline(always)]
    fn ours(&self, bytes: &[u8], out: &mut [u64]) -> Reply {
        gorvisclen::take_len(self.0, bytes, out)
    }

    fn answer(&self, bytes: &[u8]) -> Answer<'static, LEN_NUMBERS> {
        let rust = |(len, remainder)| [len as u64, place_of(remainder, bytes).start as u64];
        by_model(model::len(bytes), (self.0, bytes), || take_len(bytes).map(rust))
    }

    fn labels(&self, _: usize, accepted: bool) -> Labels {
        labels::LEN.labels(self.0, accepted)
    }
}

impl Take<OBJECT_NUMBERS> for Object {
    const OPERATION: Operation = Operation::TakeDataObject;

    fn reading(&self) -> u8 {
        self.reading
    }

    #[inline(always)]
    fn ours(&self, record: &[u8], out: &mut [u64]) -> Reply {
        gorvisclen::take_data_object(self.reading, record, self.at, out)
    }

    /// In the crate's reading the Rust's answer, with which the model must agree. Past the end there is no remainder to
    /// read, and in the standard reading no Rust: there it is the model's.
    fn answer(&self, record: &[u8]) -> Answer<'static, OBJECT_NUMBERS> {
        let model = model::object(self.reading, record, self.at);
        match record.get(self.at..) {
            Some(remainder) if self.reading == CRATE_READING => {
                let rust = rust_walk::object(remainder, record);
                check_model(&rust, &model, || (self, Hex(record)));
                Ok(rust.into())
            }
            _ => Ok(model.into()),
        }
    }

    fn labels(&self, len: usize, accepted: bool) -> Labels {
        match self.at > len {
            true => (labels::OBJECT.no_rust, &[]),
            false => labels::OBJECT.labels(self.reading, accepted, self.at > 0),
        }
    }

    /// If zero bytes are skipped, the place of the object, or of the end, is a later one.
    fn labels_of(&self, record: &[u8], answer: &Answer<OBJECT_NUMBERS>) -> Labels {
        match answer {
            Ok(writes) if writes.numbers[0] > self.at as u64 => labels::OBJECT.after_zeros(self.at > 0),
            _ => self.labels(record.len(), is_accepted(answer)),
        }
    }
}

/// The model's answer for some bytes in a reading. In the crate's reading it must agree with what the Rust reads.
fn by_model<const N: usize>(
    model: Result<[u64; N], u8>,
    (reading, bytes): (u8, &[u8]),
    rust: impl Fn() -> Option<[u64; N]>,
) -> Answer<'static, N> {
    if reading == CRATE_READING {
        check_model(&rust(), &model.ok(), || Hex(bytes));
    }
    Ok(model?.into())
}

/// Ends the program if the model differs from the Rust.
pub fn check_model<T: PartialEq, I: Debug>(rust: &T, model: &T, input: impl Fn() -> I) {
    assert!(rust == model, "the model is not the Rust: {:?}", input());
}

/// Places past the end of a record of `len` bytes. Some are so large that a sum overflows, or that four bytes of it are
/// a place in the record.
pub fn places_past_end(len: usize) -> [usize; 8] {
    let far = 1 << 32;
    [len + 1, len + 2, len + 65_536, far, far + len / 2, usize::MAX - len, usize::MAX - 1, usize::MAX]
}
