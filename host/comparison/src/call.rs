//! A call of an exported function, described once: its input, the call of the library, and the answer that it must
//! give. That answer comes from the Rust or from a model. The comparison, the recorder and the benchmark all run calls
//! described like this.

use std::fmt::Debug;

use gorvisclen::Reply;

use crate::answer::{give, Answer};
use crate::hex::Hex;
use crate::lent::{bytes, numbers, Lent, Outcome};
use crate::recording::{Arguments, Operation};
use crate::tally::{Labels, Tally};

/// The input of a call: all its arguments except the buffers that it writes to. It is printed if the call differs.
pub trait Input: Debug {
    /// Adds its strings and its numbers, each in the order of the exported function.
    fn add_to<'a>(&'a self, _: &mut Arguments<'a>) {}

    /// The bytes that are lent to be read.
    fn lent_bytes(&self) -> Vec<u8> {
        arguments(self).bytes()
    }
}

fn arguments<I: Input + ?Sized>(input: &I) -> Arguments<'_> {
    let mut arguments = Arguments::default();
    input.add_to(&mut arguments);
    arguments
}

impl Input for () {}

impl Input for u8 {
    fn add_to<'a>(&'a self, arguments: &mut Arguments<'a>) {
        arguments.number((*self).into());
    }
}

impl Input for usize {
    fn add_to<'a>(&'a self, arguments: &mut Arguments<'a>) {
        arguments.number(*self);
    }
}

impl<T: Input, const N: usize> Input for [T; N] {
    fn add_to<'a>(&'a self, arguments: &mut Arguments<'a>) {
        self.iter().for_each(|n| n.add_to(arguments));
    }
}

impl Input for Hex<'_, u8> {
    fn add_to<'a>(&'a self, arguments: &mut Arguments<'a>) {
        arguments.string(self);
    }
}

impl<A: Input, B: Input> Input for (A, B) {
    fn add_to<'a>(&'a self, arguments: &mut Arguments<'a>) {
        self.0.add_to(arguments);
        self.1.add_to(arguments);
    }

    fn lent_bytes(&self) -> Vec<u8> {
        [self.0.lent_bytes(), self.1.lent_bytes()].concat()
    }
}

/// One call, which writes N numbers.
pub trait Call<const N: usize>: Debug {
    /// The labels that it is counted under, if `to` has this length and this is the answer.
    fn labels(&self, to_len: usize, answer: &Answer<N>) -> Labels;

    /// The bytes that are lent to be read.
    fn input_bytes(&self) -> Vec<u8>;

    /// The operation that it is recorded as, if it is recorded, and its arguments.
    fn recorded(&self) -> Option<(Operation, Arguments<'_>)>;

    /// The call of the library.
    fn ours(&self, to: &mut [u8], out: &mut [u64]) -> Reply;

    /// What the Rust answers, if `to` has this length.
    fn rust(&self, to_len: usize) -> Answer<'_, N>;

    /// What must be answered: by the Rust, or by a model if the Rust does not have the operation.
    fn reference(&self, to_len: usize) -> Answer<'_, N>;

    /// Compares it with the reference, with `to` and `out` of these lengths.
    fn compare(&self, tally: &mut Tally, to_len: usize, out_len: usize) {
        let answer = self.reference(to_len);
        let labels = self.labels(to_len, &answer);
        self.compare_with(tally, labels, &answer, &bytes(to_len), out_len);
    }

    /// The same for a call without `to`.
    fn compare_numbers(&self, tally: &mut Tally, out_len: usize) {
        self.compare(tally, 0, out_len);
    }

    /// The same, but the bytes that are lent to be read are not compared, because they are many.
    fn compare_output_only(&self, tally: &mut Tally, out_len: usize) {
        let (answer, before) = (self.reference(0), bytes(0));
        let labels = self.labels(0, &answer);
        self.run(tally, labels, &answer, (&before, out_len), false);
    }

    /// Compares it with this answer. `before` is what `to` holds before the call.
    fn compare_with(&self, tally: &mut Tally, labels: Labels, answer: &Answer<N>, before: &Lent<u8>, out_len: usize) {
        self.run(tally, labels, answer, (before, out_len), true);
    }

    /// Makes the call, compares it with the answer, and records it if calls are recorded.
    fn run(
        &self,
        tally: &mut Tally,
        labels: Labels,
        answer: &Answer<N>,
        (before, out_len): (&Lent<u8>, usize),
        compare_input: bool,
    ) {
        let outcome = |call: &dyn Fn(&mut [u8], &mut [u64]) -> Reply| {
            let (mut to, mut out) = (before.clone(), numbers(out_len));
            let reply = call(to.part(), out.part());
            let input = if compare_input { self.input_bytes() } else { Vec::new() };
            Outcome::new(reply, out, to).with_input(input)
        };
        let reference = outcome(&|to, out| give(answer, to, out));
        let ours = outcome(&|to, out| self.ours(to, out));
        let to_len = before.len();
        let input = || format!("{self:?}, to of {to_len} bytes, out of {out_len} numbers");
        tally.compare(labels, input, &reference, &ours);
        // In the recorded file every call has room for all its numbers.
        if let Some(recording) = tally.recording.as_mut().filter(|_| out_len >= N) {
            let recorded = self.recorded().into_iter();
            recorded.for_each(|(operation, arguments)| recording.add(operation, &arguments, to_len, answer));
        }
    }

    /// Compares it with an answer that is written in a table, under a label of its own; then with its reference.
    fn compare_with_table(&self, tally: &mut Tally, label: &'static str, answer: &Answer<N>, to_len: usize) {
        self.compare_with(tally, (label, &[]), answer, &bytes(to_len), N);
        self.compare(tally, to_len, N);
    }
}

/// Other labels for a call, by its input, the length of `to` and the answer; or none.
type OtherLabels<I, const N: usize> = fn(&I, usize, &Answer<N>) -> Option<Labels>;

/// The description of a call.
pub struct Description<I, O, R, const N: usize> {
    input: I,
    labels: Labels,
    ours: O,
    rust: R,
    other_labels: Option<OtherLabels<I, N>>,
    reference: Option<fn(&I, usize) -> Answer<'_, N>>,
    operation: Option<Operation>,
}

/// Describes a call by its labels, its input, the call of the library and the answer of the Rust. Both functions get
/// the input as an argument, so that they borrow from it.
#[inline(always)]
pub fn call<I: Input, const N: usize, O, R>(labels: Labels, input: I, ours: O, rust: R) -> Description<I, O, R, N>
where
    O: Fn(&I, &mut [u8], &mut [u64]) -> Reply,
    R: Fn(&I, usize) -> Answer<'_, N>,
{
    Description { input, labels, ours, rust, other_labels: None, reference: None, operation: None }
}

impl<I, O, R, const N: usize> Description<I, O, R, N> {
    /// With labels that depend on the answer, or on the length of `to`.
    pub fn labelled_by(mut self, other_labels: OtherLabels<I, N>) -> Self {
        self.other_labels = Some(other_labels);
        self
    }

    /// Recorded as an operation, if the Rust has it.
    pub fn recorded_as(mut self, operation: impl Into<Option<Operation>>) -> Self {
        self.operation = operation.into();
        self
    }

    /// With a reference that is not only the answer of the Rust.
    pub fn with_reference(mut self, reference: fn(&I, usize) -> Answer<'_, N>) -> Self {
        self.reference = Some(reference);
        self
    }
}

impl<I: Debug, O, R, const N: usize> Debug for Description<I, O, R, N> {
    fn fmt(&self, f: &mut std::fmt::Formatter<'_>) -> std::fmt::Result {
        self.input.fmt(f)
    }
}

impl<I: Input, O, R, const N: usize> Call<N> for Description<I, O, R, N>
where
    O: Fn(&I, &mut [u8], &mut [u64]) -> Reply,
    R: Fn(&I, usize) -> Answer<'_, N>,
{
    fn labels(&self, to_len: usize, answer: &Answer<N>) -> Labels {
        let other = self.other_labels.and_then(|other_labels| other_labels(&self.input, to_len, answer));
        other.unwrap_or(self.labels)
    }

    fn input_bytes(&self) -> Vec<u8> {
        self.input.lent_bytes()
    }

    fn recorded(&self) -> Option<(Operation, Arguments<'_>)> {
        self.operation.map(|operation| (operation, arguments(&self.input)))
    }

    #[inline(always)]
    fn ours(&self, to: &mut [u8], out: &mut [u64]) -> Reply {
        (self.ours)(&self.input, to, out)
    }

    #[inline(always)]
    fn rust(&self, to_len: usize) -> Answer<'_, N> {
        (self.rust)(&self.input, to_len)
    }

    fn reference(&self, to_len: usize) -> Answer<'_, N> {
        match self.reference {
            Some(reference) => reference(&self.input, to_len),
            None => self.rust(to_len),
        }
    }
}
