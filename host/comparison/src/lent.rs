//! Buffers that are lent to a call, and the outcome of a call: its reply and all lent memory after it.

use std::fmt;

use gorvisclen::{Refused, Reply};

use crate::hex::Hex;

/// How many elements are before the lent part of a buffer, and how many after it.
const MARGIN: usize = 4;

/// A buffer of which a part is lent. All of it is filled with a pattern, so that a write outside of the part is seen.
#[derive(PartialEq)]
pub struct Lent<T> {
    whole: Vec<T>,
}

impl<T: Clone> Clone for Lent<T> {
    fn clone(&self) -> Self {
        let whole = self.whole.clone();
        Lent { whole }
    }

    fn clone_from(&mut self, other: &Self) {
        self.whole.clone_from(&other.whole);
    }
}

impl<T: Copy> Lent<T> {
    fn filled(len: usize, pattern: impl Fn(usize) -> T) -> Self {
        Lent { whole: (0..len + 2 * MARGIN).map(pattern).collect() }
    }

    /// The part that is lent.
    pub fn part(&mut self) -> &mut [T] {
        let end = self.whole.len() - MARGIN;
        &mut self.whole[MARGIN..end]
    }

    /// The element of the part at `i`.
    pub fn at(&self, i: usize) -> T {
        self.whole[MARGIN + i]
    }

    /// The length of the part.
    pub fn len(&self) -> usize {
        self.whole.len() - 2 * MARGIN
    }
}

/// Numbers to lend. No operation writes any of these values: they are greater than a place in any record.
pub fn numbers(len: usize) -> Lent<u64> {
    Lent::filled(len, |i| (1 << 48) + i as u64)
}

/// Bytes to lend.
pub fn bytes(len: usize) -> Lent<u8> {
    Lent::filled(len, |i| 0xA5 ^ (i as u8).wrapping_mul(29))
}

/// The outcome of a call: its reply, and all lent memory after it.
#[derive(Clone, PartialEq)]
pub struct Outcome {
    pub reply: Reply,
    pub out: Lent<u64>,
    to: Lent<u8>,
    /// What was lent to be read.
    input: Vec<u8>,
}

impl Outcome {
    pub fn new(reply: Reply, out: Lent<u64>, to: Lent<u8>) -> Self {
        let input = Vec::new();
        Outcome { reply, out, to, input }
    }

    /// With what was lent to be read, as it is after the call.
    pub fn with_input(mut self, input: Vec<u8>) -> Self {
        self.input = input;
        self
    }

    /// The first difference from another outcome of the same call. Places count from the beginning of the lent part.
    pub fn first_difference(&self, other: &Outcome) -> String {
        let place = |name: &str, at: usize| format!("{name} at {}", at as isize - MARGIN as isize);
        if self.reply != other.reply {
            "the reply".to_string()
        } else if let Some(at) = differ(&self.out.whole, &other.out.whole) {
            place("out", at)
        } else if let Some(at) = differ(&self.to.whole, &other.to.whole) {
            place("to", at)
        } else {
            "what was lent to be read".to_string()
        }
    }
}

/// The first place at which two slices of the same length differ.
fn differ<T: PartialEq>(one: &[T], other: &[T]) -> Option<usize> {
    one.iter().zip(other).position(|(a, b)| a != b)
}

impl fmt::Display for Outcome {
    fn fmt(&self, f: &mut fmt::Formatter<'_>) -> fmt::Result {
        match self.reply {
            Ok(()) => write!(f, "done")?,
            Err(Refused(n)) => write!(f, "refused {n}")?,
        }
        let [to, input] = [Hex(&self.to.whole), Hex(&self.input)];
        write!(f, "; out {:?}; to {to:?}; read {input:?}", self.out.whole)
    }
}

/// Places from which `need` bytes do not fit into a buffer of `before + need` bytes. Some are so large that a sum
/// overflows.
pub fn places_past(before: usize, need: usize) -> [usize; 7] {
    let exact = before + need;
    let wrapping = (usize::MAX - need).wrapping_add(1);
    [exact, exact + 1, exact + 65_536, before + (1 << 32), usize::MAX, wrapping, wrapping.wrapping_add(before)]
}
