//! What a call must answer, as a value: numbers and bytes that it writes, or a refusal.

use std::borrow::Cow;

use gorvisclen::{Refused, Reply, NONE};

/// What a call must write: numbers to the front of `out`, and bytes to `to` from a place on.
pub struct Writes<'a, const N: usize> {
    pub numbers: [u64; N],
    pub at: usize,
    pub bytes: Cow<'a, [u8]>,
    /// The refusal that is replied although all this is written.
    pub refused: Option<u8>,
}

/// What a call must write, or the number of a refusal that changes nothing.
pub type Answer<'a, const N: usize> = Result<Writes<'a, N>, u8>;

/// Numbers that are written, also beside the number of a refusal.
pub type Told<const N: usize> = Result<[u64; N], (u8, [u64; N])>;

impl<'a, const N: usize> Writes<'a, N> {
    /// Numbers, and bytes from a place on.
    #[inline(always)]
    pub fn new(numbers: [u64; N], at: usize, bytes: impl Into<Cow<'a, [u8]>>) -> Self {
        let (bytes, refused) = (bytes.into(), None);
        Writes { numbers, at, bytes, refused }
    }

    /// Writes it to the lent buffers, if they are long enough. Otherwise the reply is 16, or the refusal if that is
    /// smaller.
    #[inline(always)]
    pub fn write(&self, to: &mut [u8], out: &mut [u64]) -> Reply {
        let too_short = Refused(self.refused.map_or(16, |number| number.min(16)));
        let end = self.at.checked_add(self.bytes.len()).ok_or(too_short)?;
        let part = to.get_mut(self.at..end).ok_or(too_short)?;
        let front = out.get_mut(..N).ok_or(too_short)?;
        part.copy_from_slice(&self.bytes);
        front.copy_from_slice(&self.numbers);
        self.refused.map_or(Ok(()), |number| Err(Refused(number)))
    }
}

/// Only numbers.
impl<const N: usize> From<[u64; N]> for Writes<'_, N> {
    #[inline(always)]
    fn from(numbers: [u64; N]) -> Self {
        Writes::new(numbers, 0, &[][..])
    }
}

/// Only numbers, with the refusal if there is one.
impl<const N: usize> From<Told<N>> for Writes<'_, N> {
    fn from(told: Told<N>) -> Self {
        match told {
            Ok(numbers) => numbers.into(),
            Err((number, numbers)) => Writes { refused: Some(number), ..numbers.into() },
        }
    }
}

/// A part that is copied to the front, and its length. If there is no part: no bytes, and the number `NONE`.
impl<'a> From<Option<Cow<'a, [u8]>>> for Writes<'a, 1> {
    #[inline(always)]
    fn from(part: Option<Cow<'a, [u8]>>) -> Self {
        let len = part.as_ref().map_or(NONE, |part| part.len() as u64);
        Writes::new([len], 0, part.unwrap_or_default())
    }
}

/// Replies and writes an answer. Of two refusals the smaller number wins, but 19 comes before 16.
#[inline(always)]
pub fn give<const N: usize>(answer: &Answer<N>, to: &mut [u8], out: &mut [u64]) -> Reply {
    match answer {
        Ok(writes) => writes.write(to, out),
        Err(number) if *number < 16 || *number == 19 || out.len() >= N => Err(Refused(*number)),
        Err(_) => Err(Refused(16)),
    }
}

/// Whether an answer is no refusal.
pub fn is_accepted<const N: usize>(answer: &Answer<N>) -> bool {
    answer.as_ref().is_ok_and(|writes| writes.refused.is_none())
}

/// The number of a reply, as the exported functions return it: 0, or that of the refusal.
#[inline(always)]
pub fn reply_number(reply: Reply) -> u8 {
    reply.map_or_else(|Refused(number)| number, |()| 0)
}
