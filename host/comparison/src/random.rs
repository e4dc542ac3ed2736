//! Random inputs: a small generator (splitmix64) that gives the same numbers for the same seed.

use std::rc::Rc;

pub struct Random {
    state: u64,
    long_string: Option<Rc<[u8]>>,
    /// Longer strings than this are not random: each byte is the byte before it plus the same step.
    longest_random: usize,
}

impl Random {
    pub fn from_state(state: u64) -> Self {
        Random { state, long_string: None, longest_random: usize::MAX }
    }

    /// One whose strings take few bytes in the recorded file.
    pub fn for_recording(state: u64) -> Self {
        Random { longest_random: 12, ..Random::from_state(state) }
    }

    /// The one of a job, by its number, in a run with a seed.
    pub fn of_job(seed: u64, job: u64) -> Self {
        let of_seed = Random::from_state(seed).number();
        let of_job = Random::from_state(of_seed.wrapping_add(job)).number();
        Random::from_state(of_job)
    }

    pub fn number(&mut self) -> u64 {
        self.state = self.state.wrapping_add(0x9E37_79B9_7F4A_7C15);
        let mut z = self.state;
        z = (z ^ (z >> 30)).wrapping_mul(0xBF58_476D_1CE4_E5B9);
        z = (z ^ (z >> 27)).wrapping_mul(0x94D0_49BB_1331_11EB);
        z ^ (z >> 31)
    }

    /// A long string, the same at every call: 65,546 bytes, which is more than data can have.
    pub fn long_string(&mut self) -> Rc<[u8]> {
        if self.long_string.is_none() {
            self.long_string = Some(self.bytes(65_546).into());
        }
        self.long_string.clone().unwrap()
    }

    /// A number below `end`, which is not 0.
    pub fn below(&mut self, end: usize) -> usize {
        (self.number() % end as u64) as usize
    }

    pub fn byte(&mut self) -> u8 {
        self.number() as u8
    }

    /// One of a list, which is not empty.
    pub fn one_of<T: Copy>(&mut self, list: &[T]) -> T {
        list[self.below(list.len())]
    }

    pub fn bytes(&mut self, len: usize) -> Vec<u8> {
        if len <= self.longest_random {
            return (0..len).map(|_| self.byte()).collect();
        }
        let (first, step) = (self.byte(), self.byte() | 1);
        let next = |byte: &u8| Some(byte.wrapping_add(step));
        std::iter::successors(Some(first), next).take(len).collect()
    }

    /// A copy with one byte changed; of no bytes, no bytes.
    pub fn one_byte_off(&mut self, bytes: &[u8]) -> Vec<u8> {
        let mut copy = bytes.to_vec();
        if !copy.is_empty() {
            let at = self.below(copy.len());
            copy[at] ^= 1 + self.below(255) as u8;
        }
        copy
    }

    /// A copy with one to three changes: a byte changed, removed or inserted.
    pub fn damaged(&mut self, bytes: &[u8]) -> Vec<u8> {
        let mut copy = bytes.to_vec();
        for _ in 0..1 + self.below(3) {
            match self.below(3) {
                0 => copy = self.one_byte_off(&copy),
                1 if !copy.is_empty() => {
                    let at = self.below(copy.len());
                    copy.remove(at);
                }
                _ => {
                    let at = self.below(copy.len() + 1);
                    copy.insert(at, self.byte());
                }
            }
        }
        copy
    }
}
