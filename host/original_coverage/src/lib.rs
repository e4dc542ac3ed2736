//! The ported files of the Rust with a counter in every branch (build.rs says what a branch is), with the names of
//! `original` and `original_private`.

use std::cell::Cell;

/// As in the crate's lib.rs.
pub type Data<const S: usize> = heapless::Vec<u8, S>;

pub mod aid {
    include!(concat!(env!("OUT_DIR"), "/aid.rs"));
}

pub mod command {
    include!(concat!(env!("OUT_DIR"), "/command.rs"));
    include!("../../original_private/src/private_access.rs");
}

pub mod tlv {
    include!(concat!(env!("OUT_DIR"), "/tlv.rs"));
}

/// A branch: its file and line, its function, and its text in the source.
pub struct Branch {
    pub file: &'static str,
    pub line: u32,
    pub function: &'static str,
    pub text: &'static str,
}

include!(concat!(env!("OUT_DIR"), "/branches.rs"));

thread_local! {
    static COUNTS: [Cell<u64>; BRANCHES.len()] = const { [const { Cell::new(0) }; BRANCHES.len()] };
}

/// How often each branch was taken in this thread.
pub fn counts() -> Vec<u64> {
    COUNTS.with(|counts| counts.iter().map(Cell::get).collect())
}

/// Counts a branch.
#[inline]
fn hit(n: usize) {
    COUNTS.with(|counts| counts[n].set(counts[n].get() + 1));
}

/// Counts an early exit by `?`.
trait Early {
    fn early(self, n: usize) -> Self;
}

impl<T> Early for Option<T> {
    #[inline]
    fn early(self, n: usize) -> Self {
        if self.is_none() {
            hit(n);
        }
        self
    }
}

impl<T, E> Early for Result<T, E> {
    #[inline]
    fn early(self, n: usize) -> Self {
        if self.is_err() {
            hit(n);
        }
        self
    }
}
