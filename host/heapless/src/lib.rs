//! A stand-in for heapless 0.9 with only what the original Rust uses. The comment of each item says how the real one
//! behaves. Here elements must be `Copy + Default`; so no memory is uninitialised, as it is in the real one.
#![no_std]

pub mod vec;

pub use vec::Vec;

/// As in heapless: the error of an operation that would exceed the capacity, with nothing in it.
#[derive(Clone, Copy, Debug, PartialEq, Eq)]
pub struct CapacityError;

/// As in heapless: the integer type that a vector keeps its length in; `usize` is its default and the only one here.
pub trait LenType: Copy {
    const ZERO: Self;
    fn from_usize(n: usize) -> Self;
    fn into_usize(self) -> usize;
}

impl LenType for usize {
    const ZERO: Self = 0;
    fn from_usize(n: usize) -> Self {
        n
    }
    fn into_usize(self) -> usize {
        self
    }
}
