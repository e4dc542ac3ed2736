//! The original command.rs and the files below it, unchanged, in a module with a few functions that use its private
//! items.
//!
//! One makes a builder that is short only with any data and any expected length. Callers of the Rust get such builders
//! only as pieces of a chain, with at most 255 bytes and never Max. The others give the fields of a builder, make a
//! chain from the rest of a command, and give the rest that a chain has not cut yet.
#![no_std]

/// As in the crate's lib.rs.
pub type Data<const S: usize> = heapless::Vec<u8, S>;

pub mod command {
    include!(concat!(env!("OUT_DIR"), "/command.rs"));
    include!("private_access.rs");
}
