//! The ported files of the crate iso7816 0.2.2, compiled unchanged from `../shared/docs/src` beside the repository.
//! This file replaces the crate's own lib.rs, of which `response` is not ported.
#![no_std]

/// As in the crate's lib.rs.
pub type Data<const S: usize> = heapless::Vec<u8, S>;

// Skipped by rustfmt, which would otherwise format the files there.
#[rustfmt::skip]
#[path = "../../../../shared/docs/src"]
mod original {
    pub mod aid;
    pub mod command;
    pub mod tlv;
}

pub use original::{aid, command, tlv};
