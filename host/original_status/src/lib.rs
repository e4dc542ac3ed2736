//! The file response/status.rs of the crate iso7816 0.2.2, compiled unchanged from `../shared/docs/src` beside the
//! repository. It is not ported: only `from_u16` and the names of its variants are used, as a second table of the
//! listed words. So its branches are not counted, and it is a package of its own, beside `original` and
//! `original_coverage`.
#![no_std]

/// As in the crate's lib.rs.
pub type Data<const S: usize> = heapless::Vec<u8, S>;

// Skipped by rustfmt, which would otherwise format the file there.
#[rustfmt::skip]
#[path = "../../../../shared/docs/src/response"]
mod response {
    pub mod status;
}

pub use response::status::Status;
