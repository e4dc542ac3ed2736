//! The input of the builder's operations, and the Rust's builder for it. `CommandBuilder::new` makes builders in the
//! modes supported and forced. A builder that is short only is the first piece of a chain for a long buffer. But no
//! such piece has more than 255 bytes or expects Max: these are made by a function of `original_private`, which is the
//! Rust's own source with a few more functions.

use std::fmt;

use gorvisclen::{EXTENDED_SUPPORTED, SHORT_ONLY};
use original_private::command::class::Class;
use original_private::command::{short_only, CommandBuilder, ExpectedLen};

use crate::call::Input;
use crate::hex::Hex;
use crate::panics::unless_it_panics;
use crate::recording::Arguments;

/// A command to build.
#[derive(Clone, Copy)]
pub struct BuilderInput<'a> {
    pub header: [u8; 4],
    pub le: u32,
    pub mode: u8,
    pub data: &'a [u8],
}

pub type Builder<'a> = CommandBuilder<&'a [u8]>;

impl fmt::Debug for BuilderInput<'_> {
    fn fmt(&self, f: &mut fmt::Formatter<'_>) -> fmt::Result {
        let &BuilderInput { header, le, mode, data } = self;
        write!(f, "header {:?}, le {le}, mode {mode}, data {:?}", Hex(&header), Hex(data))
    }
}

impl Input for BuilderInput<'_> {
    fn add_to<'a>(&'a self, to: &mut Arguments<'a>) {
        self.header.add_to(to);
        to.number(self.le as usize);
        self.mode.add_to(to);
        to.string(self.data);
    }
}

impl<'a> BuilderInput<'a> {
    #[inline]
    pub fn new(header: [u8; 4], le: u32, mode: u8, data: &'a [u8]) -> Self {
        BuilderInput { header, le, mode, data }
    }

    /// Whether only private code of the Rust makes such a builder.
    #[inline]
    pub fn only_private_code_builds(&self) -> bool {
        let n = self.data.len();
        self.mode == SHORT_ONLY && n <= 65_535 && (n > 255 || self.le > 65_535)
    }

    /// The Rust's builder; 3 if the Rust has no such class, 13 if it panics.
    #[inline(always)]
    pub fn rust_builder(&self) -> Result<Builder<'a>, u8> {
        match self.mode {
            SHORT_ONLY => self.rust_builder_not_inlined(),
            _ if self.data.len() > 65_535 => self.rust_builder_not_inlined(),
            _ => self.rust_builder_unchecked(),
        }
    }

    /// The same, if that takes long or panics.
    #[inline(never)]
    fn rust_builder_not_inlined(&self) -> Result<Builder<'a>, u8> {
        unless_too_long(self.data, || self.rust_builder_unchecked())
    }

    #[inline(always)]
    fn rust_builder_unchecked(&self) -> Result<Builder<'a>, u8> {
        let [class, instruction, p1, p2] = self.header;
        let class = Class::try_from(class).map_err(|_| 3)?;
        let (instruction, data) = (instruction.into(), self.data);
        let le = u16::try_from(self.le).map_or(ExpectedLen::Max, ExpectedLen::Ne);
        let new = || CommandBuilder::new(class, instruction, p1, p2, data, le);
        Ok(match self.mode {
            EXTENDED_SUPPORTED => new(),
            SHORT_ONLY if self.only_private_code_builds() => short_only(class, instruction, [p1, p2], data, le),
            SHORT_ONLY => {
                // A chain takes no Max. It gets one here only if it panics.
                let (le, long) = (self.le.min(65_535) as u16, Some(usize::MAX / 2));
                let mut chain = CommandBuilder::new_non_extended(class, instruction, p1, p2, data, le, long);
                let whole = chain.next().unwrap();
                assert!(chain.next().is_none());
                whole
            }
            _ => new().force_extended(),
        })
    }
}

/// What the Rust makes with these data; 13 if they are too long, so that it panics.
#[inline(always)]
pub fn unless_too_long<T>(data: &[u8], make: impl FnOnce() -> Result<T, u8>) -> Result<T, u8> {
    match data.len() {
        0..=65_535 => make(),
        _ => Err(unless_it_panics(make).map_or(13, |made| made.err().expect("a panic of the Rust's"))),
    }
}

/// The bytes that the Rust writes for a builder.
pub fn bytes_of(builder: &Builder) -> Vec<u8> {
    let mut bytes = vec![0; builder.required_len()];
    let mut rest = &mut bytes[..];
    builder.serialize_into(&mut rest).unwrap();
    assert!(rest.is_empty());
    bytes
}

/// The number of an expected length: 65,536 for Max.
pub fn expected_number(le: ExpectedLen) -> u64 {
    match le {
        ExpectedLen::Ne(n) => n.into(),
        ExpectedLen::Max => gorvisclen::EXPECTED_MAX.into(),
    }
}
