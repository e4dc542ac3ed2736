//! A model of commands to build, from document 01 ("Building and cutting"). The Rust lets no caller build one that is
//! short only and has more than 255 data bytes or Max: there this model is the reference. Everywhere else it must agree
//! with the Rust.

use gorvisclen::{EXPECTED_MAX, EXTENDED_SUPPORTED, SHORT_ONLY};

use super::input::BuilderInput;

impl BuilderInput<'_> {
    /// The expected length in the bytes of the command: Max is 65,536, and short only lowers it to at most 256.
    pub fn written_expected_len(&self) -> u32 {
        self.le.min(if self.mode == SHORT_ONLY { 256 } else { EXPECTED_MAX })
    }

    /// The expected length for equality with a command that is read: not lowered, and Max is 65,535.
    pub fn compared_expected_len(&self) -> u32 {
        self.le.min(65_535)
    }

    /// The fields Lc and Le.
    pub fn length_fields(&self) -> [Vec<u8>; 2] {
        let (n, le, forced) = (self.data.len(), self.written_expected_len(), self.mode > EXTENDED_SUPPORTED);
        let [.., high, low] = n.to_be_bytes();
        let lc = match n {
            0 => vec![],
            1..=255 if le <= 256 && !forced => vec![low],
            _ => vec![0, high, low],
        };
        // 256 in one byte, and Max, become zeros.
        let [.., high, low] = le.to_be_bytes();
        let le = match (lc.len(), le) {
            (_, 0) => vec![],
            (3, _) => vec![high, low],
            (1, _) => vec![low],
            (_, 1..=256) if !forced => vec![low],
            _ => vec![0, high, low],
        };
        [lc, le]
    }

    /// The length of the command.
    pub fn required_len(&self) -> usize {
        4 + self.data.len() + self.length_fields().iter().map(Vec::len).sum::<usize>()
    }

    /// The bytes of the command.
    pub fn bytes(&self) -> Vec<u8> {
        let [lc, le] = self.length_fields();
        [&self.header, &lc[..], self.data, &le].concat()
    }
}
