//! Bytes and numbers that are printed in hex, and bytes that are written in it.

use std::fmt;
use std::ops::Deref;

/// How many bytes of a longer string are printed: at its beginning, and at its end.
const PRINTED: (usize, usize) = (80, 16);

/// Bytes printed in hex, of long strings only the beginning and the end; `-` for no bytes. Or numbers printed in hex.
#[derive(Clone, Copy)]
pub struct Hex<'a, T>(pub &'a [T]);

impl<T> Deref for Hex<'_, T> {
    type Target = [T];
    fn deref(&self) -> &[T] {
        self.0
    }
}

impl fmt::Debug for Hex<'_, u8> {
    fn fmt(&self, f: &mut fmt::Formatter<'_>) -> fmt::Result {
        let digits = |bytes: &[u8]| bytes.iter().map(|b| format!("{b:02X}")).collect::<String>();
        let (bytes, len) = (self.0, self.len());
        match len {
            0 => write!(f, "-"),
            _ if len <= PRINTED.0 + PRINTED.1 => write!(f, "{}", digits(bytes)),
            _ => {
                let [front, end] = [&bytes[..PRINTED.0], &bytes[len - PRINTED.1..]].map(digits);
                write!(f, "{front}..{end} ({len} bytes)")
            }
        }
    }
}

impl fmt::Debug for Hex<'_, u32> {
    fn fmt(&self, f: &mut fmt::Formatter<'_>) -> fmt::Result {
        write!(f, "{:X?}", self.0)
    }
}

/// Bytes from pairs of hex digits with blanks anywhere between them.
pub fn unhex(digits: &str) -> Vec<u8> {
    let digits: String = digits.split_whitespace().collect();
    let byte = |at: usize| u8::from_str_radix(&digits[at..at + 2], 16).unwrap();
    (0..digits.len()).step_by(2).map(byte).collect()
}
