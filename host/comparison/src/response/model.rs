//! A model of responses, from request 1 of document 02: how one is split, the class of a status word, and the table of
//! listed words.

use gorvisclen::{CHECKING_ERROR, EXECUTION_ERROR, LISTED_WORDS, NORMAL, UNKNOWN, WARNING};

/// The listed words, in the order of document 02. Their names are those of the Rust's variants.
pub const WORDS: [(u16, &str); LISTED_WORDS] = [
    (0x6700, "WrongLength"),
    (0x6881, "LogicalChannelNotSupported"),
    (0x6882, "SecureMessagingNotSupported"),
    (0x6883, "LastCommandOfChainExpected"),
    (0x6884, "CommandChainingNotSupported"),
    (0x6981, "CommandIncompatibleFileStructure"),
    (0x6982, "SecurityStatusNotSatisfied"),
    (0x6983, "OperationBlocked"),
    (0x6984, "ReferenceDataNotUsable"),
    (0x6985, "ConditionsOfUseNotSatisfied"),
    (0x6986, "CommandNotAllowedNoEf"),
    (0x6A80, "IncorrectDataParameter"),
    (0x6A81, "FunctionNotSupported"),
    (0x6A82, "NotFound"),
    (0x6A83, "RecordNotFound"),
    (0x6A84, "NotEnoughMemory"),
    (0x6A86, "IncorrectP1OrP2Parameter"),
    (0x6A88, "KeyReferenceNotFound"),
    (0x6B00, "WrongParameters"),
    (0x6D00, "InstructionNotSupportedOrInvalid"),
    (0x6E00, "ClassNotSupported"),
];

/// How many words each class has, by its number.
pub const WORDS_OF_CLASS: [usize; 5] = [257, 512, 768, 2_304, 61_695];

/// The data of a response, and its two status bytes.
pub fn split(response: &[u8]) -> Result<(&[u8], [u8; 2]), u8> {
    match response {
        [data @ .., sw1, sw2] => Ok((data, [*sw1, *sw2])),
        _ => Err(22),
    }
}

/// How many bytes are held if `new` more come into a room of this length.
pub fn held_with(held: usize, new: usize, room_len: usize) -> Result<usize, u8> {
    held.checked_add(new).filter(|&sum| sum <= room_len).ok_or(23)
}

/// The class of a status word.
pub fn class(word: u16) -> u64 {
    match word {
        0x9000 | 0x6100..=0x61FF => NORMAL,
        0x6200..=0x63FF => WARNING,
        0x6400..=0x66FF => EXECUTION_ERROR,
        0x6700..=0x6FFF => CHECKING_ERROR,
        _ => UNKNOWN,
    }
}

/// The place of a word in the table, if it is listed.
pub fn place(word: u16) -> Option<usize> {
    WORDS.iter().position(|row| row.0 == word)
}
