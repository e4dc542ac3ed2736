//! The functions that the proved library exports, each as a safe Rust function. The name is the same without the prefix
//! `gorvisclen_`.
//!
//! Every function replies to every input: `Ok`, or `Err` with the number of a refusal. A refusal changes no lent
//! memory, except for 18 (see `command_extend`), for 11 and 12 of an object and of a lookup, which tell where they
//! happened (see `take_data_object`, `get_data_object`, `value` and `get_indexed`), and for 11 and 12 of a record in
//! chunks, which tell the state after them (see `ChunkWalk`). Lent memory before and after the numbers or bytes that
//! are written does not change.
//!
//! | No. | Replied exactly when |
//! |---|---|
//! | 1 | the command is under 4 bytes |
//! | 2 | the command's data are longer than the room for an owned copy |
//! | 3 | the class byte is 0xFF |
//! | 4 | the first byte after the command's header is not zero, and no short case fits |
//! | 5 | the first byte after the command's header is zero, and no case fits |
//! | 6 to 10 | the AID is empty; over 16 bytes; truncated above its length; national under 5; international under 5 |
//! | 11 | the end was reached at an object boundary: no byte is left there, or in the standard reading only zeros |
//! | 12 | an object starts here but cannot be read; a tag or a length alone cannot be read; chunks end in an object |
//! | 13 | the data of the command to build are above 65,535 bytes |
//! | 14 | splitting one step: a buffer under 4, or no room for data in it; a chain: a buffer under 10 |
//! | 15 | extended length is forced, but unsupported |
//! | 16 | a buffer for the answer is too short; an object, a command, an index or a record does not fit from a place |
//! | 17 | the piece does not continue the open chain |
//! | 18 | the held data and the new data together exceed the room |
//! | 19 | the value to write is above 65,535 bytes |
//! | 21 | standard reading: the command has an extended Lc of zero and an Le |
//! | 22 | the response is under two bytes |
//! | 23 | the collected data and the new data together exceed the room |
//! | 24 | the record to index is above 65,535 bytes, or more than 255 objects can be read at its top level |
//! | 25 | the index has another form, or the entry that a lookup uses lies outside of the record |
//! | 26 | the record is not of the calibration profile; its serial to write has no bytes or more than 16 |
//! | 27 | there is no such date in the years 2000 to 2099: the due date of a calibration record, or a given one |
//!
//! If several apply, the smallest is replied. But 2 comes after 3, 4 and 5, 16 comes after 19 when an object is
//! written, 16 of the buffer comes after 24 when an index is written, and 16 of the bytes copied or written comes after
//! 26 and 27.

mod aid;
mod builder;
mod calibration;
mod class;
mod collect;
mod command;
mod reassembler;
mod response;
mod splitter;
mod tlv;
mod tlv_chunks;
mod tlv_index;

pub use aid::{aid, aid_matches, aid_part, aid_whole, AID_NUMBERS};
pub use builder::{
    builder_eq, force_extended, required_len, serialize_into, EXPECTED_MAX, EXTENDED_FORCED, EXTENDED_SUPPORTED,
    SHORT_ONLY,
};
pub use calibration::{
    due_shown, due_shown_from, has_lapsed, profile_serial, put_profile, read_profile, CALIBRATION_NUMBERS, CARD, DESK,
    DUE_BYTES, PROFILE_BYTES, PROFILE_NUMBERS, SHOWN_NUMBERS,
};
pub use class::{class, class_as_chained, class_constants, range, CLASS_CONSTANTS, CLASS_NUMBERS};
pub use collect::{collect_start, collected, Collection, COLLECTION_NUMBERS, COLLECT_NUMBERS, COMMAND, GET_RESPONSE};
pub use command::{command, command_data, command_extend, command_owned, COMMAND_NUMBERS, OWNED_NUMBERS};
pub use reassembler::{joined_data, Reassembler, JOIN_NUMBERS, STATE_NUMBERS};
pub use response::{
    response_append, response_data, response_split, status, status_name, CHECKING_ERROR, EXECUTION_ERROR, LISTED_WORDS,
    NORMAL, RESPONSE_NUMBERS, STATUS_NUMBERS, UNKNOWN, WARNING,
};
pub use splitter::{should_split, Pieces, BUFFER_LEN, PIECE_NUMBERS, SPLIT_NUMBERS};
pub use tlv::{
    get_data_object, put_data_object, take_data_object, take_len, take_tag, value, LEN_NUMBERS, LOOKUP_NUMBERS,
    OBJECT_NUMBERS, TAG_NUMBERS,
};
pub use tlv_chunks::{ChunkWalk, CHUNK_NUMBERS};
pub use tlv_index::{build_index, check_index, get_indexed, INDEX_BYTES, INDEX_NUMBERS};

/// The number of a refusal.
#[derive(Clone, Copy, Debug, PartialEq, Eq)]
pub struct Refused(pub u8);

/// What an exported function replies.
pub type Reply = Result<(), Refused>;

/// The number that means "there is none", instead of a channel, the length of a part, or a place in a table.
pub const NONE: u64 = 256;

/// The reading of commands and BER records that the Rust crate has. In records it skips no zero bytes: 00 is a tag.
pub const CRATE_READING: u8 = 0;

/// The reading of the standard. Every other number except 0 means the same. In records it skips zero bytes wherever an
/// object may start: in front of each object and after the last one, in the record and in each value that is entered.
/// It skips none in a tag, in a length, between them, or in a value that is not entered. 00 is no tag.
pub const STANDARD_READING: u8 = 1;

/// Calls an exported function by its name without the prefix, and returns the number of its reply. Each argument has a
/// kind: the type of a number; `header` or `tag`, passed as its bytes; `date`, passed as its three numbers; `bytes` or
/// `tags` to read, `room` or `numbers` to write, passed as a pointer and a length.
macro_rules! call {
    ($name:ident $(, $kind:ident $arg:expr)*) => {
        crate::call!(@ $name [] [] $($kind $arg,)*)
    };
    (@ $name:ident [$($type:ty,)*] [$($value:expr,)*]) => {{
        extern "C" {
            #[link_name = concat!("gorvisclen_", stringify!($name))]
            fn exported($(_: $type),*) -> u8;
        }
        // Safety: the pointers and lengths are those of slices that are borrowed for the call, and the call keeps none
        // of them.
        unsafe { exported($($value),*) }
    }};
    (@ $name:ident [$($t:tt)*] [$($v:tt)*] header $arg:expr, $($more:tt)*) => {
        crate::call!(@ $name [$($t)* u8, u8, u8, u8,] [$($v)* $arg[0], $arg[1], $arg[2], $arg[3],] $($more)*)
    };
    (@ $name:ident [$($t:tt)*] [$($v:tt)*] tag $arg:expr, $($more:tt)*) => {
        crate::call!(@ $name [$($t)* u8, u8, u8,] [$($v)* $arg[0], $arg[1], $arg[2],] $($more)*)
    };
    (@ $name:ident [$($t:tt)*] [$($v:tt)*] date $arg:expr, $($more:tt)*) => {
        crate::call!(@ $name [$($t)* u32, u32, u32,] [$($v)* $arg[0], $arg[1], $arg[2],] $($more)*)
    };
    (@ $name:ident [$($t:tt)*] [$($v:tt)*] bytes $arg:expr, $($more:tt)*) => {
        crate::call!(@ $name [$($t)* *const u8, usize,] [$($v)* $arg.as_ptr(), $arg.len(),] $($more)*)
    };
    (@ $name:ident [$($t:tt)*] [$($v:tt)*] tags $arg:expr, $($more:tt)*) => {
        crate::call!(@ $name [$($t)* *const u32, usize,] [$($v)* $arg.as_ptr(), $arg.len(),] $($more)*)
    };
    (@ $name:ident [$($t:tt)*] [$($v:tt)*] room $arg:expr, $($more:tt)*) => {
        crate::call!(@ $name [$($t)* *mut u8, usize,] [$($v)* $arg.as_mut_ptr(), $arg.len(),] $($more)*)
    };
    (@ $name:ident [$($t:tt)*] [$($v:tt)*] numbers $arg:expr, $($more:tt)*) => {
        crate::call!(@ $name [$($t)* *mut u64, usize,] [$($v)* $arg.as_mut_ptr(), $arg.len(),] $($more)*)
    };
    (@ $name:ident [$($t:tt)*] [$($v:tt)*] $type:ident $arg:expr, $($more:tt)*) => {
        crate::call!(@ $name [$($t)* $type,] [$($v)* $arg,] $($more)*)
    };
}
use call;

/// The Rust type for each kind of argument.
macro_rules! kind {
    (header) => {
        [u8; 4]
    };
    (tag) => {
        [u8; 3]
    };
    (date) => {
        [u32; 3]
    };
    (bytes) => {
        &[u8]
    };
    (tags) => {
        &[u32]
    };
    (room) => {
        &mut [u8]
    };
    (numbers) => {
        &mut [u64]
    };
    ($type:ident) => {
        $type
    };
}
use kind;

/// Defines a safe function for each exported function, by its name and arguments.
macro_rules! exported {
    ($($(#[$about:meta])* fn $name:ident($($arg:ident: $kind:ident),*);)*) => {$(
        $(#[$about])*
        #[inline]
        pub fn $name($($arg: crate::kind!($kind)),*) -> crate::Reply {
            crate::reply(crate::call!($name $(, $kind $arg)*))
        }
    )*};
}
use exported;

/// The reply with this number.
#[inline]
fn reply(number: u8) -> Reply {
    match number {
        0 => Ok(()),
        n => Err(Refused(n)),
    }
}
