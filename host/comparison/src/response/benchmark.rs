//! Times responses. The class of a status and its place in the table are beside the Rust's `Status::from_u16`, which
//! looks a word up in a longer table and has no class. The other operations have no Rust: they are beside the model,
//! plain Rust that does the same.

use gorvisclen::{RESPONSE_NUMBERS, STATUS_NUMBERS};
use original_status::Status;

use super::model::WORDS;
use super::operations::{append, data, split, status};
use crate::benchmark::{checked, ours, Size, Table, NO_LIMIT};

#[inline(never)]
fn from_u16(word: u16) -> Status {
    Status::from_u16(word)
}

/// A response with `n` data bytes.
fn response(n: usize) -> Vec<u8> {
    [&vec![0xAA; n][..], &[0x90, 0x00]].concat()
}

fn words(table: &mut Table, name: &str, words: &[u16]) {
    let samples: Vec<_> = words.iter().map(|&word| (word, status(word))).collect();
    let calls: Vec<_> = words.iter().map(|&word| status(word)).collect();
    let size = checked(name, &calls, Size { out: STATUS_NUMBERS, ..Size::default() });
    let ours = |(_, call): &(u16, _), to: &mut [u8], out: &mut [u64]| ours(call, to, out);
    table.returning((name, NO_LIMIT), size, &samples, |&(word, _)| from_u16(word), ours);
}

pub fn bench(table: &mut Table) {
    for (n, of) in [(0, "no data"), (256, "256 bytes")] {
        let response = response(n);
        table.calls(&format!("response split, {of} (model)"), NO_LIMIT, &[split(&response)], Size::default());
    }
    for (n, of) in [(16, "16 bytes"), (256, "256 bytes")] {
        let (response, size) = (response(n), Size { to: 300 + n, out: RESPONSE_NUMBERS, bytes: n });
        table.calls(&format!("response data, {of} (model)"), NO_LIMIT, &[data(&response)], size);
        table.calls(&format!("response appended, {of} (model)"), NO_LIMIT, &[append(&response, 300)], size);
    }
    words(table, "status 9000", &[0x9000]);
    words(table, "status 61xx", &[0x6110, 0x61FF]);
    words(table, "status, first of the table", &[0x6700]);
    words(table, "status, last of the table", &[0x6E00]);
    words(table, "status, every listed word", &WORDS.map(|row| row.0));
    words(table, "status, not listed", &[0x6A85, 0x6FFF, 0x9001, 0x0000]);
}
