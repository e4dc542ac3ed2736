//! Cases with their answers from request 1: splitting, classes, and words that are or are not in the table.

use gorvisclen::{CHECKING_ERROR, EXECUTION_ERROR, NONE, NORMAL, UNKNOWN, WARNING};

use super::operations::{append, data, name, split, status};
use crate::answer::Writes;
use crate::call::Call;
use crate::tally::Tally;

const SPLIT: &str = "response::split, case by case (checked against document 02)";
const DATA: &str = "response::data, case by case (checked against document 02)";
const APPEND: &str = "response::append, case by case (checked against document 02)";
const STATUS: &str = "status, case by case (checked against document 02)";
const NAME: &str = "status, its name, case by case (checked against document 02)";

/// A response, and its data and its status or its refusal.
type Row = (&'static [u8], Result<(&'static [u8], [u8; 2]), u8>);

/// Responses that are split. The data may look like a status.
const SPLITS: [Row; 6] = [
    (&[0x90, 0x00], Ok((&[], [0x90, 0x00]))),
    (&[0x90], Err(22)),
    (&[], Err(22)),
    (&[0x61, 0x10, 0x90, 0x00], Ok((&[0x61, 0x10], [0x90, 0x00]))),
    (&[0x90, 0x00, 0x61], Ok((&[0x90], [0x00, 0x61]))),
    (&[0x01, 0x02, 0x03, 0x6A, 0x82], Ok((&[0x01, 0x02, 0x03], [0x6A, 0x82]))),
];

/// The rows, with two bytes held; then held bytes that are too many.
fn splitting(tally: &mut Tally) {
    for (response, parts) in SPLITS {
        let numbers = |n: usize, [sw1, sw2]: [u8; 2]| [n as u64, sw1.into(), sw2.into()];
        let answer = parts.map(|(data, status)| numbers(data.len(), status).into());
        split(response).compare_with_table(tally, SPLIT, &answer, 0);
        let answer = parts.map(|(data, _)| Writes::new([data.len() as u64], 0, data));
        data(response).compare_with_table(tally, DATA, &answer, 3);
        let answer = parts.map(|(data, status)| Writes::new(numbers(2 + data.len(), status), 2, data));
        append(response, 2).compare_with_table(tally, APPEND, &answer, 6);
    }
    append(&[0x01, 0x90, 0x00], 2).compare_with_table(tally, APPEND, &Err(23), 2);
    append(&[0x90, 0x00], 3).compare_with_table(tally, APPEND, &Err(23), 2);
}

/// Words with their class.
const CLASSES: [(u64, &[u16]); 5] = [
    (NORMAL, &[0x9000, 0x6100, 0x61FF]),
    (WARNING, &[0x6200, 0x63CF]),
    (EXECUTION_ERROR, &[0x6400, 0x66FF]),
    (CHECKING_ERROR, &[0x6FFF, 0x6C00, 0x6CFF, 0x6A85, 0x6A87, 0x6880, 0x6885, 0x6980, 0x6987, 0x6F00]),
    (UNKNOWN, &[0x0000, 0x6000, 0x60FF, 0x7000, 0x9001, 0x90FF, 0xFFFF]),
];

/// Words that are listed, with their place and their name.
const LISTED: [(u16, u64, &str); 5] = [
    (0x6700, 0, "WrongLength"),
    (0x6884, 4, "CommandChainingNotSupported"),
    (0x6A82, 13, "NotFound"),
    (0x6A86, 16, "IncorrectP1OrP2Parameter"),
    (0x6E00, 20, "ClassNotSupported"),
];

/// Words that are not listed, then words that are.
fn words(tally: &mut Tally) {
    for (class, words) in CLASSES {
        for &word in words {
            status(word).compare_with_table(tally, STATUS, &Ok([word.into(), class, NONE].into()), 0);
            name(word).compare_with_table(tally, NAME, &Ok([0].into()), 3);
        }
    }
    for (word, place, letters) in LISTED {
        status(word).compare_with_table(tally, STATUS, &Ok([word.into(), CHECKING_ERROR, place].into()), 0);
        let answer = Ok(Writes::new([letters.len() as u64], 0, letters.as_bytes()));
        name(word).compare_with_table(tally, NAME, &answer, letters.len() + 1);
    }
}

pub fn compare(tally: &mut Tally) {
    splitting(tally);
    words(tally);
}
