//! Cases with their answers from document 01, the incident, and cases of document 02: where a lookup or an object is
//! refused (request 2), and zero bytes between objects (request 3).

mod request_3;

use gorvisclen::{CRATE_READING, LEN_NUMBERS, OBJECT_NUMBERS, STANDARD_READING, TAG_NUMBERS};

use super::lookup::{Found, Lookup};
use super::records::length_forms;
use super::take::{Len, Object, Tag, Take};
use super::writing::{self, put_data_object};
use crate::answer::Writes;
use crate::call::Call;
use crate::hex::unhex;
use crate::loops::pairs;
use crate::random::Random;
use crate::tally::Tally;

/// P7, P8 and P9 are read alone, at the front of an object, and in a lookup.
const P7_TO_P9: &str = "the cases P7, P8 and P9 (checked against document 01)";
const RULES: &str = "the rules of BER records, case by case (checked against document 01)";
const INCIDENT: &str = "the incident (checked against document 01)";
const PLACES: &str = "where it broke, case by case (checked against document 02)";
const VECTORS: &str = "the vectors of request 2 (checked against the request's page)";
const ZEROS: &str = "zero bytes between objects, case by case (checked against document 02)";
const ZERO_VECTORS: &str = "the vectors of request 3 (checked against the request's page)";

const READINGS: [u8; 2] = [CRATE_READING, STANDARD_READING];

/// The answers of both readings, that of the crate first.
type Both<T> = [T; 2];

/// The label of some cases, their bytes in hex with commas between the cases, and what is taken from each.
type TakeRow<const N: usize> = (&'static str, &'static str, Both<Result<[u64; N], u8>>);

/// Tags, with each refusal and with each row in which the readings differ.
const TAGS: [TakeRow<TAG_NUMBERS>; 16] = [
    // P7: the crate's reading reads the tag 5F 1E.
    (P7_TO_P9, "5F 1E", [Ok([0x5F1E, 2]), Err(12)]),
    // P8: no reading reads the tag 5F 80.
    (P7_TO_P9, "5F 80, 5F 80 01, 5F 80 01 AA", [Err(12); 2]),
    (RULES, "", [Err(11); 2]),
    (RULES, "5E 1F", [Ok([0x5E, 1]); 2]),
    (RULES, "5F 1F", [Ok([0x5F1F, 2]); 2]),
    (RULES, "5F 24 03", [Ok([0x5F24, 2]); 2]),
    (RULES, "5F 7F", [Ok([0x5F7F, 2]); 2]),
    (RULES, "DF 81 01", [Ok([0xDF8101, 3]); 2]),
    (RULES, "DF FE 7F", [Ok([0xDFFE7F, 3]); 2]),
    (RULES, "DF 81 80", [Ok([0xDF8180, 3]), Err(12)]),
    (RULES, "DF 81 FF", [Ok([0xDF81FF, 3]), Err(12)]),
    (RULES, "5F FF", [Ok([0x5FFF, 2]), Err(12)]),
    (RULES, "5F FF 01", [Ok([0x5FFF, 2]), Ok([0x5FFF01, 3])]),
    (RULES, "5F, 5F 1D, 5F 81, DF 81 81, DF 81 FE", [Err(12); 2]),
    // Alone, a zero byte is a tag in the crate's reading, and in the standard reading it is not skipped.
    (ZEROS, "00, 00 00, 00 C1, 00 C1 01 AA", [Ok([0x00, 1]), Err(12)]),
    (ZEROS, "01 00, 01", [Ok([0x01, 1]); 2]),
];

/// Lengths of each form.
const LENGTHS: [TakeRow<LEN_NUMBERS>; 9] = [
    // P9: no reading reads a length that starts with 83.
    (P7_TO_P9, "83 00 00 01", [Err(12); 2]),
    (RULES, "00", [Ok([0, 1]); 2]),
    (RULES, "7F 01", [Ok([127, 1]); 2]),
    (RULES, "81 05", [Ok([5, 2]); 2]),
    (RULES, "82 00 05", [Ok([5, 3]); 2]),
    (RULES, "82 FF FF 00", [Ok([65_535, 3]); 2]),
    (RULES, ", 80 00, 81, 82 05, FF 00 00", [Err(12); 2]),
    // A zero byte is a length: it is not skipped.
    (ZERO_VECTORS, "00", [Ok([0, 1]); 2]),
    (ZEROS, "00 00, 00 05, 00 81 05", [Ok([0, 1]); 2]),
];

/// An object in a table: its place, its tag, the value's place, the value's length. Or a refusal and its place.
type Taken = Result<[u64; OBJECT_NUMBERS], (u8, u64)>;

/// The label of some cases, records in hex with commas between the cases, a place in each, and what is there.
type ObjectRow = (&'static str, &'static str, usize, Both<Taken>);

/// Objects, and bytes that are no object.
const OBJECTS: [ObjectRow; 20] = [
    (P7_TO_P9, "5F 1E 01 AA", 0, [Ok([0, 0x5F1E, 3, 1]), Err((12, 0))]),
    (P7_TO_P9, "5F 80, 5F 80 01, 5F 80 01 AA, C1 83 00 00 01 AA", 0, [Err((12, 0)); 2]),
    (RULES, "", 0, [Err((11, 0)); 2]),
    (RULES, "5F 24 03 26 10 09", 0, [Ok([0, 0x5F24, 3, 3]); 2]),
    (RULES, "5A 82 00 01 AA BB", 0, [Ok([0, 0x5A, 4, 1]); 2]),
    (RULES, "5F 24 03 26 10, 5F 24", 0, [Err((12, 0)); 2]),
    // Places count from the start of the record.
    (PLACES, "C1 01 AA 5F 24 03 26 10 09", 0, [Ok([0, 0xC1, 2, 1]); 2]),
    (PLACES, "C1 01 AA 5F 24 03 26 10 09", 3, [Ok([3, 0x5F24, 6, 3]); 2]),
    (PLACES, "C1 01 AA 5F 1E 01 AA", 3, [Ok([3, 0x5F1E, 6, 1]), Err((12, 3))]),
    (PLACES, "C1 01 AA C2 81 00", 3, [Ok([3, 0xC2, 6, 0]); 2]),
    // Any place will do, also one inside an object.
    (PLACES, "C1 02 C2 00", 1, [Err((12, 1)); 2]),
    (PLACES, "C1 02 C2 00", 2, [Ok([2, 0xC2, 4, 0]); 2]),
    // 12 is at the object's first byte, not at the byte that cannot be read.
    (PLACES, "C1 01 AA 5F, C1 01 AA 5F 80, C1 01 AA DF 81 81 00", 3, [Err((12, 3)); 2]),
    (PLACES, "C1 01 AA C2, C1 01 AA C2 81, C1 01 AA C2 83 00 00 00, C1 01 AA C2 02 BB", 3, [Err((12, 3)); 2]),
    // 11 is at the end, also if the place is past it.
    (PLACES, "C1 01 AA", 3, [Err((11, 3)); 2]),
    (PLACES, "C1 01 AA", 4, [Err((11, 3)); 2]),
    (PLACES, "C1 01 AA, C1 05 AA, 5F 80 01", usize::MAX, [Err((11, 3)); 2]),
    (PLACES, "", 1, [Err((11, 0)); 2]),
    (PLACES, "", usize::MAX, [Err((11, 0)); 2]),
    (VECTORS, "C1 01 AA C2 05 01", 3, [Err((12, 3)); 2]),
];

/// The label of a case, a record in hex, a path, and what is found there.
type LookupRow = (&'static str, &'static str, &'static [u32], Both<Found<'static>>);

/// The tag of the due date, the tag of a template, and a due date.
const DUE: u32 = 0x5F24;
const TEMPLATE: u32 = 0x70;
const DATE: &[u8] = &[0x27, 0x01, 0x31];

/// P7 to P9; the sentences about the lookup, each with a record of its own; the incident.
const LOOKUPS: [LookupRow; 28] = [
    (P7_TO_P9, "5F 1E 01 AA", &[0x5F1E], [Ok((3, &[0xAA], 1)), Err((12, 0, 0))]),
    (P7_TO_P9, "5F 1E 01 AA", &[0x5F1F], [Err((11, 4, 0)), Err((12, 0, 0))]),
    (P7_TO_P9, "5F 80", &[0x5F80], [Err((12, 0, 0)); 2]),
    (P7_TO_P9, "5F 80 01", &[0x5F80], [Err((12, 0, 0)); 2]),
    (P7_TO_P9, "5F 80 01 AA", &[0x5F80], [Err((12, 0, 0)); 2]),
    (P7_TO_P9, "C1 83 00 00 01 AA", &[0xC1], [Err((12, 0, 0)); 2]),
    // An empty path gives the whole record, even if it cannot be read or is empty.
    (RULES, "5F 80", &[], [Ok((0, &[0x5F, 0x80], 0)); 2]),
    (RULES, "", &[], [Ok((0, &[], 0)); 2]),
    (RULES, "", &[0x5A], [Err((11, 0, 0)); 2]),
    // The first object with the tag counts.
    (RULES, "5A 01 AA 5A 01 BB", &[0x5A], [Ok((2, &[0xAA], 1)); 2]),
    // It is entered, and there is no way back to a second one.
    (RULES, "70 00 70 03 5A 01 AA", &[0x70, 0x5A], [Err((11, 2, 1)); 2]),
    // The lookup ends at the end of an entered value.
    (RULES, "70 02 C1 00 5A 01 AA", &[0x70, 0x5A], [Err((11, 4, 1)); 2]),
    // A primitive value is entered too.
    (RULES, "C1 03 5A 01 AA", &[0xC1, 0x5A], [Ok((4, &[0xAA], 2)); 2]),
    (RULES, "C1 02 5A 01 AA", &[0xC1, 0x5A], [Err((12, 2, 1)); 2]),
    // Damage after a match is not seen; damage before it is.
    (RULES, "5A 01 AA 5F 80", &[0x5A], [Ok((2, &[0xAA], 1)); 2]),
    (RULES, "5A 01 AA 5F 80", &[0xC1], [Err((12, 3, 0)); 2]),
    (RULES, "5F 80 5A 01 AA", &[0x5A], [Err((12, 0, 0)); 2]),
    // An empty value at the end of the record.
    (RULES, "C1 00 5A 81 00", &[0x5A], [Ok((5, &[], 1)); 2]),
    // A number that is no tag matches nothing.
    (RULES, "5F 24 01 AA", &[0x5F], [Err((11, 4, 0)); 2]),
    (RULES, "5F 24 01 AA", &[0x0100_5F24], [Err((11, 4, 0)); 2]),
    (RULES, "5F 24 01 AA", &[0x5F24_01AA], [Err((11, 4, 0)); 2]),
    // A serial number that contains the bytes of a due date. The lookup finds the true due date after it, and is
    // refused with 11 if there is none. The same in a template.
    (INCIDENT, "C1 06 5F 24 03 26 10 09 5F 24 03 27 01 31", &[DUE], [Ok((11, DATE, 1)); 2]),
    (INCIDENT, "C1 06 5F 24 03 26 10 09", &[DUE], [Err((11, 8, 0)); 2]),
    (INCIDENT, "70 0E C1 06 5F 24 03 26 10 09 5F 24 03 27 01 31", &[TEMPLATE, DUE], [Ok((13, DATE, 2)); 2]),
    (INCIDENT, "70 0E C1 06 5F 24 03 26 10 09 5F 24 03 27 01 31", &[DUE], [Err((11, 16, 0)); 2]),
    (INCIDENT, "70 08 C1 06 5F 24 03 26 10 09", &[TEMPLATE, DUE], [Err((11, 10, 1)); 2]),
    (INCIDENT, "70 08 C1 06 5F 24 03 26 10 09 5F 24 03 27 01 31", &[TEMPLATE, DUE], [Err((11, 10, 1)); 2]),
    (INCIDENT, "70 08 C1 06 5F 24 03 26 10 09 5F 24 03 27 01 31", &[DUE], [Ok((13, DATE, 1)); 2]),
];

/// Two templates, one in the other, and an object after each.
const TWO_TEMPLATES: &str = "E1 08 E2 04 C1 02 AA BB C3 00 C4 00";

/// The sentences of request 2, each with records of its own; and the vectors of its page, which are in the crate's
/// reading. The standard reading has no other answer for them.
const REQUEST_2: [LookupRow; 33] = [
    // A value: its place in the whole record, and all tags of the path.
    (PLACES, TWO_TEMPLATES, &[0xE1, 0xE2, 0xC1], [Ok((6, &[0xAA, 0xBB], 3)); 2]),
    (PLACES, TWO_TEMPLATES, &[0xE1, 0xC3], [Ok((10, &[], 2)); 2]),
    (PLACES, TWO_TEMPLATES, &[0xC4], [Ok((12, &[], 1)); 2]),
    // 11: the end of the record, or of the value that was entered last.
    (PLACES, TWO_TEMPLATES, &[0xC3], [Err((11, 12, 0)); 2]),
    (PLACES, TWO_TEMPLATES, &[0xE1, 0xC4], [Err((11, 10, 1)); 2]),
    (PLACES, TWO_TEMPLATES, &[0xE1, 0xE2, 0xC3], [Err((11, 8, 2)); 2]),
    (PLACES, TWO_TEMPLATES, &[0xE1, 0xC3, 0xC1], [Err((11, 10, 2)); 2]),
    // 12: the object's first byte in the whole record, not the byte that cannot be read.
    (PLACES, "C1 01 AA DF 81 81 00", &[0xC2], [Err((12, 3, 0)); 2]),
    (PLACES, "C1 01 AA C2 83 00 00 00", &[0xC2], [Err((12, 3, 0)); 2]),
    (PLACES, "E1 05 C1 01 AA 5F 80", &[0xE1, 0xC2], [Err((12, 5, 1)); 2]),
    (PLACES, "E1 05 C1 01 AA C2 05", &[0xE1, 0xC2], [Err((12, 5, 1)); 2]),
    (PLACES, "C5 00 E1 04 E2 02 C1 81", &[0xE1, 0xE2, 0xC1], [Err((12, 6, 2)); 2]),
    (PLACES, "E1 05 5F 1E 01 AA C1", &[0xE1, 0xC1], [Err((12, 6, 1)), Err((12, 2, 1))]),
    // An object that runs past the value that was entered is 12, also if the record goes on.
    (PLACES, "E1 02 C1 01 AA C2 00", &[0xE1, 0xC1], [Err((12, 2, 1)); 2]),
    (PLACES, "E1 04 C1 00 C2 01 AA C3 00", &[0xE1, 0xC3], [Err((12, 4, 1)); 2]),
    // Tags count if their object was entered, not if it was passed over.
    (PLACES, "C1 00 C2 00 C3 00", &[0xC4, 0xC1], [Err((11, 6, 0)); 2]),
    (PLACES, "C1 00 E1 02 C2 00 C3 00", &[0xE1, 0xC3, 0xC4], [Err((11, 6, 1)); 2]),
    (PLACES, "C1 00 C2 00", &[0xC2, 0xC3], [Err((11, 4, 1)); 2]),
    (PLACES, "E1 02 E1 00", &[0xE1, 0xE1, 0xE1], [Err((11, 4, 2)); 2]),
    // A number that is no tag matches nothing, at each level.
    (PLACES, TWO_TEMPLATES, &[0x5F, 0xE2, 0xC1], [Err((11, 12, 0)); 2]),
    (PLACES, TWO_TEMPLATES, &[0xE1, 0x0100_00E2, 0xC1], [Err((11, 10, 1)); 2]),
    (PLACES, TWO_TEMPLATES, &[0xE1, 0xE2, 0x5F80], [Err((11, 8, 2)); 2]),
    (PLACES, TWO_TEMPLATES, &[0xE1, 0xE2, 0xC1, 0xC100], [Err((12, 6, 3)); 2]),
    // An empty path, for records that cannot be read.
    (PLACES, "C1 05", &[], [Ok((0, &[0xC1, 0x05], 0)); 2]),
    (PLACES, "5F", &[], [Ok((0, &[0x5F], 0)); 2]),
    (VECTORS, "C1 01 AA", &[], [Ok((0, &[0xC1, 0x01, 0xAA], 0)); 2]),
    (VECTORS, "C1 01 AA", &[0xC1], [Ok((2, &[0xAA], 1)); 2]),
    (VECTORS, "C1 01 AA", &[0xC2], [Err((11, 3, 0)); 2]),
    (VECTORS, "E1 03 C1 01 AA", &[0xE1, 0xC1], [Ok((4, &[0xAA], 2)); 2]),
    (VECTORS, "E1 03 C1 01 AA C2 00", &[0xE1, 0xC2], [Err((11, 5, 1)); 2]),
    (VECTORS, "C1 01 AA C2 05 01", &[0xC2], [Err((12, 3, 0)); 2]),
    (VECTORS, "", &[0xC1], [Err((11, 0, 0)); 2]),
    (VECTORS, "", &[], [Ok((0, &[], 0)); 2]),
];

/// Compares what is taken from the front of some bytes with a table. `take` makes it for a reading.
fn takes<const N: usize, F: Take<N>>(tally: &mut Tally, take: fn(u8) -> F, rows: &[TakeRow<N>]) {
    for (label, strings, answers) in rows {
        for (string, (reading, answer)) in pairs(strings.split(','), READINGS.into_iter().zip(*answers)) {
            let answer = answer.map(|numbers| numbers.into());
            take(reading).call(&unhex(string)).compare_with_table(tally, label, &answer, 0);
        }
    }
}

/// Compares objects at places of records with a table.
fn objects(tally: &mut Tally) {
    for (label, records, at, answers) in OBJECTS.into_iter().chain(request_3::OBJECTS) {
        for (record, (reading, answer)) in pairs(records.split(','), READINGS.into_iter().zip(answers)) {
            let answer = answer.map_err(|(number, place)| (number, [place, 0, 0, 0]));
            Object { reading, at }.call(&unhex(record)).compare_with_table(tally, label, &Ok(answer.into()), 0);
        }
    }
}

/// Compares a lookup with the answers of both readings.
fn lookup(tally: &mut Tally, label: &'static str, record: &[u8], path: &[u32], answers: Both<Found>) {
    // A copy of the path, which can be written to: a call that writes to it is reported.
    let path = &path.to_vec();
    for (reading, answer) in READINGS.into_iter().zip(answers) {
        Lookup::new(reading, record, path).compare_with_table(tally, label, answer);
    }
}

/// Compares objects that are written with a table.
fn written(tally: &mut Tally) {
    for (tag, value, bytes) in request_3::WRITTEN {
        let (value, bytes) = (unhex(value), unhex(bytes));
        let answer = Ok(Writes::new([bytes.len() as u64], 1, &bytes));
        put_data_object(writing::object(tag, &value), 1).compare_with_table(tally, ZEROS, &answer, 8);
    }
}

/// An object whose length is written in a random form.
fn object(random: &mut Random, tag: &str, value: &[u8]) -> Vec<u8> {
    let forms = length_forms(value.len());
    [&unhex(tag), &forms[random.below(forms.len())], value].concat()
}

/// The incident with a random serial number, which often contains the bytes of a due date.
fn random_serial_number(tally: &mut Tally, random: &mut Random) {
    let most = random.one_of(&[1, 20, 300]);
    let n = random.below(most);
    let mut number = random.bytes(n);
    if random.below(3) > 0 {
        let at = random.below(n + 1);
        number.splice(at..at, unhex("5F 24 03 26 10 09"));
    }
    let tag = random.one_of(&["C1", "5A", "5F 25", "DF 81 24"]);
    let serial = object(random, tag, &number);
    let date = &random.bytes(3)[..];
    let with = [&serial[..], &object(random, "5F 24", date)].concat();
    let [template, without] = [&with, &serial].map(|value| object(random, "70", value));
    let [with_len, serial_len, template_len, without_len] =
        [&with, &serial, &template, &without].map(|record| record.len() as u64);
    lookup(tally, INCIDENT, &with, &[DUE], [Ok((with_len - 3, date, 1)); 2]);
    lookup(tally, INCIDENT, &serial, &[DUE], [Err((11, serial_len, 0)); 2]);
    lookup(tally, INCIDENT, &template, &[TEMPLATE, DUE], [Ok((template_len - 3, date, 2)); 2]);
    lookup(tally, INCIDENT, &template, &[DUE], [Err((11, template_len, 0)); 2]);
    lookup(tally, INCIDENT, &without, &[TEMPLATE, DUE], [Err((11, without_len, 1)); 2]);
}

/// The short run.
pub fn compare(tally: &mut Tally, random: &mut Random) {
    takes(tally, Tag, &TAGS);
    takes(tally, Len, &LENGTHS);
    objects(tally);
    for (label, record, path, answers) in LOOKUPS.into_iter().chain(REQUEST_2).chain(request_3::LOOKUPS) {
        lookup(tally, label, &unhex(record), path, answers);
    }
    written(tally);
    for _ in 0..5_000 {
        random_serial_number(tally, random);
    }
}
