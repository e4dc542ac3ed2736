//! Cases with their answers from request 4 of document 02, and the vectors of its page.

use gorvisclen::LOOKUP_NUMBERS;

use super::operations::{build, check, get_indexed, Indexed};
use crate::answer::{Answer, Told, Writes};
use crate::call::Call;
use crate::hex::unhex;
use crate::tally::Tally;

const CASES: &str = "an index beside the record, case by case (checked against document 02)";
const VECTORS: &str = "the vectors of request 4 (checked against the request's page)";

/// The label of a case, a record in hex, and its file in hex.
type BuildRow = (&'static str, &'static str, &'static str);

const BUILDS: [BuildRow; 18] = [
    (VECTORS, "", "0000 0000 0000 0001 000B 0000"),
    (VECTORS, "C1 01 AA 5F 24 00", "0002 0000C1 005F24 0002 0002 0006 0002 0001 0000 0001 000B 0006"),
    (VECTORS, "C1 01 AA 5F", "0001 0000C1 0001 0002 0001 0001 0001 000C 0003"),
    // A record that cannot be read from its first byte on.
    (CASES, "5F", "0000 0000 0000 0001 000C 0000"),
    (CASES, "5F 80 01", "0000 0000 0000 0001 000C 0000"),
    (CASES, "C1", "0000 0000 0000 0001 000C 0000"),
    (CASES, "C1 02 AA", "0000 0000 0000 0001 000C 0000"),
    // Objects behind the first one that cannot be read are not listed.
    (CASES, "C1 00 5F 80 C2 00", "0001 0000C1 0001 0002 0001 0000 0001 000C 0002"),
    // Equal tags are listed each.
    (CASES, "C1 00 C1 01 AA", "0002 0000C1 0000C1 0002 0002 0004 0002 0000 0001 0001 000B 0005"),
    // The place is that of the value, after a length of any form.
    (CASES, "C1 81 01 AA", "0001 0000C1 0001 0003 0001 0001 0001 000B 0004"),
    (CASES, "C1 82 00 01 AA", "0001 0000C1 0001 0004 0001 0001 0001 000B 0005"),
    // Tags of one, two and three bytes.
    (CASES, "DF 81 01 00", "0001 DF8101 0001 0004 0001 0000 0001 000B 0004"),
    (CASES, "5F 1E 00", "0001 005F1E 0001 0003 0001 0000 0001 000B 0003"),
    // The top level only.
    (CASES, "E1 03 C1 01 AA", "0001 0000E1 0001 0002 0001 0003 0001 000B 0005"),
    (CASES, "E1 02 C1 05", "0001 0000E1 0001 0002 0001 0002 0001 000B 0004"),
    // The crate's reading: 00 is a tag.
    (CASES, "00 00", "0001 000000 0001 0002 0001 0000 0001 000B 0002"),
    (CASES, "00", "0000 0000 0000 0001 000C 0000"),
    (CASES, "00 C1 00", "0000 0000 0000 0001 000C 0000"),
];

/// The records, each written after two bytes and before two; then without room.
fn building(tally: &mut Tally) {
    for (label, record, file) in BUILDS {
        let (record, file) = (unhex(record), unhex(file));
        let n = file.len();
        let answer = Ok(Writes::new([n as u64], 2, &file));
        build(&record, 2).compare_with_table(tally, label, &answer, n + 4);
        let answer = Ok(Writes::new([n as u64], 0, &file));
        build(&record, 0).compare_with_table(tally, label, &answer, n);
        build(&record, 0).compare_with_table(tally, label, &Err(16), n - 1);
        build(&record, 1).compare_with_table(tally, label, &Err(16), n);
        check(&file).compare_with_table(tally, label, &Ok([(n as u64 - 12) / 7].into()), 0);
    }
    build(&[], 0).compare_with_table(tally, VECTORS, &Err(16), 11);
}

/// The label of a case, how often `C1 00` comes, an ending, and the end of the list in bytes or 24.
type ManyRow = (&'static str, usize, &'static [u8], Result<[u8; 4], u8>);

const MANY: [ManyRow; 7] = [
    (VECTORS, 255, &[], Ok([0, 11, 0x01, 0xFE])),
    (VECTORS, 256, &[], Err(24)),
    (CASES, 255, &[0x5F], Ok([0, 12, 0x01, 0xFE])),
    (CASES, 255, &[0xC1], Ok([0, 12, 0x01, 0xFE])),
    (CASES, 255, &[0xC1, 0x01], Ok([0, 12, 0x01, 0xFE])),
    (CASES, 255, &[0x5F, 0x24, 0x00], Err(24)),
    (CASES, 256, &[0x5F], Err(24)),
];

/// Records of around 255 objects, and of around 65,535 bytes.
fn limits(tally: &mut Tally) {
    for (label, count, ending, end) in MANY {
        let record = [&[0xC1, 0x00].repeat(count), ending].concat();
        let places: Vec<u8> = (1..=255_u16).flat_map(|i| (2 * i).to_be_bytes()).collect();
        let (count, tags) = ([0x00, 0xFF], [0x00, 0x00, 0xC1].repeat(255));
        let columns = [&count, &tags[..], &count, &places, &count, &[0; 510]].concat();
        let file = end.map(|end| [&columns[..], &[0x00, 0x01], &end].concat());
        let answer: Answer<1> = file.map(|file| Writes::new([1_797], 0, file));
        build(&record, 0).compare_with_table(tally, label, &answer, 1_797);
        // 24 comes before 16.
        let answer = end.map_or_else(Err, |_| Err(16));
        build(&record, 0).compare_with_table(tally, label, &answer, 1_796);
    }
    let long = [&[0xC1, 0x82, 0xFF, 0xF8], &[0x5F; 65_528][..], &[0xC2, 0x81, 0x00, 0x5F]].concat();
    let of = |digits: &str| unhex(&format!("0002 0000C1 0000C2 0002 0004 FFFF 0002 FFF8 0000 0001 {digits}"));
    let answer = Ok(Writes::new([26], 0, of("000B FFFF")));
    build(&long[..65_535], 0).compare_with_table(tally, CASES, &answer, 26);
    build(&long, 0).compare_with_table(tally, CASES, &Err(24), 26);
    let one = [&[0xC1, 0x82, 0xFF, 0xFA], &[0x00; 65_531][..]].concat();
    let file = unhex("0001 0000C1 0001 0004 0001 FFFA 0001 000C FFFE");
    build(&one, 0).compare_with_table(tally, CASES, &Ok(Writes::new([19], 0, file)), 19);
}

/// Files of another form.
const OTHER_FORMS: [(&str, &str); 17] = [
    (VECTORS, "0000 0000 0000 0001 000B 0000 00"),
    (VECTORS, "0000 0000 0000 0000"),
    (CASES, ""),
    (CASES, "0000 0000 0000 0001 000B 00"),
    (CASES, "0000 0000 0000 0001 000B"),
    (CASES, "0000 0000 0000 0001"),
    (CASES, "0000 0000 0000 0002 000B 0000 000B 0000"),
    (CASES, "0000 0000 0000 0100 000B 0000"),
    (CASES, "0000 0000 0000 0001 000A 0000"),
    (CASES, "0000 0000 0000 0001 000D 0000"),
    (CASES, "0000 0000 0000 0001 0B00 0000"),
    (CASES, "0000 0000 0000 0001 010B 0000"),
    // The first three counts are not equal, though each section has its entries.
    (CASES, "0001 0000C1 0000 0000 0001 000B 0000"),
    (CASES, "0001 0000C1 0001 0000 0000 0001 000B 0000"),
    (CASES, "0000 0001 0000 0001 0000 0001 000B 0000"),
    (CASES, "0001 0000C1 0000 0001 0000 0001 000B 0000"),
    // The sections by entry.
    (CASES, "0001 0000C1 0002 0001 0001 000B 0003"),
];

/// The label of a case, a file in hex, a record in hex, a path, and what is told; or 25.
type LookupRow = (&'static str, &'static str, &'static str, &'static [u32], Result<Told<LOOKUP_NUMBERS>, u8>);

/// The index of `C1 01 AA`, of `C1 00 C1 01 AA`, of `E1 05 C1 01 AA 5F 80 C2 00`, and of no bytes.
const ONE: &str = "0001 0000C1 0001 0002 0001 0001 0001 000B 0003";
const TWO: &str = "0002 0000C1 0000C1 0002 0002 0004 0002 0000 0001 0001 000B 0005";
const TEMPLATE: &str = "0002 0000E1 0000C2 0002 0002 0009 0002 0005 0000 0001 000B 0009";
const EMPTY: &str = "0000 0000 0000 0001 000B 0000";
const NESTED: &str = "E1 05 C1 01 AA 5F 80 C2 00";

/// A file whose first entry lies in a record of three bytes, whose others and whose end do not.
const FIRST_ONLY: &str = "0003 0000C1 0000C1 0000C2 0003 0001 FFFF 0004 0003 0002 FFFF 0000 0001 000C 0004";

const LOOKUPS: [LookupRow; 38] = [
    (VECTORS, TWO, "C1 00 C1 01 AA", &[0xC1], Ok(Ok([2, 0, 1]))),
    (VECTORS, ONE, "C1", &[0xC1], Err(25)),
    (CASES, ONE, "C1 01 AA", &[0xC1], Ok(Ok([2, 1, 1]))),
    (CASES, ONE, "C1 01 AA", &[0xC2], Ok(Err((11, [3, 0, 0])))),
    (CASES, ONE, "C1 01 AA", &[], Ok(Ok([0, 3, 0]))),
    (CASES, "0001 0000C1 0001 0002 0001 0001 0001 000C 0003", "C1 01 AA 5F", &[0xC2], Ok(Err((12, [3, 0, 0])))),
    (CASES, EMPTY, "", &[0xC1], Ok(Err((11, [0, 0, 0])))),
    (CASES, EMPTY, "", &[], Ok(Ok([0, 0, 0]))),
    (CASES, "0000 0000 0000 0001 000C 0000", "5F", &[0xC1], Ok(Err((12, [0, 0, 0])))),
    // Deeper levels are walked. Places count in the whole record.
    (CASES, TEMPLATE, NESTED, &[0xE1], Ok(Ok([2, 5, 1]))),
    (CASES, TEMPLATE, NESTED, &[0xE1, 0xC1], Ok(Ok([4, 1, 2]))),
    (CASES, TEMPLATE, NESTED, &[0xE1, 0xC2], Ok(Err((12, [5, 0, 1])))),
    (CASES, TEMPLATE, NESTED, &[0xE1, 0xC1, 0xC2], Ok(Err((12, [4, 0, 2])))),
    (CASES, TEMPLATE, NESTED, &[0xC2], Ok(Ok([9, 0, 1]))),
    (CASES, TEMPLATE, NESTED, &[0xC2, 0xC1], Ok(Err((11, [9, 0, 1])))),
    (CASES, TEMPLATE, NESTED, &[0xC1], Ok(Err((11, [9, 0, 0])))),
    // No byte of the record counts but those of the entry.
    (CASES, TEMPLATE, "5F 80 C1 01 AA 5F 80 5F 80", &[0xE1, 0xC1], Ok(Ok([4, 1, 2]))),
    (CASES, TEMPLATE, "00 00 00 00 00 00 00 00 00", &[0xC2], Ok(Ok([9, 0, 1]))),
    (CASES, TEMPLATE, "00 00 00 00 00 00 00 00 00", &[0xC1], Ok(Err((11, [9, 0, 0])))),
    (CASES, TEMPLATE, "00 00 00 00 00 00 00 00 00", &[0xE1, 0xC1], Ok(Err((12, [6, 0, 1])))),
    // An entry at the end of the record, and a byte past it.
    (CASES, ONE, "00 00 00", &[0xC1], Ok(Ok([2, 1, 1]))),
    (CASES, ONE, "00 00", &[0xC1], Err(25)),
    (CASES, TEMPLATE, "00 00 00 00 00 00 00 00", &[0xC2], Err(25)),
    (CASES, TEMPLATE, "00 00 00 00 00 00", &[0xE1, 0xC1], Err(25)),
    // The end's place, of 11 and of 12.
    (CASES, ONE, "00 00", &[0xC2], Err(25)),
    (CASES, ONE, "00 00 00 00", &[0xC2], Ok(Err((11, [3, 0, 0])))),
    (CASES, "0000 0000 0000 0001 000C 0003", "00 00", &[0xC2], Err(25)),
    (CASES, "0000 0000 0000 0001 000C 0003", "00 00 00", &[0xC2], Ok(Err((12, [3, 0, 0])))),
    // Only the entry used: the first one with the tag.
    (CASES, FIRST_ONLY, "00 C2 00", &[0xC1], Ok(Ok([1, 2, 1]))),
    (CASES, FIRST_ONLY, "00 C2 00", &[0xC1, 0xC2], Ok(Ok([3, 0, 2]))),
    (CASES, FIRST_ONLY, "00 C2 00", &[0xC2], Err(25)),
    (CASES, FIRST_ONLY, "00 C2 00", &[0xC3], Err(25)),
    // An empty path uses no entry.
    (CASES, FIRST_ONLY, "", &[], Ok(Ok([0, 0, 0]))),
    (CASES, ONE, "", &[], Ok(Ok([0, 0, 0]))),
    // A number that is no tag.
    (CASES, ONE, "C1 01 AA", &[0x0100_00C1], Ok(Err((11, [3, 0, 0])))),
    (CASES, ONE, "C1 01 AA", &[0xC100], Ok(Err((11, [3, 0, 0])))),
    (CASES, TEMPLATE, NESTED, &[0xE1, 0x0100_00C1], Ok(Err((12, [5, 0, 1])))),
    (CASES, TEMPLATE, NESTED, &[0x5F, 0xC1], Ok(Err((11, [9, 0, 0])))),
];

/// Files of another form, also for an empty path; and lookups.
fn lookups(tally: &mut Tally) {
    for (label, file) in OTHER_FORMS {
        let file = unhex(file);
        check(&file).compare_with_table(tally, label, &Err(25), 0);
        for path in [&[][..], &[0xC1]] {
            get_indexed(Indexed::new(&file, &[0xC1, 0x00], path)).compare_with_table(tally, label, &Err(25), 0);
        }
    }
    for (label, file, record, path, told) in LOOKUPS {
        // A copy of the path, which can be written to: a call that writes to it is reported.
        let (file, record, path) = (unhex(file), unhex(record), path.to_vec());
        let answer = told.map(|told| told.into());
        get_indexed(Indexed::new(&file, &record, &path)).compare_with_table(tally, label, &answer, 0);
    }
}

pub fn compare(tally: &mut Tally) {
    building(tally);
    limits(tally);
    lookups(tally);
}
