//! What each kind of argument is tried with. A call is made for every combination.

use gorvisclen::{EXPECTED_MAX, INDEX_BYTES};

/// The most bytes, or numbers, that a call may write.
pub const MOST_LENT: usize = 65_600;

/// An argument of a call: a number; a slice to read; how many bytes or numbers it may write.
#[derive(Clone)]
pub enum Argument {
    Number(usize),
    Bytes(Vec<u8>),
    Tags(Vec<u32>),
    Room(usize),
    Numbers(usize),
}

impl Argument {
    /// The number, or the length of the slice.
    pub fn size(&self) -> usize {
        match self {
            Argument::Number(n) | Argument::Room(n) | Argument::Numbers(n) => *n,
            Argument::Bytes(list) => list.len(),
            Argument::Tags(list) => list.len(),
        }
    }
}

fn numbers<const N: usize>(list: [usize; N]) -> Vec<Argument> {
    list.map(Argument::Number).into()
}

fn strings<const N: usize>(list: [&[u8]; N]) -> Vec<Argument> {
    list.map(|bytes| Argument::Bytes(bytes.to_vec())).into()
}

fn rooms<const N: usize>(list: [usize; N]) -> Vec<Argument> {
    list.map(Argument::Room).into()
}

/// A byte on which nothing depends.
pub fn byte() -> Vec<Argument> {
    numbers([0xA4])
}

/// A reading, a kind of state, whether a chain is open or done: 0, or any other number.
pub fn flag() -> Vec<Argument> {
    numbers([0, 1])
}

/// Class bytes: a first interindustry one, alone and chained; a further one, a proprietary one, the refused one.
pub fn class() -> Vec<Argument> {
    numbers([0x00, 0x10, 0x44, 0x80, 0xFF])
}

/// Class bytes of a command to build: one, and the refused one.
pub fn built_class() -> Vec<Argument> {
    numbers([0x00, 0xFF])
}

/// The modes: short only, extended supported, extended forced.
pub fn mode() -> Vec<Argument> {
    numbers([0, 1, 2])
}

/// Expected lengths. The last one is Max.
pub fn le() -> Vec<Argument> {
    numbers([0, 1, 256, 257, EXPECTED_MAX as usize])
}

/// Expected lengths of a chain, which has no Max.
pub fn chain_le() -> Vec<Argument> {
    numbers([0, 1, 256, 257, 65_535])
}

/// The data of a command, or a value. The last ones are too long.
pub fn data() -> Vec<Argument> {
    [0, 1, 255, 256, 65_535, 65_536].map(|len| Argument::Bytes(vec![0x5F; len])).into()
}

/// Buffers in which nothing fits, some of it, and all.
pub fn buffer() -> Vec<Argument> {
    rooms([0, 4, 10, 262, MOST_LENT])
}

/// Places in a buffer, in the data, or in a record.
pub fn place() -> Vec<Argument> {
    numbers([0, 1, 300, usize::MAX])
}

/// The length of a buffer for pieces.
pub fn available() -> Vec<Argument> {
    numbers([3, 9, 10, 261, MOST_LENT])
}

/// How many bytes are held in a room.
pub fn held() -> Vec<Argument> {
    numbers([0, 2, 300, usize::MAX])
}

/// For numbers: none, and as many as the longest answer has.
pub fn out() -> Vec<Argument> {
    [0, 14].map(Argument::Numbers).into()
}

/// Commands in every form, two that a builder equals, and refused ones.
pub fn command() -> Vec<Argument> {
    let long = [&[0x00, 0xA4, 0x04, 0x00, 0x00, 0x01, 0x2C][..], &[0x5F; 300], &[0x01, 0x00]].concat();
    let built = [&[0x00, 0xA4, 0xA4, 0xA4, 0xFF][..], &[0x5F; 255]].concat();
    strings([
        &[],
        &[0xFF, 0xA4, 0x04, 0x00],
        &[0x00, 0xA4, 0x04, 0x00],
        &[0x10, 0xA4, 0xA4, 0xA4, 0x05],
        &[0x00, 0xA4, 0xA4, 0xA4, 0x01, 0x5F],
        &[0x00, 0xA4, 0xA4, 0xA4, 0x02, 0x5F, 0x5F],
        &built,
        &[0x10, 0xA4, 0xA4, 0xA4, 0x02, 0x5F, 0x5F, 0x00],
        &[0x00, 0xA4, 0x04, 0x00, 0x02, 0x5F],
        &[0x00, 0xA4, 0x04, 0x00, 0x00, 0x01],
        &[0x00, 0xA4, 0x04, 0x00, 0x00, 0x01, 0x02],
        &[0x00, 0xA4, 0x04, 0x00, 0x00, 0x00, 0x00, 0x01, 0x02],
        &long,
        &long[..long.len() - 2],
    ])
}

/// Responses: with and without data, that end and that go on, and refused ones.
pub fn response() -> Vec<Argument> {
    let long = [&[0x5F; 300][..], &[0x61, 0x00]].concat();
    strings([
        &[],
        &[0x90],
        &[0x90, 0x00],
        &[0x61, 0x05],
        &[0x6C, 0x05],
        &[0x5F, 0x5F, 0x5F, 0x90, 0x00],
        &[0x5F, 0x6A, 0x82],
        &long,
    ])
}

/// First bytes of a status word.
pub fn sw1() -> Vec<Argument> {
    numbers([0x61, 0x62, 0x64, 0x67, 0x6A, 0x6E, 0x90])
}

/// Second bytes of a status word.
pub fn sw2() -> Vec<Argument> {
    numbers([0x00, 0x82])
}

/// Names of applications, and refused ones.
pub fn name() -> Vec<Argument> {
    strings([
        &[],
        &[0x5F; 17],
        &[0xD2, 0x76, 0x00, 0x00],
        &[0xA0, 0x00, 0x00, 0x00],
        &[0xA0, 0x00, 0x00, 0x00, 0x03],
        &[0xD2; 16],
        &[0xA0; 16],
        &[0x5F; 16],
    ])
}

/// Truncated lengths.
pub fn truncated_len() -> Vec<Argument> {
    numbers([0, 4, 5, 16, 17])
}

/// The parts of an AID.
pub fn part() -> Vec<Argument> {
    numbers([0, 1, 2, 3, 4])
}

/// The bytes of a tag to write.
pub fn tag_byte() -> Vec<Argument> {
    numbers([0x00, 0x5F])
}

fn record_list() -> Vec<Vec<u8>> {
    let many: Vec<u8> = (0..100).flat_map(|n| [0xC0 + n % 16, 0x02, 0x00, n]).collect();
    let long = [&[0x5A, 0x82, 0x01, 0x00][..], &[0x5F; 256], &[0x5F, 0x24, 0x01, 0x26]].concat();
    vec![
        vec![],
        vec![0x00],
        vec![0x5A, 0x01, 0x12],
        vec![0x5A, 0x02, 0x12],
        vec![0x5F, 0x24, 0x81, 0x01, 0x26],
        vec![0x5F, 0x81, 0x24, 0x00],
        vec![0x5F, 0x80, 0x01],
        vec![0x5A, 0x83, 0x00, 0x00, 0x01, 0x12],
        vec![0x00, 0x00, 0x70, 0x07, 0x00, 0x5A, 0x00, 0x5F, 0x24, 0x01, 0x26, 0x00],
        vec![0x70, 0x05, 0x5A, 0x00, 0x5F, 0x24, 0x05, 0x26],
        long,
        many,
    ]
}

/// Records: objects with tags and lengths of each size, nested ones, zero bytes between them, unreadable ones.
pub fn record() -> Vec<Argument> {
    record_list().into_iter().map(Argument::Bytes).collect()
}

/// Kinds of states of a walk in chunks. The last one means what 9 means.
pub fn walk_kind() -> Vec<Argument> {
    numbers([0, 1, 2, 3, 4, 5, 6, 7, 8, 9, 255])
}

/// The tag of such a state, or what there is of it.
pub fn walk_tag() -> Vec<Argument> {
    numbers([0x5F, 0xDF8101])
}

/// The further number of such a state: the high byte of a length, or missing bytes.
pub fn walk_number() -> Vec<Argument> {
    numbers([0, 1, 65_535])
}

/// Chunks: records, and single bytes of headers, also those that make a header unreadable.
pub fn chunk() -> Vec<Argument> {
    let single = [0x01, 0x1D, 0x24, 0x5F, 0x80, 0x81, 0x82, 0x83, 0xFE, 0xFF].map(|byte| vec![byte]);
    record_list().into_iter().chain(single).map(Argument::Bytes).collect()
}

/// Paths: none, one that is found at once, later and deeper, one that is not found.
pub fn path() -> Vec<Argument> {
    let paths: [&[u32]; 6] = [&[], &[0x5A], &[0x5F24], &[0x5F8124], &[0x70, 0x5F24], &[0x70, 0x70]];
    paths.map(|path| Argument::Tags(path.to_vec())).into()
}

/// The index files of the records, and files of another form.
pub fn file() -> Vec<Argument> {
    let built = record_list().into_iter().map(|record| {
        let (mut buffer, mut len) = (vec![0; INDEX_BYTES], [0]);
        gorvisclen::build_index(&record, &mut buffer, 0, &mut len).expect("a record with an index");
        buffer.truncate(len[0] as usize);
        buffer
    });
    built.chain([vec![], vec![0; 12]]).map(Argument::Bytes).collect()
}

/// A calibration record with a serial of `n` bytes and these four bytes of a due date.
fn profile_due(n: u8, due: [u8; 4]) -> Vec<u8> {
    let serial = vec![0x5F; n.into()];
    [&[0xE1, n + 14, 0xC1, n], &serial[..], &[0xC2, 4], &due, &[0xC3, 4, 0x00, 0x03, 0x0D, 0x40]].concat()
}

/// Calibration records: good ones; with dates that there are not, by each part of a date; with a serial of no bytes and
/// of too many; cut, too long, and with each of the tags and lengths changed.
pub fn profile() -> Vec<Argument> {
    let good = profile_due(1, [0x20, 0x26, 0x12, 0x31]);
    let dates = [
        [0x20, 0x00, 0x02, 0x29],
        [0x20, 0x26, 0x02, 0x29],
        [0x20, 0x26, 0x04, 0x31],
        [0x20, 0x26, 0x13, 0x01],
        [0x20, 0x26, 0x00, 0x01],
        [0x20, 0x26, 0x12, 0x00],
        [0x20, 0x26, 0x12, 0x2A],
        [0x20, 0x26, 0x0A, 0x01],
        [0x20, 0x2A, 0x12, 0x31],
        [0x1A, 0x26, 0x12, 0x31],
        [0x19, 0x99, 0x12, 0x31],
        [0x21, 0x00, 0x01, 0x01],
    ];
    let dated = dates.map(|due| profile_due(1, due));
    let of_lengths = [0, 2, 16, 17].map(|n| profile_due(n, [0x20, 0x24, 0x02, 0x29]));
    let changed = [0, 1, 2, 3, 5, 6, 11, 12].map(|at| {
        let mut copy = good.clone();
        copy[at] ^= 1;
        copy
    });
    let others = [vec![], good[..16].to_vec(), [&good[..], &[0]].concat(), good];
    [&dated[..], &of_lengths, &changed, &others].concat().into_iter().map(Argument::Bytes).collect()
}

/// Years: of the calendar, leap years and others, and those next to it.
pub fn year() -> Vec<Argument> {
    numbers([1999, 2000, 2026, 2099, 2100])
}

/// Months: of 28 or 29, 30 and 31 days, and none.
pub fn month() -> Vec<Argument> {
    numbers([0, 2, 4, 12, 13])
}

/// Days: in every month, in some, and in none.
pub fn day() -> Vec<Argument> {
    numbers([0, 1, 29, 30, 31, 32])
}

/// A capacity, on which nothing depends.
pub fn capacity() -> Vec<Argument> {
    numbers([200_000])
}

/// Serials, and refused ones.
pub fn serial() -> Vec<Argument> {
    [0, 1, 16, 17].map(|len| Argument::Bytes(vec![0x5F; len])).into()
}
