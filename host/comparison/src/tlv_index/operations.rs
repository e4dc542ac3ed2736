//! The calls that build an index, check the form of a file, and look a path up through it; and two rules for lookups.
//! The Rust has no index: the model says what is right. But a lookup through the index of the record itself must give
//! what the full lookup gives, in the Rust and in the library.

use gorvisclen::{Reply, CRATE_READING, INDEX_BYTES, INDEX_NUMBERS, LOOKUP_NUMBERS};

use super::model::{self, Used};
use crate::answer::{give, Answer, Writes};
use crate::call::{call, Call, Input};
use crate::guarded::with_guards;
use crate::hex::Hex;
use crate::lent::{bytes, numbers, Outcome};
use crate::loops::pairs;
use crate::random::Random;
use crate::recording::Arguments;
use crate::tally::Tally;
use crate::tlv::{check_model, Lookup};

const BUILT: &str = "build_index, up to the end (no Rust: checked against a model)";
const BUILT_TO_DAMAGE: &str = "build_index, up to an object that cannot be read (no Rust: checked against a model)";
const TOO_MANY: &str = "build_index, more than 255 objects (no Rust: checked against a model)";
const TOO_LONG: &str = "build_index, a record above 65,535 bytes (no Rust: checked against a model)";
const NO_ROOM: &str = "build_index, it does not fit into the buffer (no Rust: checked against a model)";
const FORMED: &str = "check_index (no Rust: checked against a model)";
const NOT_FORMED: &str = "check_index, another form (no Rust: checked against a model)";
const WHOLE: &str = "get_indexed, an empty path (no Rust: checked against a model)";
const AT_TOP: &str = "get_indexed, a value at the top level (no Rust: checked against a model)";
const DEEPER: &str = "get_indexed, a value in an entered value (no Rust: checked against a model)";
const KEPT: &str = "get_indexed, the end that is kept, 11 or 12 (no Rust: checked against a model)";
const REFUSED_DEEPER: &str = "get_indexed, 11 or 12 in an entered value (no Rust: checked against a model)";
const OTHER_FORM: &str = "get_indexed, a file of another form (no Rust: checked against a model)";
const ENTRY_OUTSIDE: &str = "get_indexed, an entry outside of the record (no Rust: checked against a model)";
const END_OUTSIDE: &str = "get_indexed, an end outside of the record (no Rust: checked against a model)";
const UNSEEN: &str = "get_indexed, all other bytes of the record inverted (checked against a rule: nothing changes)";
const OWN: &str = "get_indexed, the record's own index (checked against a rule: as the library's get_data_object)";
const OWN_BESIDE_RUST: &str = "get_indexed, the record's own index, beside get_data_object";

/// The labels under which some replies must come, each with these replies, 0 for done. 16 is that of an `out` that is
/// too short, and under `NO_ROOM` that of the buffer.
const REQUIRED: [(&str, &[u8]); 18] = [
    (BUILT, &[0, 16]),
    (BUILT_TO_DAMAGE, &[0, 16]),
    (TOO_MANY, &[24, 16]),
    (TOO_LONG, &[24, 16]),
    (NO_ROOM, &[16]),
    (FORMED, &[0, 16]),
    (NOT_FORMED, &[25, 16]),
    (WHOLE, &[0, 16]),
    (AT_TOP, &[0, 16]),
    (DEEPER, &[0, 16]),
    (KEPT, &[11, 12]),
    (REFUSED_DEEPER, &[11, 12]),
    (OTHER_FORM, &[25, 16]),
    (ENTRY_OUTSIDE, &[25, 16]),
    (END_OUTSIDE, &[25, 16]),
    (UNSEEN, &[0, 11, 12, 25]),
    (OWN, &[0, 11, 12]),
    (OWN_BESIDE_RUST, &[0, 11, 12]),
];

/// The labels under which some replies must come, each with such a reply.
pub fn required() -> impl Iterator<Item = (&'static str, u8)> {
    REQUIRED.into_iter().flat_map(|(label, replies)| pairs([label], replies.iter().copied()))
}

/// An index that is built and written into a buffer from a place.
pub fn build(record: &[u8], at: usize) -> impl Call<INDEX_NUMBERS> + '_ {
    call(
        (BUILT, &[]),
        (Hex(record), at),
        |(record, at), to, out| gorvisclen::build_index(record, to, *at, out),
        |(record, at), _| {
            let file = model::build(record)?.file();
            Ok(Writes::new([file.len() as u64], *at, file))
        },
    )
    .labelled_by(|(record, at), to_len, answer| {
        let label = match answer {
            Err(_) if record.len() > model::LONGEST_RECORD => TOO_LONG,
            Err(_) => TOO_MANY,
            Ok(writes) if to_len.checked_sub(*at).is_none_or(|room| room < writes.bytes.len()) => NO_ROOM,
            Ok(writes) if matches!(writes.bytes[..], [.., 12, _, _]) => BUILT_TO_DAMAGE,
            Ok(_) => BUILT,
        };
        Some((label, &[]))
    })
}

/// The form of a file that is checked.
pub fn check(file: &[u8]) -> impl Call<INDEX_NUMBERS> + '_ {
    call(
        (FORMED, &[]),
        Hex(file),
        |file, _, out| gorvisclen::check_index(file, out),
        |file, _| Ok([model::read(file)?.entries.len() as u64].into()),
    )
    .labelled_by(|_, _, answer| answer.is_err().then_some((NOT_FORMED, &[])))
}

/// The form of a file that stands right before a guard, or right after one; `out` has room for so many numbers.
pub fn check_guarded(tally: &mut Tally, random: &mut Random, file: &[u8], out_len: usize) {
    let at_end = random.below(4) > 0;
    with_guards(|[here, ..]| check(here.copy(file, at_end)).compare_numbers(tally, out_len));
}

/// A lookup through an index: the file, the record and the path.
#[derive(Clone, Copy, Debug)]
pub struct Indexed<'a> {
    pub file: Hex<'a, u8>,
    pub record: Hex<'a, u8>,
    pub path: Hex<'a, u32>,
}

impl Input for Indexed<'_> {
    fn add_to<'a>(&'a self, arguments: &mut Arguments<'a>) {
        self.file.add_to(arguments);
        self.record.add_to(arguments);
        self.path.iter().for_each(|&number| arguments.number(number as usize));
    }

    /// The file, the record and the path.
    fn lent_bytes(&self) -> Vec<u8> {
        let path = self.path.iter().flat_map(|number| number.to_be_bytes());
        self.file.iter().chain(self.record.0).copied().chain(path).collect()
    }
}

impl<'a> Indexed<'a> {
    pub fn new(file: &'a [u8], record: &'a [u8], path: &'a [u32]) -> Self {
        Indexed { file: Hex(file), record: Hex(record), path: Hex(path) }
    }

    fn answer(&self) -> Answer<'static, LOOKUP_NUMBERS> {
        model::lookup(&self.file, &self.record, &self.path)
    }

    /// The label that it is counted under.
    fn label(&self, answer: &Answer<LOOKUP_NUMBERS>) -> &'static str {
        match (model::used(&self.file, &self.path), answer) {
            (Err(_), _) => OTHER_FORM,
            (Ok(Used::Nothing), _) => WHOLE,
            (Ok(Used::End(_)), Ok(_)) => KEPT,
            (Ok(Used::End(_)), Err(_)) => END_OUTSIDE,
            (Ok(Used::Entry(_)), Err(_)) => ENTRY_OUTSIDE,
            (Ok(Used::Entry(_)), Ok(writes)) if writes.refused.is_some() => REFUSED_DEEPER,
            (Ok(Used::Entry(_)), Ok(_)) if self.path.len() == 1 => AT_TOP,
            (Ok(Used::Entry(_)), Ok(_)) => DEEPER,
        }
    }

    /// A lookup, and the same in a copy of the record in which every byte that may not alter it is inverted. Every
    /// third time also with `out` too short. The file, the record and the path are right before a guard, or right after
    /// one.
    pub fn compare(self, tally: &mut Tally, random: &mut Random) {
        let at_end = random.below(4) > 0;
        with_guards(|[file, record, path]| {
            let file = file.copy(&self.file, at_end);
            let path = path.copy(&self.path, at_end);
            let here = Indexed::new(file, record.copy(&self.record, at_end), path);
            get_indexed(here).compare_numbers(tally, LOOKUP_NUMBERS + random.below(3));
            if random.below(3) == 0 {
                get_indexed(here).compare_numbers(tally, random.below(LOOKUP_NUMBERS));
            }
            let seen = model::part_seen(file, &self.record, path);
            if seen.len() < self.record.len() {
                let inverted = |(at, byte): (usize, &u8)| if seen.contains(&at) { *byte } else { !byte };
                let other: Vec<u8> = self.record.iter().enumerate().map(inverted).collect();
                let here = Indexed::new(file, record.copy(&other, at_end), path);
                get_indexed(here).compare_with(tally, (UNSEEN, &[]), &self.answer(), &bytes(0), LOOKUP_NUMBERS);
            }
        });
    }
}

/// A lookup through an index.
pub fn get_indexed(indexed: Indexed<'_>) -> impl Call<LOOKUP_NUMBERS> + '_ {
    call(
        (WHOLE, &[]),
        indexed,
        |indexed, _, out| gorvisclen::get_indexed(&indexed.file, &indexed.record, &indexed.path, out),
        |indexed, _| indexed.answer(),
    )
    .labelled_by(|indexed, _, answer| Some((indexed.label(answer), &[])))
}

/// Lookups through the index that the library builds from the record itself. Each must give what the full lookup of the
/// library gives, and what that of the Rust gives; so must the model. If no index is built, nothing is compared.
pub fn own_index(tally: &mut Tally, random: &mut Random, record: &[u8], paths: &[Vec<u32>]) {
    let (mut file, mut len) = (vec![0; INDEX_BYTES], [0]);
    if gorvisclen::build_index(record, &mut file, 0, &mut len).is_err() {
        return;
    }
    file.truncate(len[0] as usize);
    let by_model = model::build(record).map(|index| index.file());
    for path in paths {
        let full: Answer<LOOKUP_NUMBERS> = Ok(Lookup::new(CRATE_READING, record, path).told().into());
        let out_len = LOOKUP_NUMBERS - usize::from(random.below(8) == 0);
        let outcome = |call: &dyn Fn(&mut [u64]) -> Reply| {
            let mut out = numbers(out_len);
            Outcome::new(call(out.part()), out, bytes(0))
        };
        let rust = outcome(&|out| give(&full, &mut [], out));
        let library = outcome(&|out| gorvisclen::get_data_object(CRATE_READING, record, path, out));
        let ours = outcome(&|out| gorvisclen::get_indexed(&file, record, path, out));
        let input = || format!("{:?}, out of {out_len} numbers", Indexed::new(&file, record, path));
        tally.compare((OWN_BESIDE_RUST, &[]), input, &rust, &ours);
        tally.compare((OWN, &[]), input, &library, &ours);
        if let Ok(file) = &by_model {
            let model = outcome(&|out| give(&model::lookup(file, record, path), &mut [], out));
            check_model(&rust, &model, || (Hex(record), Hex(path)));
        }
    }
}
