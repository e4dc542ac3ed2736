//! Records that come in chunks. The Rust has no such walk. So each call is compared with a model of request 6, in any
//! state; and records in chunks with what the Rust's `take_data_object` reads in the whole record, call by call and all
//! replies joined, however they are divided. `every_division.rs` has short strings, `values.rs` values of many lengths,
//! `states.rs` states that no record leads to. The chunks are between guards (`guarded.rs`).

mod benchmark;
mod document_cases;
mod every_division;
mod labels;
mod model;
mod operations;
mod player;
mod sessions;
mod states;
mod told;
mod values;
mod whole;

pub use self::benchmark::bench;
pub use self::labels::required as required_replies;
use self::sessions::{divided, random_ends};
use self::states::random_state;
use self::whole::Whole;
use crate::random::Random;
use crate::tally::Tally;
use crate::tlv::records::{long_record, random_record, unreadable_at};

/// A record in a few random divisions.
fn divided_at_random(tally: &mut Tally, random: &mut Random, record: &[u8]) {
    let whole = Whole::of(record);
    let divisions = [0; 3].map(|_| random_ends(random, &whole));
    divided(tally, random, record, &divisions);
}

/// Random bytes. Every second one is small: a tag of one byte, or a length that may fit.
fn random_bytes(tally: &mut Tally, random: &mut Random) {
    let n = random.below(24);
    let mut bytes = random.bytes(n);
    bytes.iter_mut().step_by(2).for_each(|byte| *byte %= 64);
    divided_at_random(tally, random, &bytes);
}

/// A random record: whole, with a byte changed, damaged, cut, and with an object that cannot be read. Then random bytes
/// and random states.
pub fn random_cases(tally: &mut Tally, random: &mut Random) {
    let depth = 1 + random.below(3);
    let record = random_record(random, depth).bytes;
    let cut = random.below(record.len() + 1);
    let [changed, damaged] = [random.one_byte_off(&record), random.damaged(&record)];
    let broken = unreadable_at(random, &record, cut..record.len());
    for bytes in [&record, &changed, &damaged, &record[..cut], &broken] {
        divided_at_random(tally, random, bytes);
    }
    for _ in 0..4 {
        random_bytes(tally, random);
    }
    for _ in 0..40 {
        random_state(tally, random);
    }
}

/// Long records of many small objects, whole and cut: at once, in chunks of 255 bytes, and in random ones.
fn long(tally: &mut Tally, random: &mut Random) {
    for outer in [200, 4_000, 60_000, 140_000] {
        let record = long_record(random, outer, 300).bytes;
        for cut in [0, 1, 2, 5] {
            let bytes = &record[..record.len() - cut];
            let len = bytes.len();
            let of_255 = (255..len).step_by(255).chain([len]).collect();
            divided(tally, random, bytes, &[vec![len], of_255]);
            divided_at_random(tally, random, bytes);
        }
    }
}

/// The short run.
pub fn compare(tally: &mut Tally, random: &mut Random) {
    document_cases::compare(tally);
    states::compare(tally, random);
    every_division::compare(tally, random);
    values::compare(tally, random);
    long(tally, random);
    for _ in 0..2_500 {
        random_cases(tally, random);
    }
}
