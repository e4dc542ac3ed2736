//! Compares the proved library with the original Rust. Each concept has a file, which describes each of its operations
//! once.
//!
//!     comparison [--cases N] [--seed S] [--threads T]
//!     comparison record FILE
//!     comparison bench [--emulated]
//!
//! The first form compares: it prints each mismatch, and fails if there is one. Without `--cases` it is the short run:
//! inputs that are gone through one by one, and a fixed number of random cases. With it, at least N random cases
//! follow. A case is a call of one exported function; its reply and all lent memory are compared. Each job has random
//! numbers of its own, from the seed and the number of the job. So the results do not depend on the number of threads.
//!
//! `record` writes answers of the Rust for the program replay. `bench` times every operation of the library and of the
//! Rust.
//!
//! The package comparison_coverage compiles the same source with a copy of the Rust that counts its branches.

// That copy has the functions of `original_private` too.
#[cfg(feature = "coverage")]
extern crate original as original_private;

mod aid;
mod answer;
mod benchmark;
#[cfg(feature = "coverage")]
mod branches;
mod builder;
mod calibration;
mod call;
mod class;
mod collect;
mod command;
mod guarded;
mod hex;
mod jobs;
mod lent;
mod loops;
mod panics;
mod random;
mod reassembler;
mod recording;
mod response;
mod splitter;
mod tally;
mod tlv;
mod tlv_chunks;
mod tlv_index;

use std::{env, fs, process, thread};

use crate::benchmark::Table;
use crate::jobs::{Job, Options};
use crate::random::Random;
use crate::recording::Recording;
use crate::tally::Tally;

/// The jobs of the short run. Those that take longest are first.
const SHORT_RUN: [Job; 12] = [
    tlv::compare,
    tlv_chunks::compare,
    splitter::compare,
    builder::compare,
    command::compare,
    reassembler::compare,
    calibration::compare,
    tlv_index::compare,
    collect::compare,
    response::compare,
    aid::compare,
    class::compare,
];

/// The kinds of random cases. There are equally many of each kind.
const RANDOM_KINDS: [(&str, Job); 15] = [
    ("class and AID", class_and_aid),
    ("command, parsed and owned", command::random_cases),
    ("command, extended", command::random_extensions),
    ("records, read", tlv::random_cases),
    ("records with zero bytes between objects, read", tlv::random_zeros),
    ("records, written", tlv::random_writing),
    ("records, read through an index", tlv_index::random_cases),
    ("records, in chunks", tlv_chunks::random_cases),
    ("command, built", builder::random_cases),
    ("command, one step of splitting", splitter::random_step),
    ("command, cut into a chain", splitter::random_chain),
    ("pieces, joined", reassembler::random_cases),
    ("responses", response::random_cases),
    ("responses, collected", collect::random_cases),
    ("calibration records", calibration::random_cases),
];

/// The jobs that are recorded, and how often each is run.
const RECORDED: [(usize, Job); 15] = [
    (1, class::recorded),
    (300, aid::random_cases),
    (150, tlv::random_cases),
    (1_000, tlv::broken),
    (1, tlv::every_length),
    (1, tlv::after_many),
    (400, tlv::random_writing),
    (1, tlv::every_written_boundary),
    (200, command::random_cases),
    (100, command::random_extensions),
    (1, command::every_boundary),
    (400, builder::random_cases),
    (1, builder::every_boundary),
    (2_000, splitter::random_step),
    (400, splitter::random_chain),
];

/// What is timed, in the order of the lines.
const TIMED: [fn(&mut Table); 12] = [
    class::bench,
    aid::bench,
    command::bench,
    builder::bench,
    splitter::bench,
    reassembler::bench,
    response::bench,
    collect::bench,
    tlv::bench,
    tlv_index::bench,
    tlv_chunks::bench,
    calibration::bench,
];

fn class_and_aid(tally: &mut Tally, random: &mut Random) {
    class::random_cases(tally, random);
    aid::random_cases(tally, random);
}

fn options(words: &[&str]) -> Option<Options> {
    let threads = thread::available_parallelism().map_or(1, usize::from);
    let mut options = Options { cases: 0, seed: 7816, threads };
    for pair in words.chunks(2) {
        match *pair {
            ["--cases", n] => options.cases = n.parse().ok()?,
            ["--seed", n] => options.seed = n.parse().ok()?,
            ["--threads", n] => options.threads = n.parse().ok().filter(|&n| n > 0)?,
            _ => return None,
        }
    }
    Some(options)
}

/// Compares, and returns whether that failed.
fn compare(options: &Options) -> bool {
    println!("seed {}, random cases asked for {}", options.seed, options.cases);
    let results = jobs::run(options, &SHORT_RUN, &RANDOM_KINDS);
    let of_records = tlv::required_replies().chain(tlv_index::required_replies());
    let of_records = of_records.chain(tlv_chunks::required_replies()).chain(calibration::required_replies());
    let failed = results.print(of_records);
    #[cfg(feature = "coverage")]
    let failed = branches::print(&results.branches, results.least()) || failed;
    failed
}

/// Records answers in a file, and returns whether that failed.
fn record(path: &str) -> bool {
    let (mut tally, mut random) = (Tally::default(), Random::for_recording(recording::SEED));
    tally.recording = Some(Recording::default());
    for (turns, job) in RECORDED {
        (0..turns).for_each(|_| job(&mut tally, &mut random));
    }
    let bytes = tally.recording.take().unwrap_or_default().bytes();
    match fs::write(path, &bytes) {
        Ok(()) => println!("{} bytes", bytes.len()),
        Err(ref error) => eprintln!("{path}: {error}"),
    }
    tally.mismatches() > 0 || fs::read(path).ok() != Some(bytes)
}

/// Times every operation, and returns whether one is above its limit.
fn bench(emulated: bool) -> bool {
    benchmark::print_head();
    let mut table = Table::default();
    TIMED.iter().for_each(|bench| bench(&mut table));
    println!(
        "{}",
        match emulated {
            true => "emulated: x86-64 code on another machine; the times say nothing, and the ratios little",
            false => "not emulated",
        }
    );
    table.print_above_limit() && !emulated
}

fn main() {
    let words: Vec<String> = env::args().skip(1).collect();
    let words: Vec<&str> = words.iter().map(String::as_str).collect();
    panics::hide_expected_panics();
    let failed = match words[..] {
        ["record", file] => record(file),
        ["bench"] => bench(false),
        ["bench", "--emulated"] => bench(true),
        ref words => match options(words) {
            Some(options) => compare(&options),
            None => {
                eprintln!("usage: comparison [--cases N] [--seed S] [--threads T], decimal numbers");
                eprintln!("       comparison record FILE | comparison bench [--emulated]");
                process::exit(2)
            }
        },
    };
    process::exit(failed.into())
}
