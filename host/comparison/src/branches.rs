//! How often each branch of the Rust was taken, and the branches that no caller can take.

use original::{Branch, BRANCHES};

use crate::jobs::LEAST;

const DEBUG: &str = "Debug is not ported";
const NESTED: &str = "a builder as the data of another writer: nested data sources are not ported";

/// Branches that are never taken: the file, a part of the function's name, a part of the text (empty for all of the
/// function), and the reason. The run fails if such a branch is taken, or if a row fits no branch.
const EXCEPTED: [(&str, &str, &str, &str); 8] = [
    ("aid.rs", "impl fmt::Debug for FromSliceError", "", DEBUG),
    ("aid.rs", "impl fmt::Debug for Aid", "", DEBUG),
    ("command.rs", "DataSource for CommandBuilder<D>", "", NESTED),
    ("command.rs", "DataStream<W> for CommandBuilder<D>", "", NESTED),
    (
        "command.rs",
        "serialize_expected_len",
        "(_, false, false, ExtendedLen::Forced)",
        "`unreachable!`: with data, Lc is extended wherever Le is above 256 or extended is forced",
    ),
    (
        "command.rs",
        "serialize_expected_len",
        "(_, true, true, _)",
        "`unreachable!`: without data, Lc is never extended",
    ),
    (
        "command/class.rs",
        "secure_messaging",
        "match (self.cla >> 2) & 0b11: _",
        "`unreachable!`: two bits have four values",
    ),
    (
        "command/class.rs",
        "secure_messaging",
        "match (self.cla >> 5) != 0: false",
        "the class is then in 0x40 to 0x7F, whose three high bits are not zero",
    ),
];

/// How many of the rarest branches are printed, besides those that are taken less than a thousand times.
const RAREST: usize = 12;

/// The row of `EXCEPTED` that a branch fits.
fn exception(branch: &Branch) -> Option<usize> {
    EXCEPTED.iter().position(|&(file, function, text, _)| {
        branch.file == file && branch.function.contains(function) && branch.text.contains(text)
    })
}

fn line(count: u64, branch: &Branch) -> String {
    let Branch { file, line, function, text } = branch;
    format!("branch {count:>10}  {file}:{line}, {function}: {text}")
}

/// Prints the rarest branches. Returns whether the run failed: a branch was taken too seldom, or an exception is wrong.
pub fn print(counts: &[u64], least: u64) -> bool {
    let mut branches: Vec<_> = counts.iter().copied().zip(&BRANCHES).collect();
    branches.sort_by_key(|(count, _)| *count);
    let (mut failed, mut printed) = (false, 0);
    let mut used = [0_usize; EXCEPTED.len()];
    for &(count, branch) in &branches {
        match exception(branch) {
            Some(at) if count == 0 => used[at] += 1,
            Some(_) => {
                println!("{}: EXCEPTED, BUT TAKEN", line(count, branch));
                failed = true;
            }
            None if count < least => {
                println!("{}: TOO FEW", line(count, branch));
                failed = true;
            }
            None if printed < RAREST || count < LEAST => {
                println!("{}", line(count, branch));
                printed += 1;
            }
            None => (),
        }
    }
    for (&(file, function, text, why), n) in EXCEPTED.iter().zip(used) {
        let fault = if n == 0 { ": EXCEPTED, BUT NOT THERE" } else { "" };
        println!("branches {n:>8}  excepted in {file}, {function} {text}: {why}{fault}");
        failed |= n == 0;
    }
    let required = branches.len() - used.iter().sum::<usize>();
    println!("branches in all: {}, required at least {least} times: {required}", branches.len());
    failed
}
