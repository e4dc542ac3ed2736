//! Counts of compared cases by operation and by reply, and the mismatches.

use std::collections::BTreeMap;
use std::process;
use std::sync::atomic::{AtomicU64, Ordering};

use crate::answer::reply_number;
use crate::lent::Outcome;
use crate::recording::Recording;

/// The program stops at this many mismatches, in all threads together.
const MISMATCH_LIMIT: u64 = 20;
static MISMATCHES: AtomicU64 = AtomicU64::new(0);

/// The label that a call is counted under; and one for each of its numbers, if the call is not refused.
pub type Labels = (&'static str, &'static [&'static str]);

/// Words in the label of an operation that the Rust does not have, and a name for what it is compared with instead.
const OTHER_REFERENCES: [(&str, &str); 6] = [
    ("checked against a table", "table"),
    ("checked against a rule", "rule"),
    ("checked against a model", "model"),
    ("checked against document 01", "document 01"),
    ("checked against document 02", "document 02"),
    ("checked against the request's page", "page"),
];

/// The cases of one label: how many they are, and how many of them must get each reply.
#[derive(Default)]
struct Count {
    cases: u64,
    replies: BTreeMap<u8, u64>,
}

#[derive(Default)]
pub struct Tally {
    counts: BTreeMap<&'static str, Count>,
    calls: u64,
    /// Where calls are recorded, if they are.
    pub recording: Option<Recording>,
}

impl Count {
    /// The replies in words; empty if no case is refused.
    fn replies(&self) -> String {
        if self.replies.keys().all(|&reply| reply == 0) {
            return String::new();
        }
        let words = self.replies.iter().map(|(reply, count)| match reply {
            0 => format!("done {count}"),
            n => format!("refused {n}: {count}"),
        });
        format!("; {}", words.collect::<Vec<_>>().join(", "))
    }
}

impl Tally {
    /// Counts cases with one reply. If that is not a refusal, they count under the label of each number too.
    pub fn count(&mut self, (label, number_labels): Labels, reply: u8, cases: u64) {
        if cases == 0 {
            return;
        }
        self.calls += cases;
        let count = self.counts.entry(label).or_default();
        count.cases += cases;
        *count.replies.entry(reply).or_default() += cases;
        if reply == 0 {
            for label in number_labels {
                self.counts.entry(label).or_default().cases += cases;
            }
        }
    }

    /// Compares the outcomes of one call, and prints a mismatch. The call counts under its label. If neither outcome is
    /// a refusal, it counts under the label of each number too.
    pub fn compare(
        &mut self,
        (label, number_labels): Labels,
        input: impl Fn() -> String,
        reference: &Outcome,
        ours: &Outcome,
    ) {
        let both_done = reference.reply.is_ok() && ours.reply.is_ok();
        let counted_numbers = if both_done { number_labels } else { &[] };
        self.count((label, counted_numbers), reply_number(reference.reply), 1);
        if reference == ours {
            return;
        }
        let differs = |&i: &usize| both_done && reference.out.at(i) != ours.out.at(i);
        let number = (0..number_labels.len()).find(differs).map(|i| number_labels[i]);
        let name = number.unwrap_or(label);
        let other = OTHER_REFERENCES.iter().find(|(words, _)| name.contains(words));
        let reference_name = other.map_or("rust", |(_, name)| name);
        let lines = [
            format!("mismatch: {name}, by a call of {label}"),
            format!("  input: {}", input()),
            format!("  first: {}", reference.first_difference(ours)),
            format!("  {reference_name:5}: {reference}"),
            format!("  ours : {ours}"),
        ];
        // Printed at once, because other threads print too.
        println!("{}", lines.join("\n"));
        if MISMATCHES.fetch_add(1, Ordering::Relaxed) + 1 == MISMATCH_LIMIT {
            println!("stopped after {MISMATCH_LIMIT} mismatches");
            process::exit(1);
        }
    }

    /// Adds the counts of another tally.
    pub fn add(&mut self, other: Tally) {
        self.calls += other.calls;
        for (label, added) in other.counts {
            let count = self.counts.entry(label).or_default();
            count.cases += added.cases;
            for (reply, cases) in added.replies {
                *count.replies.entry(reply).or_default() += cases;
            }
        }
    }

    /// How many calls were compared.
    pub fn calls(&self) -> u64 {
        self.calls
    }

    /// How many of them must be refused with this number.
    pub fn refused(&self, number: u8) -> u64 {
        let replies = self.counts.values().map(|count| &count.replies);
        replies.filter_map(|replies| replies.get(&number)).sum()
    }

    /// How many calls under one label must get this reply, 0 for done.
    pub fn replied_under(&self, label: &str, reply: u8) -> u64 {
        self.counts.get(label).and_then(|count| count.replies.get(&reply)).copied().unwrap_or(0)
    }

    /// How many mismatches there are, in all threads together.
    pub fn mismatches(&self) -> u64 {
        MISMATCHES.load(Ordering::Relaxed)
    }

    /// Prints the counts by operation and reply.
    pub fn print(&self) {
        for (label, count) in &self.counts {
            println!("compared {:>9}  {label}{}", count.cases, count.replies());
        }
    }
}
