//! Runs the jobs of a comparison on several threads, and prints what came out.

use std::sync::atomic::{AtomicUsize, Ordering};
use std::thread;

use crate::random::Random;
use crate::tally::Tally;

/// Compares some cases.
pub type Job = fn(&mut Tally, &mut Random);

/// A job of random cases goes on until it has compared this many.
const CASES_OF_A_JOB: u64 = 50_000;

/// The fewest times that every refusal and every branch must come: in a run with random cases, and in a short run.
pub const LEAST: u64 = 1_000;
const LEAST_SHORT: u64 = 1;

/// The numbers of refusal that the library gives. 20 belongs to the listing.
const REFUSALS: [u8; 26] =
    [1, 2, 3, 4, 5, 6, 7, 8, 9, 10, 11, 12, 13, 14, 15, 16, 17, 18, 19, 21, 22, 23, 24, 25, 26, 27];

/// The options of a run.
pub struct Options {
    /// How many random cases there are at least.
    pub cases: u64,
    pub seed: u64,
    pub threads: usize,
}

/// The results of a run.
pub struct Results {
    requested_cases: u64,
    pub tally: Tally,
    /// How many random cases there are of each kind.
    random: Vec<(&'static str, u64)>,
    /// How often each branch was taken, if branches are counted.
    #[cfg_attr(not(feature = "coverage"), allow(dead_code))]
    pub branches: Vec<u64>,
}

fn add(sum: &mut Vec<u64>, counts: &[u64]) {
    sum.resize(sum.len().max(counts.len()), 0);
    sum.iter_mut().zip(counts).for_each(|(sum, n)| *sum += n);
}

/// How often each branch was taken in this thread; empty if branches are not counted.
fn branches() -> Vec<u64> {
    #[cfg(feature = "coverage")]
    return original::counts();
    #[cfg(not(feature = "coverage"))]
    Vec::new()
}

/// Runs the jobs of the short run, then the requested number of random jobs, in turn one of each kind.
pub fn run(options: &Options, short_run: &[Job], kinds: &[(&'static str, Job)]) -> Results {
    let rounds = options.cases.div_ceil(CASES_OF_A_JOB * kinds.len() as u64) as usize;
    let jobs = short_run.len() + rounds * kinds.len();
    let next = AtomicUsize::new(0);
    let work = || {
        let (mut tally, mut shares) = (Tally::default(), vec![0; kinds.len()]);
        loop {
            let job = next.fetch_add(1, Ordering::Relaxed);
            let mut random = Random::of_job(options.seed, job as u64);
            if let Some(compare) = short_run.get(job) {
                compare(&mut tally, &mut random);
            } else if job < jobs {
                let kind = (job - short_run.len()) % kinds.len();
                let before = tally.calls();
                while tally.calls() - before < CASES_OF_A_JOB {
                    (kinds[kind].1)(&mut tally, &mut random);
                }
                shares[kind] += tally.calls() - before;
            } else {
                return (tally, shares, branches());
            }
        }
    };
    let (mut tally, mut shares, mut branches) = (Tally::default(), Vec::new(), Vec::new());
    thread::scope(|scope| {
        let threads: Vec<_> = (0..options.threads).map(|_| scope.spawn(work)).collect();
        for thread in threads {
            let (thread_tally, thread_shares, thread_branches) = thread.join().expect("a thread failed");
            tally.add(thread_tally);
            add(&mut shares, &thread_shares);
            add(&mut branches, &thread_branches);
        }
    });
    let random = kinds.iter().map(|kind| kind.0).zip(shares).collect();
    Results { requested_cases: options.cases, tally, random, branches }
}

impl Results {
    /// The fewest times that every refusal and every branch must come.
    pub fn least(&self) -> u64 {
        match self.requested_cases {
            0 => LEAST_SHORT,
            _ => LEAST,
        }
    }

    /// Prints how often a reply came, in all or under a label. Returns whether that is too seldom.
    fn print_reply(&self, reply: u8, count: u64, label: &str) -> bool {
        let few = count < self.least();
        let words = match reply {
            0 => "done".to_string(),
            n => format!("refused {n:>2}"),
        };
        println!("{words:10}: {count:>9}{label}{}", if few { ": TOO FEW" } else { "" });
        few
    }

    /// Prints the counts, and returns whether the run failed. Some replies must come under some labels.
    pub fn print(&self, required: impl Iterator<Item = (&'static str, u8)>) -> bool {
        self.tally.print();
        let random: u64 = self.random.iter().map(|(_, cases)| cases).sum();
        for (name, cases) in &self.random {
            if random > 0 {
                let share = 100.0 * *cases as f64 / random as f64;
                println!("random   {cases:>9}  {name}: {share:.1} %");
            }
        }
        let mut failed = self.tally.mismatches() > 0;
        for number in REFUSALS {
            failed |= self.print_reply(number, self.tally.refused(number), "");
        }
        for (label, reply) in required {
            failed |= self.print_reply(reply, self.tally.replied_under(label, reply), &format!("  {label}"));
        }
        println!(
            "compared in all: {} cases, of them {random} random; mismatches: {}",
            self.tally.calls(),
            self.tally.mismatches()
        );
        failed
    }
}
