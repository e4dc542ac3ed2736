//! The benchmark: times the proved library and the Rust on the same inputs, in one run, both built for release.
//!
//! A call is one call of the Rust's function, or of the exported function. Neither is inlined into the loop. Rounds of
//! the two sides alternate, and the best round of each side counts. The benchmark fails if the library takes more than
//! its limit of the Rust's time, unless it runs in an emulator. The limits: 1.1 for a command that is read, cut, or
//! written with at most 256 data bytes; 2 for one that is written with more; 1.2 for one that is joined; 1.5 for a
//! lookup. A line with the limit `inf` has no limit.

use std::hint::black_box;
use std::process;
use std::time::Instant;

use crate::answer::{give, reply_number};
use crate::call::Call;

const ROUNDS: usize = 400;

/// How many calls a round makes, or a few less; fewer if a call goes through many bytes.
const CALLS: usize = 9_000;

/// The limit of a line without a limit.
pub const NO_LIMIT: f64 = f64::INFINITY;

/// A header for commands, if any will do.
pub const HEADER: [u8; 4] = [0x00, 0xDB, 0x3F, 0xFF];

/// The lengths of `to` and `out` for each call of a line, and how many bytes a call goes through.
#[derive(Clone, Copy, Default)]
pub struct Size {
    pub to: usize,
    pub out: usize,
    pub bytes: usize,
}

/// The printed table. It keeps the names of the lines that are above their limit.
#[derive(Default)]
pub struct Table {
    above_limit: Vec<String>,
}

/// Calls the library; the number of its reply.
#[inline(always)]
pub fn ours<const N: usize>(call: &impl Call<N>, to: &mut [u8], out: &mut [u64]) -> u8 {
    reply_number(call.ours(to, out))
}

/// Calls the Rust, and is not inlined.
#[inline(never)]
fn rust<const N: usize>(call: &impl Call<N>, to: &mut [u8], out: &mut [u64]) -> u8 {
    rust_inlined(call, to, out)
}

/// The same, inlined into its caller.
#[inline(always)]
fn rust_inlined<const N: usize>(call: &impl Call<N>, to: &mut [u8], out: &mut [u64]) -> u8 {
    reply_number(give(&call.rust(to.len()), to, out))
}

/// The nanoseconds that a call takes in one round over the samples. The lent buffers are not cleared between the calls.
#[inline(never)]
fn round<S, T>(size: Size, samples: &[S], call: impl Fn(&S, &mut [u8], &mut [u64]) -> T) -> f64 {
    let mut lent = (vec![0; size.to], vec![0; size.out]);
    let times = (CALLS / (1 + size.bytes / 300)).div_ceil(samples.len());
    let start = Instant::now();
    for _ in 0..times {
        for sample in samples {
            let (to, out) = black_box(&mut lent);
            let answer = call(black_box(sample), to, out);
            black_box(&answer);
        }
    }
    start.elapsed().as_nanos() as f64 / (times * samples.len()) as f64
}

/// The nanoseconds of the best of some calls.
pub fn best_of(calls: usize, call: impl Fn() -> f64) -> f64 {
    (0..calls).map(|_| call()).fold(f64::INFINITY, f64::min)
}

/// Ends the program if the two sides differ.
pub fn check<T: PartialEq + std::fmt::Debug>(name: &str, rust: T, ours: T) {
    if rust != ours {
        println!("{name}: the sides differ: {rust:?}, {ours:?}");
        process::exit(1);
    }
}

/// A side: it writes to the lent buffers and returns the number of its reply.
type Side<'a> = &'a dyn Fn(&mut [u8], &mut [u64]) -> u8;

/// Checks that two sides reply and write the same.
fn check_sides(name: &str, size: Size, sides: [Side; 2]) {
    let [rust, ours] = sides.map(|side| {
        let (mut to, mut out) = (vec![7; size.to], vec![7; size.out]);
        (side(&mut to, &mut out), to, out)
    });
    check(name, rust, ours);
}

/// Checks each call against its reference. Returns the size with as many numbers as the call writes.
pub fn checked<const N: usize>(name: &str, calls: &[impl Call<N>], size: Size) -> Size {
    let size = Size { out: N, ..size };
    for call in calls {
        let reference = |to: &mut [u8], out: &mut [u64]| reply_number(give(&call.reference(to.len()), to, out));
        check_sides(name, size, [&reference, &|to, out| ours(call, to, out)]);
    }
    size
}

impl Table {
    /// Times both sides in turn and prints a line. A side is a round that returns the nanoseconds of a call.
    pub fn time(&mut self, name: &str, limit: f64, rust: impl Fn() -> f64, ours: impl Fn() -> f64) {
        let mut best = (f64::INFINITY, f64::INFINITY);
        for _ in 0..ROUNDS {
            best.0 = best.0.min(rust());
            best.1 = best.1.min(ours());
        }
        let ratio = best.1 / best.0;
        println!("{name:<36} {:>10.2} {:>10.2} {ratio:>6.2} {limit:>6.2}", best.0, best.1);
        if ratio > limit {
            self.above_limit.push(name.trim().to_string());
        }
    }

    /// Checks calls, then times them on both sides. The Rust's functions with a limit are not inlined into the loop in
    /// either case.
    pub fn calls<const N: usize>(&mut self, name: &str, limit: f64, calls: &[impl Call<N>], size: Size) {
        let size = checked(name, calls, size);
        let ours = || round(size, calls, ours);
        match limit {
            NO_LIMIT => self.time(name, limit, || round(size, calls, |call, to, out| rust(call, to, out)), ours),
            _ => self.time(name, limit, || round(size, calls, |call, to, out| rust_inlined(call, to, out)), ours),
        }
    }

    /// Checks and times two sides that are not described as one call, each on samples of its own.
    pub fn sides<S, T>(
        &mut self,
        (name, limit): (&str, f64),
        size: Size,
        (rust_samples, our_samples): (&[S], &[T]),
        rust: impl Fn(&S, &mut [u8], &mut [u64]) -> u8,
        ours: impl Fn(&T, &mut [u8], &mut [u64]) -> u8,
    ) {
        for (rust_sample, our_sample) in rust_samples.iter().zip(our_samples) {
            check_sides(name, size, [&|to, out| rust(rust_sample, to, out), &|to, out| ours(our_sample, to, out)]);
        }
        self.time_sides((name, limit), size, (rust_samples, our_samples), rust, ours);
    }

    /// The same without the check, for sides that do not write the same.
    pub fn time_sides<S, T>(
        &mut self,
        (name, limit): (&str, f64),
        size: Size,
        (rust_samples, our_samples): (&[S], &[T]),
        rust: impl Fn(&S, &mut [u8], &mut [u64]) -> u8,
        ours: impl Fn(&T, &mut [u8], &mut [u64]) -> u8,
    ) {
        let rust = || round(size, rust_samples, &rust);
        let ours = || round(size, our_samples, &ours);
        self.time(name, limit, rust, ours);
    }

    /// Times two sides that return their answers.
    pub fn returning<S, T, U>(
        &mut self,
        (name, limit): (&str, f64),
        size: Size,
        samples: &[S],
        rust: impl Fn(&S) -> T,
        ours: impl Fn(&S, &mut [u8], &mut [u64]) -> U,
    ) {
        let rust = || round(size, samples, |sample, _, _| rust(sample));
        let ours = || round(size, samples, &ours);
        self.time(name, limit, rust, ours);
    }

    /// Prints which lines are above their limit, and returns whether there are any.
    pub fn print_above_limit(&self) -> bool {
        match &self.above_limit[..] {
            [] => println!("none takes more of the Rust's time than its limit"),
            names => println!("more of the Rust's time than its limit: {}", names.join("; ")),
        }
        !self.above_limit.is_empty()
    }
}

/// Prints the head of the table.
pub fn print_head() {
    println!("nanoseconds a call, the best of {ROUNDS} rounds");
    println!("{:36} {:>10} {:>10} {:>6} {:>6}", "", "rust", "ours", "ratio", "limit");
}
