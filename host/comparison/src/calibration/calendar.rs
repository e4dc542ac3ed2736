//! The calendar: every day from 1 January 2000 to 31 December 2099, as the program `date` of GNU coreutils names it. It
//! is the only rule for dates here. A date is real if the list has it, and it is earlier than another one if it stands
//! before it.

use std::collections::HashMap;
use std::io::{self, Write};
use std::process::{Command, Output, Stdio};
use std::sync::OnceLock;
use std::thread;

/// How many days there are; the first and the last one, as they are printed.
const DAYS: usize = 36_525;
const FIRST: &str = "2000-01-01";
const LAST: &str = "2099-12-31";

/// When the first day starts, in seconds since 1970, and how many seconds later the next one does.
const START: usize = 946_684_800;
const STEP: usize = 86_400;

/// A day.
#[derive(Clone, Copy, Debug)]
pub struct Day {
    /// The eight digits of its date as packed decimal.
    pub bytes: [u8; 4],
    /// Its year, its month and its day.
    pub numbers: [u32; 3],
}

pub struct Calendar {
    /// All days, in their order.
    pub days: Vec<Day>,
    by_bytes: HashMap<[u8; 4], usize>,
    by_numbers: HashMap<[u32; 3], usize>,
}

/// Runs `date` once, for all days.
fn run_date() -> io::Result<Output> {
    let mut date = Command::new("date")
        .args(["--utc", "--file=-", "+%Y-%m-%d"])
        .env("LC_ALL", "C")
        .stdin(Stdio::piped())
        .stdout(Stdio::piped())
        .spawn()?;
    let seconds: String = (0..DAYS).map(|n| format!("@{}\n", START + n * STEP)).collect();
    let stdin = date.stdin.take();
    // It prints while it is written to.
    let writing = thread::spawn(move || stdin.map(|mut stdin| stdin.write_all(seconds.as_bytes())));
    let output = date.wait_with_output();
    writing.join().ok().flatten().unwrap_or(Err(io::ErrorKind::BrokenPipe.into()))?;
    output
}

impl Day {
    /// The day of a line.
    fn printed(line: &str) -> Option<Self> {
        let digits = u32::from_str_radix(&line.replace('-', ""), 16).ok()?;
        let numbers: Vec<u32> = line.split('-').map(str::parse).collect::<Result<_, _>>().ok()?;
        Some(Day { bytes: digits.to_be_bytes(), numbers: numbers.try_into().ok()? })
    }
}

impl Calendar {
    /// The calendar of the lines that are printed, if they are what they must be.
    fn printed(lines: &str) -> Option<Self> {
        let lines: Vec<&str> = lines.lines().collect();
        let days: Vec<Day> = lines.iter().map(|line| Day::printed(line)).collect::<Option<_>>()?;
        let by_bytes: HashMap<_, _> = days.iter().map(|day| day.bytes).zip(0..).collect();
        let by_numbers: HashMap<_, _> = days.iter().map(|day| day.numbers).zip(0..).collect();
        let all_different = [by_bytes.len(), by_numbers.len()] == [DAYS; 2];
        let all = lines.len() == DAYS && lines[0] == FIRST && lines[DAYS - 1] == LAST && all_different;
        all.then_some(Calendar { days, by_bytes, by_numbers })
    }

    fn new() -> Self {
        let output = run_date().unwrap_or_else(|error| panic!("the calendar: the program date did not run: {error}"));
        let calendar = Calendar::printed(&String::from_utf8_lossy(&output.stdout));
        calendar.filter(|_| output.status.success()).unwrap_or_else(|| {
            panic!("the calendar: the program date did not print the {DAYS} days from {FIRST} to {LAST}; is it GNU's?")
        })
    }

    /// The place of a date in the list, from its packed decimal.
    pub fn place_of_bytes(&self, bytes: [u8; 4]) -> Option<usize> {
        self.by_bytes.get(&bytes).copied()
    }

    /// The place of a date in the list, from its year, its month and its day.
    pub fn place_of_numbers(&self, numbers: [u32; 3]) -> Option<usize> {
        self.by_numbers.get(&numbers).copied()
    }
}

/// The calendar of this run.
pub fn calendar() -> &'static Calendar {
    static CALENDAR: OnceLock<Calendar> = OnceLock::new();
    CALENDAR.get_or_init(Calendar::new)
}
