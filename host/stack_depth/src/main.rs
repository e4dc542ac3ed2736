//! Measures how many bytes of the stack each exported function takes, and prints a table. What a caller pushes is not
//! counted: arguments and the return address.
//!
//!     stack_depth DISASSEMBLY MORE
//!
//! The file is what objdump prints of the archives; the number says how many bytes more than its limit a function may
//! take. host/stack gives both. Each function is measured in two ways that have to agree: by painting (painted.rs),
//! which sees what its calls write, and by its frames (frames.rs), which sees every way through its code. The Rust's
//! serialization is painted beside it.

mod choices;
mod exported;
mod frames;
mod measured;
mod painted;
mod rust;

use std::collections::HashMap;
use std::{env, fs, process};

use crate::choices::Argument;
use crate::exported::{Exported, Parameter};
use crate::measured::{Lent, Measured};
use crate::painted::Stack;
use crate::rust::Outcome;

/// A function with a limit.
struct Limited {
    name: &'static str,
    /// The most bytes that its frames may have.
    limit: usize,
    /// Calls the Rust's function that does the same.
    rust: fn(&mut Stack, &mut Lent, &[&Argument]) -> Outcome,
}

const LIMITED: [Limited; 3] = [
    Limited { name: "serialize_into", limit: 64, rust: rust::serialize_into },
    Limited { name: "write_next", limit: 128, rust: rust::write_next },
    Limited { name: "put_data_object", limit: 64, rust: rust::put_data_object },
];

/// The functions that have no other answer than a refusal: 11 or 12 if a walk in chunks is closed.
const ALWAYS_REFUSED: [&str; 1] = ["close_chunks"];

/// How many bytes of its frames may be left that no call writes, since no input takes that way through the code: less
/// than a register takes.
const UNWRITTEN: usize = 7;

/// The kinds of parameters that have a line of their own below a function with a limit.
const TOLD_APART: [(&str, &str); 4] = [("data", "bytes of data"), ("mode", "mode"), ("le", "Le"), ("chain_le", "Le")];

/// The measuring of all functions.
struct Run {
    stack: Stack,
    lent: Lent,
    /// How many bytes more than its limit a function may take.
    more: usize,
    /// What is wrong so far.
    wrong: Vec<String>,
}

impl Run {
    /// Measures a function and prints its line.
    fn print(&mut self, exported: &Exported, frames: Option<usize>) {
        let Run { stack, lent, .. } = self;
        let Exported { name, function, ref parameters } = *exported;
        // Safety: the table of exported functions has the parameters of each.
        let measured = Measured::new(parameters, |arguments| Some(unsafe { lent.call(stack, function, arguments) }));
        let limited = LIMITED.iter().find(|limited| limited.name == name);
        let rust = limited.map(|limited| Measured::new(parameters, |arguments| (limited.rust)(stack, lent, arguments)));
        let columns = [
            Some(measured.deepest()),
            frames,
            limited.map(|limited| limited.limit),
            rust.as_ref().map(Measured::deepest),
            Some(measured.calls),
            Some(measured.accepted),
        ];
        println!("{name:<24}{}", columns.map(|n| format!("{:>10}", shown(n))).concat());
        if let Some(rust) = &rust {
            print_apart(parameters, &measured, rust);
            self.check_accepted(&format!("the Rust's {name}"), rust);
        }
        self.check_accepted(name, &measured);
        self.check(name, measured.deepest(), frames, limited);
    }

    fn check_accepted(&mut self, name: &str, measured: &Measured) {
        match (measured.accepted, ALWAYS_REFUSED.contains(&name)) {
            (0, false) => self.wrong.push(format!("{name}: every call was refused")),
            (1.., true) => self.wrong.push(format!("{name}: a call was not refused")),
            _ => {}
        }
    }

    fn check(&mut self, name: &str, painted: usize, frames: Option<usize>, limited: Option<&Limited>) {
        match frames {
            None => self.wrong.push(format!("{name} is in no archive")),
            Some(frames) if frames < painted || frames > painted + UNWRITTEN => {
                self.wrong.push(format!("{name}: the two ways do not agree: painted {painted}, frames {frames}"));
            }
            Some(frames) if limited.is_some_and(|limited| frames > limited.limit + self.more) => {
                self.wrong.push(format!("{name}: above its limit"));
            }
            Some(_) => {}
        }
    }
}

/// A number, or nothing.
fn shown(n: Option<usize>) -> String {
    n.map_or(String::new(), |n| n.to_string())
}

/// Prints what calls took for each length of data, each mode and each expected length; the Rust's figure in brackets.
fn print_apart(parameters: &[Parameter], measured: &Measured, rust: &Measured) {
    for (i, parameter) in parameters.iter().enumerate() {
        let Some((_, what)) = TOLD_APART.iter().find(|(kind, _)| *kind == parameter.kind) else { continue };
        let depths = measured.by_choice[i].iter().zip(&rust.by_choice[i]);
        let cell = |(choice, (ours, rust)): (&Argument, (&Option<usize>, &Option<usize>))| {
            format!("{}: {} ({})", choice.size(), shown(*ours), shown(*rust))
        };
        let cells: Vec<String> = parameter.choices.iter().zip(depths).map(cell).collect();
        println!("    by {what:<17} {}", cells.join("   "));
    }
}

/// The frames of each exported function, and how many bytes more than a limit are allowed.
fn given() -> Result<(HashMap<String, usize>, usize), String> {
    let words: Vec<String> = env::args().skip(1).collect();
    let [file, more] = &words[..] else { return Err("usage: stack_depth DISASSEMBLY MORE".into()) };
    let text = fs::read_to_string(file).map_err(|error| format!("{file}: {error}"))?;
    Ok((frames::exported(&text)?, more.parse().map_err(|error| format!("{more}: {error}"))?))
}

fn main() {
    let (frames, more) = given().unwrap_or_else(|error| {
        println!("{error}");
        process::exit(2);
    });
    println!("bytes of the stack that a call takes, without its arguments and its return address");
    let head = ["painted", "frames", "limit", "the Rust", "calls", "accepted"];
    println!("{:24}{}", "", head.map(|text| format!("{text:>10}")).concat());
    let exported = exported::all();
    let mut run = Run { stack: Stack::new(), lent: Lent::new(), more, wrong: vec![] };
    for function in &exported {
        run.print(function, frames.get(function.name).copied());
    }
    let limited = LIMITED.iter().map(|limited| limited.name);
    for name in frames.keys().map(String::as_str).chain(limited) {
        if exported.iter().all(|function| function.name != name) {
            run.wrong.push(format!("{name} is not measured"));
        }
    }
    run.wrong.iter().for_each(|line| println!("{line}"));
    if run.wrong.is_empty() {
        println!("painted and frames agree, and no function is above its limit");
    }
    process::exit((!run.wrong.is_empty()).into());
}
