//! Writes copies of the four ported files of the Rust with a counter in every branch, and a table of the branches. The
//! other files of the folder are copied as they are.
//!
//! A branch is: the body of a function, a loop or a closure; the block of an `if` and of its `else`, and if an `if` has
//! no `else`, not entering it; an arm of a `match`; an early exit by `?`. The copies only lose the `const` of
//! functions, because a counter cannot count at compile time. For the constants there is an unchanged second copy of
//! each such function.

mod instrument;
mod lexer;

use std::path::{Path, PathBuf};
use std::{env, fs, process};

const WITH_COUNTERS: [&str; 4] = ["aid.rs", "tlv.rs", "command.rs", "command/class.rs"];
const UNCHANGED: [&str; 3] = ["command/datasource.rs", "command/instruction.rs", "command/writer.rs"];

fn folder(variable: &str) -> PathBuf {
    PathBuf::from(env::var_os(variable).unwrap())
}

fn read(file: &str) -> String {
    let from = folder("CARGO_MANIFEST_DIR").join("../../../shared/docs/src").join(file);
    println!("cargo:rerun-if-changed={}", from.display());
    fs::read_to_string(&from).unwrap_or_else(|error| {
        eprintln!("{}: {error}", from.display());
        process::exit(1);
    })
}

/// Writes a file into one folder with all others: an included file looks for its modules beside itself.
fn write(file: &str, text: &str) {
    let name = Path::new(file).file_name().unwrap();
    fs::write(folder("OUT_DIR").join(name), text).unwrap();
}

fn main() {
    println!("cargo:rerun-if-changed=build.rs");
    println!("cargo:rerun-if-changed=lexer.rs");
    println!("cargo:rerun-if-changed=instrument.rs");
    for file in UNCHANGED {
        write(file, &read(file));
    }
    let mut branches = Vec::new();
    for file in WITH_COUNTERS {
        let source = read(file);
        let tokens = lexer::tokens(&source);
        write(file, &instrument::with_counters(file, &tokens, &mut branches));
    }
    let rows: String = branches.iter().map(|row| format!("    {row},\n")).collect();
    let table = format!("pub const BRANCHES: [Branch; {}] = [\n{rows}];\n", branches.len());
    write("branches.rs", &table);
}
