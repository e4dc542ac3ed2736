//! Runs the Rust blocks of README.md one after the other. The build script compiles each into a function.

use std::process;

use gorvisclen::Refused;

type Snippet = fn() -> Result<(), Refused>;

include!(concat!(env!("OUT_DIR"), "/snippets.rs"));

fn main() {
    for (line, run) in SNIPPETS {
        println!("README.md:{line}:");
        if let Err(Refused(number)) = run() {
            println!("README.md:{line}: refused {number}");
            process::exit(1);
        }
    }
    println!("README.md: {} blocks compiled and run", SNIPPETS.len());
}
