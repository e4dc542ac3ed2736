//! Copies the original command.rs and the files of its folder into one folder: an included file looks for its modules
//! beside itself.

use std::path::{Path, PathBuf};
use std::{env, fs, process};

const FILES: [&str; 5] =
    ["command.rs", "command/class.rs", "command/datasource.rs", "command/instruction.rs", "command/writer.rs"];

fn folder(variable: &str) -> PathBuf {
    PathBuf::from(env::var_os(variable).unwrap())
}

fn main() {
    let source = folder("CARGO_MANIFEST_DIR").join("../../../shared/docs/src");
    for file in FILES {
        let from = source.join(file);
        let to = folder("OUT_DIR").join(Path::new(file).file_name().unwrap());
        println!("cargo:rerun-if-changed={}", from.display());
        // Read and written: a copy would be read-only, as the source is.
        let copied = fs::read(&from).and_then(|text| fs::write(to, text));
        if let Err(error) = copied {
            eprintln!("{}: {error}", from.display());
            process::exit(1);
        }
    }
}
