//! Links the archives of the exported functions: each `lib*_abi.a` of the folder that GORVISCLEN_LIB names, or else of
//! target/staticlib. Each archive is linked as a whole. So a function that two archives define is an error, and is not
//! taken from one of them.

use std::path::{Path, PathBuf};
use std::{env, fs, process};

fn fail(message: String) -> ! {
    eprintln!("{message}");
    process::exit(1);
}

/// The names of the archives in a folder, sorted: `class_abi` for libclass_abi.a.
fn archives(folder: &Path) -> Vec<String> {
    let entries = fs::read_dir(folder).unwrap_or_else(|error| {
        fail(format!("{}: {error}: host/archives writes the archives there", folder.display()))
    });
    let mut names: Vec<String> = entries
        .filter_map(|entry| entry.ok()?.file_name().into_string().ok())
        .filter_map(|file| Some(file.strip_prefix("lib")?.strip_suffix(".a")?.to_string()))
        .filter(|name| name.ends_with("_abi"))
        .collect();
    names.sort();
    names
}

fn main() {
    println!("cargo:rerun-if-env-changed=GORVISCLEN_LIB");
    let folder = match env::var_os("GORVISCLEN_LIB") {
        Some(folder) => PathBuf::from(folder),
        None => PathBuf::from(env::var_os("CARGO_MANIFEST_DIR").unwrap()).join("../../target/staticlib"),
    };
    // Cargo watches the whole folder: an archive that is added, removed or changed is linked again.
    println!("cargo:rerun-if-changed={}", folder.display());
    let archives = archives(&folder);
    if archives.is_empty() {
        fail(format!("no lib*_abi.a in {}: host/archives writes them", folder.display()));
    }
    println!("cargo:rustc-link-search=native={}", folder.display());
    for name in archives {
        println!("cargo:rustc-link-lib=static:+whole-archive,-bundle={name}");
    }
}
