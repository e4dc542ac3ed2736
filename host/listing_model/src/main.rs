//! Writes inputs for the program apdulist, and the texts that the model gives for them: NUMBER.in and NUMBER.out.
//!
//!     listing_model FOLDER [--cases N] [--seed S]

mod generate;
mod model;
#[allow(dead_code)] // the comparison uses more of it
#[path = "../../comparison/src/random.rs"]
mod random;

use std::path::Path;
use std::{env, fs, io, process};

/// Writes the named inputs and random ones, and returns how many they are. The model must give the documents' texts.
fn write(folder: &Path, cases: usize, seed: u64) -> io::Result<usize> {
    for (input, text) in generate::documents() {
        assert_eq!(model::text(&input), text);
    }
    let mut random = random::Random::of_job(seed, 0);
    let mut all = generate::named_inputs();
    all.extend((0..cases).map(|_| generate::random_input(&mut random)));
    for (i, input) in all.iter().enumerate() {
        fs::write(folder.join(format!("{i}.in")), input)?;
        fs::write(folder.join(format!("{i}.out")), model::text(input))?;
    }
    Ok(all.len())
}

fn arguments() -> Option<(String, usize, u64)> {
    let words: Vec<String> = env::args().skip(1).collect();
    let (folder, options) = words.split_first()?;
    let (mut cases, mut seed) = (3000, 7816);
    for pair in options.chunks(2) {
        match pair {
            [name, n] if name == "--cases" => cases = n.parse().ok()?,
            [name, n] if name == "--seed" => seed = n.parse().ok()?,
            _ => return None,
        }
    }
    Some((folder.clone(), cases, seed))
}

fn main() {
    let Some((folder, cases, seed)) = arguments() else {
        eprintln!("usage: listing_model FOLDER [--cases N] [--seed S]");
        process::exit(2);
    };
    match write(Path::new(&folder), cases, seed) {
        Ok(written) => println!("{written}"),
        Err(error) => {
            eprintln!("listing_model: {folder}: {error}");
            process::exit(1);
        }
    }
}
