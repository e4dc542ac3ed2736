//! Makes a function from each Rust block of README.md, and a table of these functions. host/readme-snippets says how a
//! block and its hidden lines are written.

use std::path::PathBuf;
use std::{env, fs, process};

const BLOCK: &str = "```rust";
const BLOCK_END: &str = "```";
const BEFORE: &str = "<!-- before the block:";
const AFTER: &str = "<!-- after the block:";
const COMMENT_END: &str = "-->";

/// A block with its hidden lines: for each line of README.md the code there, and the number of the block's first line.
struct Snippet<'a> {
    code: Vec<&'a str>,
    first_line: usize,
}

fn fail(line: usize, message: &str) -> ! {
    eprintln!("README.md:{line}: {message}");
    process::exit(1);
}

/// The blocks of a text, in their order.
fn snippets(readme: &str) -> Vec<Snippet<'_>> {
    let lines: Vec<&str> = readme.lines().collect();
    // The places of the lines after `start` up to the one that ends this part.
    let part = |start: usize, end: &str| {
        let len = lines[start + 1..].iter().position(|line| line.trim_end() == end);
        let len = len.unwrap_or_else(|| fail(start + 1, &format!("there is no {end} after this line")));
        start + 1..start + 1 + len
    };
    let mut snippets: Vec<Snippet> = Vec::new();
    let mut hidden = Vec::new();
    let mut at = 0;
    while at < lines.len() {
        match lines[at].trim_end() {
            BEFORE => {
                hidden.extend(part(at, COMMENT_END));
                at = part(at, COMMENT_END).end;
            }
            AFTER => {
                let Some(snippet) = snippets.last_mut().filter(|_| hidden.is_empty()) else {
                    fail(at + 1, "there is no block before this comment")
                };
                part(at, COMMENT_END).for_each(|line| snippet.code[line] = lines[line]);
                at = part(at, COMMENT_END).end;
            }
            BLOCK => {
                let mut code = vec![""; lines.len()];
                hidden.drain(..).chain(part(at, BLOCK_END)).for_each(|line| code[line] = lines[line]);
                snippets.push(Snippet { code, first_line: at + 2 });
                at = part(at, BLOCK_END).end;
            }
            line if line.starts_with(BLOCK) => fail(at + 1, "a Rust block must start with ```rust alone"),
            _ => (),
        }
        at += 1;
    }
    match hidden.first() {
        Some(line) => fail(line + 1, "there is no block after this comment"),
        None => snippets,
    }
}

fn main() {
    let readme = PathBuf::from(env::var_os("CARGO_MANIFEST_DIR").unwrap()).join("../../README.md");
    println!("cargo:rerun-if-changed={}", readme.display());
    let text = fs::read_to_string(&readme).unwrap_or_else(|error| fail(0, &error.to_string()));
    let write = |file: String, text: String| {
        fs::write(PathBuf::from(env::var_os("OUT_DIR").unwrap()).join(file), text).unwrap();
    };
    let snippets = snippets(&text);
    if snippets.is_empty() {
        fail(0, "there is no Rust block");
    }
    let (mut modules, mut rows) = (String::new(), String::new());
    for Snippet { code, first_line } in &snippets {
        // All code is on the same lines as in README.md, so that an error names the right line.
        let head = "pub fn run() -> Result<(), gorvisclen::Refused> {";
        let body = code[1..].join("\n");
        let name = format!("readme_line_{first_line}");
        modules += &format!("mod {name} {{\n    include!(concat!(env!(\"OUT_DIR\"), \"/{name}.rs\"));\n}}\n");
        rows += &format!("    ({first_line}, {name}::run),\n");
        write(format!("{name}.rs"), format!("{head}\n{body}\nOk(())\n}}\n"));
    }
    let table = format!("const SNIPPETS: [(usize, Snippet); {}] = [\n{rows}];\n", snippets.len());
    write("snippets.rs".into(), modules + &table);
}
