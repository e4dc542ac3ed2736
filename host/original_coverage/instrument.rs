//! Copies a source and puts a counter into every branch.

use std::collections::BTreeSet;

use crate::lexer::Token;

/// The suffix of the unchanged copy of a `const` function, which the constants use.
const CONST_SUFFIX: &str = "_for_constants";

struct Instrumenter<'a> {
    file: &'a str,
    tokens: &'a [Token<'a>],
    /// The names of `const` functions.
    const_functions: BTreeSet<&'a str>,
    out: String,
    branches: &'a mut Vec<String>,
    owner: String,
    function: String,
}

/// The copy of a source with counters. For each counter a row of the table is added to `branches`. The number of the
/// counter is the place of its row.
pub fn with_counters(file: &str, tokens: &[Token], branches: &mut Vec<String>) -> String {
    let named = tokens.windows(3).filter(|w| [w[0].text, w[1].text] == ["const", "fn"]);
    let mut instrumenter = Instrumenter {
        file,
        tokens,
        const_functions: named.map(|w| w[2].text).collect(),
        out: String::new(),
        branches,
        owner: String::new(),
        function: String::new(),
    };
    instrumenter.walk(0, tokens.len());
    instrumenter.out.push_str("\n#[allow(unused_imports)]\nuse crate::Early as _;\n");
    instrumenter.out
}

impl<'a> Instrumenter<'a> {
    fn at(&self, i: usize) -> &'a str {
        self.tokens.get(i).map_or("", |token| token.text)
    }

    /// The place after the bracket that closes the one at `i`.
    fn after_bracket(&self, i: usize) -> usize {
        let mut depth = 0;
        for j in i..self.tokens.len() {
            match self.at(j) {
                "(" | "[" | "{" => depth += 1,
                ")" | "]" | "}" => depth -= 1,
                _ => (),
            }
            if depth == 0 {
                return j + 1;
            }
        }
        panic!("{}: a bracket without end", self.file)
    }

    /// The place of the first of these tokens from `i` on, outside of brackets; or of the bracket that closes the
    /// surrounding ones.
    fn find(&self, mut i: usize, wanted: &[&str]) -> usize {
        loop {
            match self.at(i) {
                text if wanted.contains(&text) => return i,
                "(" | "[" | "{" => i = self.after_bracket(i),
                ")" | "]" | "}" => return i,
                "" => panic!("{}: no {wanted:?}", self.file),
                _ => i += 1,
            }
        }
    }

    /// The text of some tokens, as one line.
    fn text(&self, from: usize, to: usize) -> String {
        let mut text = String::new();
        for (i, token) in self.tokens[from..to].iter().enumerate() {
            if i > 0 && !token.before.is_empty() {
                text.push(' ');
            }
            text.push_str(token.text);
        }
        text
    }

    /// The text of the line of a token.
    fn line(&self, i: usize) -> String {
        let line = self.tokens[i].line;
        let on = |j: &usize| self.tokens[*j].line == line;
        let from = (0..i).rev().take_while(on).last().unwrap_or(i);
        let to = (i..self.tokens.len()).take_while(on).last().unwrap() + 1;
        self.text(from, to)
    }

    /// Adds a branch at the token `i` to the table, and returns its number.
    fn branch(&mut self, i: usize, text: String) -> usize {
        let (file, line, function) = (self.file, self.tokens[i].line, format!("{}{}", self.owner, self.function));
        self.branches
            .push(format!("Branch {{ file: {file:?}, line: {line}, function: {function:?}, text: {text:?} }}"));
        self.branches.len() - 1
    }

    /// Writes a counter for a new branch.
    fn counter(&mut self, i: usize, text: String) {
        let n = self.branch(i, text);
        self.out.push_str(&format!(" crate::hit({n}); "));
    }

    /// Writes tokens unchanged, and returns the place after them.
    fn copy(&mut self, from: usize, to: usize) -> usize {
        for token in &self.tokens[from..to] {
            // Comments about the whole file are allowed only at its front.
            self.out.push_str(&token.before.replace("//!", "//"));
            self.out.push_str(token.text);
        }
        to
    }

    /// The same, but calls of `const` functions become calls of their unchanged copies.
    fn copy_const(&mut self, from: usize, to: usize) -> usize {
        for i in from..to {
            self.copy(i, i + 1);
            if self.const_functions.contains(self.at(i)) && self.at(i + 1) == "(" {
                self.out.push_str(CONST_SUFFIX);
            }
        }
        to
    }

    /// Writes the block at `i` with a counter, and returns the place after it.
    fn block(&mut self, i: usize, text: String) -> usize {
        assert_eq!(self.at(i), "{", "{}: line {}", self.file, self.tokens[i].line);
        let end = self.after_bracket(i);
        self.copy(i, i + 1);
        self.counter(i, text);
        self.walk(i + 1, end);
        end
    }

    /// Writes an expression that ends before `end` as a block with a counter.
    fn expression(&mut self, i: usize, end: usize, text: String) -> usize {
        self.out.push_str(" {");
        self.counter(i, text);
        self.walk(i, end);
        self.out.push_str(" }");
        end
    }

    fn walk(&mut self, mut i: usize, end: usize) {
        while i < end {
            i = self.step(i);
        }
    }

    /// Writes what starts at `i` with its counters, and returns the place after it.
    fn step(&mut self, i: usize) -> usize {
        let previous = if i == 0 { "" } else { self.at(i - 1) };
        match (self.at(i), self.at(i + 1)) {
            ("#", "[") => self.attribute(i),
            (word, "!") if word.starts_with(|c: char| c.is_alphabetic()) => self.copy(i, self.after_bracket(i + 2)),
            ("const", "fn") => self.const_function(i, previous == "pub"),
            ("const", _) if previous != "<" && previous != "," => self.copy_const(i, self.find(i, &[";"])),
            ("impl", _) => self.implementation(i),
            ("fn", name) if name != "(" => self.function(i),
            ("if", _) => self.condition(i),
            ("else", "{") => {
                self.copy(i, i + 1);
                self.block(i + 1, format!("else: {}", self.line(i)))
            }
            ("match", _) => self.arms(i),
            ("for" | "while" | "loop", _) => self.iteration(i),
            ("|" | "||", _) if matches!(previous, "(" | "," | "=" | "=>" | "move" | "{" | ";") => self.closure(i),
            ("?", _) if previous != "+" && previous != ":" => self.early_exit(i),
            _ => self.copy(i, i + 1),
        }
    }

    fn iteration(&mut self, i: usize) -> usize {
        let body = self.find(i + 1, &["{"]);
        self.copy(i, i + 1);
        self.walk(i + 1, body);
        self.block(body, self.text(i, body))
    }

    /// Writes a `?` with a counter of the early exits.
    fn early_exit(&mut self, i: usize) -> usize {
        let n = self.branch(i, format!("? leaves: {}", self.line(i)));
        self.out.push_str(&format!(".early({n})?"));
        i + 1
    }

    /// Writes an attribute. What depends on a `cfg` (tests, features that are not here) is copied unchanged.
    fn attribute(&mut self, i: usize) -> usize {
        let mut end = self.after_bracket(i + 1);
        if self.at(i + 2) == "cfg" {
            end = self.find(end, &[";", "{"]);
            end = if self.at(end) == "{" { self.after_bracket(end) } else { end + 1 };
        }
        self.copy(i, end)
    }

    fn implementation(&mut self, i: usize) -> usize {
        let body = self.find(i, &["{"]);
        let end = self.after_bracket(body);
        self.owner = format!("{}: ", self.text(i, body));
        self.copy(i, body + 1);
        self.walk(body + 1, end);
        self.owner.clear();
        end
    }

    /// Writes a `const` function twice: unchanged under another name, then without its `const` and with counters.
    fn const_function(&mut self, i: usize, public: bool) -> usize {
        let end = self.after_bracket(self.find(i, &["{"]));
        self.copy(i, i + 3);
        self.out.push_str(CONST_SUFFIX);
        self.copy_const(i + 3, end);
        self.out.push_str(if public { "\n    pub " } else { "\n    " });
        self.function(i + 1)
    }

    fn function(&mut self, i: usize) -> usize {
        let body = self.find(i, &["{", ";"]);
        self.copy(i, body);
        if self.at(body) == ";" {
            return body;
        }
        let name = self.at(i + 1);
        let outer = std::mem::replace(&mut self.function, name.to_string());
        let end = self.block(body, format!("fn {name}"));
        self.function = outer;
        end
    }

    fn condition(&mut self, i: usize) -> usize {
        let body = self.find(i + 1, &["{"]);
        let text = self.text(i, body);
        self.copy(i, i + 1);
        self.walk(i + 1, body);
        let end = self.block(body, text.clone());
        match (self.at(end), self.at(end + 1)) {
            ("else", "if") => self.copy(end, end + 1),
            ("else", _) => {
                self.copy(end, end + 1);
                self.block(end + 1, format!("else of {text}"))
            }
            _ => {
                self.out.push_str(" else {");
                self.counter(i, format!("not entered: {text}"));
                self.out.push('}');
                end
            }
        }
    }

    fn arms(&mut self, i: usize) -> usize {
        let body = self.find(i + 1, &["{"]);
        let end = self.after_bracket(body);
        let head = self.text(i, body);
        self.copy(i, i + 1);
        self.walk(i + 1, body);
        self.copy(body, body + 1);
        let mut i = body + 1;
        while i < end - 1 {
            let arrow = self.find(i, &["=>"]);
            let text = format!("{head}: {}", self.text(i, arrow));
            self.copy(i, arrow + 1);
            i = match self.at(arrow + 1) {
                "{" => self.block(arrow + 1, text),
                _ => {
                    let end = self.find(arrow + 1, &[","]);
                    self.expression(arrow + 1, end, text)
                }
            };
            if self.at(i) == "," {
                i = self.copy(i, i + 1);
            }
        }
        self.copy(end - 1, end)
    }

    fn closure(&mut self, i: usize) -> usize {
        let body = match self.at(i) {
            "||" => i + 1,
            _ => self.find(i + 1, &["|"]) + 1,
        };
        self.copy(i, body);
        let text = format!("closure: {}", self.line(i));
        match self.at(body) {
            "{" => self.block(body, text),
            _ => {
                let end = self.find(body, &[",", ";"]);
                self.expression(body, end, text)
            }
        }
    }
}
