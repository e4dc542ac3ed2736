//! Splits a Rust source into tokens: as much of the language as the ported files use.

/// One token, the blanks and comments before it, and its line.
#[derive(Clone, Copy)]
pub struct Token<'a> {
    pub before: &'a str,
    pub text: &'a str,
    pub line: u32,
}

const PAIRS: [&str; 17] =
    ["=>", "->", "||", "&&", "::", "==", "!=", "<=", ">=", "|=", "&=", "+=", "-=", "*=", "^=", "..", "<<"];

fn is_word(byte: u8) -> bool {
    byte.is_ascii_alphanumeric() || byte == b'_' || byte >= 0x80
}

/// The length of the blanks and comments at the front.
fn blank_len(source: &str) -> usize {
    let mut at = 0;
    loop {
        let rest = &source[at..];
        if rest.starts_with("//") {
            at += rest.find('\n').unwrap_or(rest.len());
        } else if rest.starts_with("/*") {
            at += rest.find("*/").expect("a comment without end") + 2;
        } else if rest.starts_with(|c: char| c.is_whitespace()) {
            at += rest.chars().next().unwrap().len_utf8();
        } else {
            return at;
        }
    }
}

/// The length of a quoted string or character, with its quotes.
fn quoted_len(source: &str, quote: u8) -> usize {
    let bytes = source.as_bytes();
    let mut at = 1;
    while bytes[at] != quote {
        at += if bytes[at] == b'\\' { 2 } else { 1 };
    }
    at + 1
}

/// The length of the token at the front.
fn token_len(source: &str) -> usize {
    let bytes = source.as_bytes();
    let word = || bytes.iter().take_while(|&&byte| is_word(byte)).count();
    match bytes[0] {
        b'"' => quoted_len(source, b'"'),
        b'b' if source.starts_with("b\"") => 1 + quoted_len(&source[1..], b'"'),
        b'b' if source.starts_with("b'") => 1 + quoted_len(&source[1..], b'\''),
        // A character; otherwise it is a lifetime.
        b'\'' if bytes[1] == b'\\' || bytes.get(2) == Some(&b'\'') => quoted_len(source, b'\''),
        b'\'' => 1 + bytes[1..].iter().take_while(|&&byte| is_word(byte)).count(),
        byte if is_word(byte) => word(),
        _ if PAIRS.iter().any(|pair| source.starts_with(pair)) => 2,
        _ => 1,
    }
}

/// All tokens of a source.
pub fn tokens(source: &str) -> Vec<Token<'_>> {
    let (mut tokens, mut at, mut line) = (Vec::new(), 0, 1);
    let lines = |text: &str| text.matches('\n').count() as u32;
    loop {
        let before = &source[at..][..blank_len(&source[at..])];
        at += before.len();
        line += lines(before);
        if at == source.len() {
            return tokens;
        }
        let text = &source[at..][..token_len(&source[at..])];
        tokens.push(Token { before, text, line });
        at += text.len();
        line += lines(text);
    }
}
