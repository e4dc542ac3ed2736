#!/usr/bin/env python3
"""Counts the places that docs/DESIGN-PASS.md speaks of: tools/places.py [--list] [POINT] in a checkout.

Each point has patterns. What is found by one is a place to look at, and no verdict. Points 1, 3, 4, 6 and 7 are found by
regular expressions on the lines of crates/*/src, points 2 and 5 on functions:
  2  functions whose texts are the same but for names and numbers (six words or more), as groups
  5  a fact in a `requires` of three functions of a crate or more, and two parameters that stand beside one another, with
     the same names and types, in three functions of a crate or more (exports for C aside)
  8  the files of proofs, their answers and their lines
"""
import collections
import pathlib
import re
import sys

PATTERNS = {
    "1 an enum with a refusal": r"^    (Refused\(u8\)|Unreadable(\([a-z0-9, ]*\))?|TooMany),$",
    "1 an enum with an absence": r"^    (None|NoDate|NoneLeft|Nothing|Whole|Closed|Done|More|End(\([a-z0-9, ]*\))?),$",
    "1 an answer with a value beside it": r"^    pub answer: ",
    "1 a refusal as a number": r"\b(Refused|refused)\((\d+)\)|tell_row\(1[12],|return (16|2|1|25);",
    "3 an index counted by hand": r"^\s*while [a-z_]+ (<|<=|!=) |^\s*loop \{",
    "4 a byte widened by a function": r"fn (byte_number|tag_number|len_number|wide|place_of)\(",
    "4 a number of bytes by hand": r"\* 256 \+|/ 256\b|/ 0x1",
    "4 a case as a number or a test by hand": r"^\s+[A-Z]\w+::\w+(\(_(, _)*\))? => (true|false|\d+),$",
    "4 the smaller of two by hand": r"if .* \{ [a-z_]+ \} else \{ [a-z_0-9]+ \}|fn (up_to|up_to_16|up_to_8|minus_or_zero|place)\(",
    "4 a field copied out to be used once": r"^\s+let (class|mode|le|builder|sent|answer|rest|walk|state|status|bytes|command) = [a-z_]+\.[a-z_]+;$",
    "6 a length beside a buffer": r"^    (pub )?(bytes|letters): \[u8; \d+\],$|^    let mut \w+ = \[0u32; 8\];$",
    "7 a switch on a kind": r"^\s*match (operation|section|text::first|kind)\b|is_tag: bool",
}


def lines(top):
    for file in sorted(top.glob("crates/*/src/**/*.rt")):
        for number, line in enumerate(file.read_text().split("\n"), 1):
            if not line.lstrip().startswith("//"):
                yield file.relative_to(top), number, line


def functions(top):
    """Yields crate, name, head and body of each function."""
    for file in sorted(top.glob("crates/*/src/**/*.rt")):
        text = re.sub(r"^\s*//.*\n", "", file.read_text(), flags=re.M)
        for m in re.finditer(r"^( *)((?:pub(?:\(crate\))? )?(?:extern \"C\" )?fn (\w+).*?)^\1\{\n(.*?)^\1\}$", text, re.M | re.S):
            yield file.parts[-3] if file.parts[-2] == "src" else file.parts[-4], m[3], m[2], m[4]
        for m in re.finditer(r"^( *)((?:pub(?:\(crate\))? )?fn (\w+)[^\n]*) \{\n(.*?)^\1\}$", text, re.M | re.S):
            yield file.parts[-3], m[3], m[2], m[4]


def twins(top):
    groups = collections.defaultdict(list)
    for crate, name, head, body in functions(top):
        if "extern" in head:
            continue
        words = re.findall(r"\w+|[^\w\s]", body)
        kept = {"if", "else", "match", "while", "loop", "for", "return", "let", "mut", "as", "self", "Self", "true", "false"}
        form = [w if w in kept or not w[0].isalnum() else "w" for w in words]
        if len(form) >= 6:
            groups[" ".join(form)].append(f"{crate}::{name}")
    return {" = ".join(names): 1 for names in groups.values() if len(names) > 1}


def together(top):
    found = collections.defaultdict(set)
    for crate, name, head, body in functions(top):
        if "extern" in head:
            continue
        for m in re.finditer(r"requires(?: \w+)? \{(.*?)\}\n", head, re.S):
            for fact in re.split(r" × ", m[1]):
                found[(crate, "requires " + " ".join(fact.split()).strip("() "))].add(name)
        parameters = re.search(r"\((.*?)\)(?: ->|\n|$)", head, re.S)
        names = [" ".join(p.split()) for p in parameters[1].split(",")] if parameters else []
        for a, b in zip(names, names[1:]):
            if a and b and "self" not in a:
                found[(crate, f"{a}, {b}")].add(name)
    return {f"{c}: {w}": len(n) for (c, w), n in found.items() if len(n) >= 3}


def main():
    arguments = [a for a in sys.argv[1:] if a != "--list"]
    listed, top = "--list" in sys.argv, pathlib.Path(".")
    rows = collections.defaultdict(list)
    for file, number, line in lines(top):
        for name, pattern in PATTERNS.items():
            if re.search(pattern, line):
                rows[name].append(f"{file}:{number}: {line.strip()}")
    rows["2 functions of one form"] = sorted(twins(top))
    rows["5 facts and parameters that go together"] = sorted(f"{w} ({n} functions)" for w, n in together(top).items())
    answers = sorted(top.glob("crates/*/proofs/**/Answers.antt"))
    rows["8 files of answers"] = [str(a) for a in answers]
    rows["8 answers"] = [l for a in answers for l in a.read_text().split("\n") if re.match(r"pub \S+ : goal\.", l)]
    for name in sorted(rows | {p: 0 for p in PATTERNS}):
        if not arguments or name.startswith(arguments[0]):
            print(f"{len(rows[name]):5} {name}")
            for place in rows[name] if listed else []:
                print(f"      {place}")


main()
