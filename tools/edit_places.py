#!/usr/bin/env python3
"""Turns the places that the comments of must-fail edits name to today's, in each crates/NAME/must-fail/*.edit:

  # NAME: proofs/PATH/Proof.antt [GOAL]   becomes   # NAME: fn CRATE::PATH
  # NAME: proofs/FILE.antt LE-LARGE       becomes   # NAME: proofs/FILE.antt LE_LARGE

A function's proof lies in other files now or in none, and its goals have other names. So a place is the function
itself. A comment that then says what one above it in its block says goes. It may be run again: what is turned stays. It
prints each place whose function or theorem it does not find.
"""
import pathlib
import re
import sys

from respell_rows import TOGETHER

COMMENT = re.compile(r"# (\w+): proofs/(\S+)\.antt(?: (\S+))?$")
FUNCTION = re.compile(r"# (\w+): fn (\w+)((?:::\w+)+)$")


def turned(crate, line):
    """Returns the comment with today's place; any other line as it is."""
    found = COMMENT.match(line)
    if not found:
        return line
    name, path, definition = found.groups()
    if path.endswith("/Proof"):
        return f"# {name}: fn {'::'.join([crate, *path.split('/')[:-1]])}"
    file = f"proofs/{path}.antt"
    if not definition:
        return line
    spelled = TOGETHER.get((f"crates/{crate}/{file}", definition), definition.replace("-", "_"))
    return f"# {name}: {file} {spelled}"


def is_there(folder, line):
    """Returns whether the function or the theorem of a comment stands in the crate."""
    found = FUNCTION.match(line)
    if found:
        word = re.compile(rf"\bfn {found[3].split('::')[-1]}\b")
        return any(word.search(it.read_text()) for it in folder.glob("src/**/*.rt"))
    found = COMMENT.match(line)
    file = found and folder / f"proofs/{found[2]}.antt"
    if not file:
        return True
    name = re.escape(found[3] or "")
    return file.is_file() and (not name or bool(re.search(rf"(?m)^\s*(pub )?{name} ", file.read_text())))


def main():
    top = pathlib.Path(__file__).resolve().parent.parent
    for file in sorted(top.glob("crates/*/must-fail/*.edit")):
        folder, lines, block = file.parent.parent, [], set()
        for line in file.read_text().split("\n"):
            new = turned(folder.name, line)
            block = block if line else set()
            if new.startswith("# ") and new in block:
                continue
            block.add(new)
            lines.append(new)
            if not is_there(folder, new):
                print(f"{file.relative_to(top)}: not found: {new}", file=sys.stderr)
        file.write_text("\n".join(lines))


if __name__ == "__main__":
    main()
