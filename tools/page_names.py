#!/usr/bin/env python3
"""Brings the names of definitions and theorems in README.md and docs/ to the spelling of today's Rattle, by what specs/
and proofs/ declare now. Run at the top of the repository, after respell.py; a second run changes nothing.

A name is a code span, perhaps with its crate and file (`tlv/Tag.tagOf`), or one behind a dot or alone in a span. Its new
spelling is in snake case, with `_lem` or `_cases` if respell.py added that, or in camel case, and stands where the span
says; in a row of a function (`| `crate::name` | ..`) in that crate; else somewhere in the repository. A span whose name
is declared as it is stays. Of two new spellings that of the definition counts, `is` at the end being a fact's; where
that doesn't decide, the span stays and is printed."""
import glob
import re

HEAD = re.compile(r"(?m)^ *(?:(?:abbrev|unfoldable|pub|data|record|ruleset) )*([A-Za-z][\w'-]*)(?= )(?:.* | ):(?: |$)")


def spellings(name):
    """The new spellings that a name may have got."""
    words = [it for it in re.split(r"[-_]|(?<=[a-z0-9])(?=[A-Z])", name) if it]
    snake = "_".join(words).lower()
    return [snake, "".join(it[0].upper() + it[1:] for it in words), f"{snake}_lem", f"{snake}_cases"]


def declared():
    """Each name that is declared, as (crate, file, name)."""
    found = set()
    for path in glob.glob("crates/*/specs/**/*.antt", recursive=True) + glob.glob("crates/*/proofs/**/*.antt", recursive=True):
        _, crate, _, rest = path.split("/", 3)
        with open(path, encoding="utf8") as file:
            found |= {(crate, rest[: -len(".antt")], name) for name in HEAD.findall(file.read())}
    return found


NAMES = declared()
ALL = {name for _, _, name in NAMES}
BY_CRATE = {(crate, name) for crate, _, name in NAMES}


def turned(span, crate, place):
    """The text of a code span with today's name."""
    found = re.fullmatch(r"(?:([a-z0-9_]+)/)?((?:[A-Za-z0-9_]+/)*[A-Z]\w*)\.([A-Za-z][\w'-]*)", span)
    if found:
        if not found[1] and not crate:
            return span
        has = lambda name: (found[1] or crate, found[2], name) in NAMES
        name = found[3]
    elif re.fullmatch(r"[a-z][A-Za-z0-9'-]*([-A-Z])[A-Za-z0-9'-]+", span):
        has = (lambda name: (crate, name) in BY_CRATE) if crate else ALL.__contains__
        name = span
    else:
        return span
    if has(name) or name in ALL and not found:
        return span
    fits = [it for it in spellings(name) if has(it)]
    if name.endswith("-is"):
        fits = [it for it in fits if it.endswith("Is")]
    elif name.endswith("Of") or fits[1:] and fits[1:] == [f"{fits[0]}_lem"]:
        fits = fits[:1]
    if len(fits) > 1:
        print(f"{place}: {span}: {' or '.join(fits)}")
    return span[: len(span) - len(name)] + fits[0] if len(fits) == 1 else span


def main():
    for path in ["README.md", *sorted(glob.glob("docs/**/*.md", recursive=True))]:
        with open(path, encoding="utf8") as file:
            lines = file.read().split("\n")
        for at, line in enumerate(lines):
            row = re.match(r"\| *`([a-z0-9_]+)::", line)
            crate = row[1] if row else ""
            lines[at] = re.sub(r"`([^`\n]+)`", lambda it: f"`{turned(it[1], crate, f'{path}:{at + 1}')}`", line)
        with open(path, "w", encoding="utf8") as file:
            file.write("\n".join(lines))


if __name__ == "__main__":
    main()
