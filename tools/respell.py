#!/usr/bin/env python3
"""Brings the names that specs/ and proofs/ declare to the spelling of today's Rattle. Run once, at the top of the
repository, directly after the kit's port.py; a second run changes nothing.

A definition or a lemma is in snake case (`overAt` is `over_at`, `rest-is` is `rest_is`), a type or a fact, which is what
has `Type` as its result, in camel case (`from-byte-is` is `FromByteIs`). A name turns where the file declares it, or
where a `use` line brings it from a file of this repository; behind a dot, where a module or a record of this repository
stands before it. Names of src/, of Rattle and of what Rattle makes are left alone. Two names that would fall together in
a file are printed, and have rows in TOGETHER. In comments and in the code spans of pages a name turns wherever it is
no English word (ENGLISH)."""
import collections
import glob
import re
import sys

TOKEN = r'[^\s(){}.;,@"«»]+'
# see respell_rows.py, which sets both
TOGETHER = {}

ENGLISH = set()
exec(open(__file__.replace("respell.py", "respell_rows.py"), encoding="utf8").read())


def read(path):
    with open(path, encoding="utf8") as file:
        return file.read()


def declarations(path):
    """name -> is it a type, for each name that a file declares at the beginning of a line"""
    found = {}
    lines = read(path).split("\n")
    head = re.compile(r"(\s*)((?:(?:abbrev|unfoldable|pub|data|record|ruleset) )*)(" + TOKEN
                      + r")(?: (?:\([^()]*\)|\{[^{}]*\}))* (:|=)( |$)(.*)")
    for at, line in enumerate(lines):
        match = head.match(line)
        if line.strip().startswith("--") or not match:
            continue
        indent, words, name, sign, _, text = match.groups()
        if sign == "=" and "ruleset" not in words or name in ("let", "in", "elim", "record", "open", "use", "module", "|"):
            continue
        for more in lines[at + 1:]:
            stripped = more.strip()
            if (not stripped or stripped.startswith(("--", "unfolding")) or stripped.split()[0] == name
                    or len(more) - len(more.lstrip()) <= len(indent) or re.match(r"(pub )?" + TOKEN + " :", stripped)):
                break
            text += " " + stripped
        depth = last = 0
        for place, char in enumerate(text):
            depth += (char in "([{") - (char in ")]}")
            if char == "→" and depth == 0:
                last = place + 1
        is_type = bool(re.search(r"data|record", words)) or bool(re.match(r"Type( |$)", text[last:].strip()))
        found[name] = found.get(name, False) or is_type
    for alias in re.findall(r"(?m)^use \S+ as (" + TOKEN + ")", "\n".join(lines)):
        found.setdefault(alias, None)
    for alias in re.findall(r"(?m)[{ ]" + TOKEN + " as (" + TOKEN + ")[,}]", "\n".join(l for l in lines if l.startswith("use "))):
        found.setdefault(alias, None)
    return found


def respelled(name, is_type, path):
    for key in ((path, name), name):
        if key in TOGETHER:
            return TOGETHER[key]
    if not re.match(r"^[A-Za-z0-9_'-]+$", name.lstrip("+μ")) or (name[0].isupper() and "-" not in name):
        return name
    parts = [p for p in re.split(r"[-_]|(?<=[a-z0-9])(?=[A-Z])", name) if p]
    if is_type:
        return "".join(p[0].upper() + p[1:] for p in parts)
    if name.startswith("+") or "-" not in name and not re.search("[A-Z]", name):
        return name if not name.startswith("+") else name.replace("-", "_")
    return re.sub(r"[-]|(?<=[a-z0-9])(?=[A-Z])", "_", name).lower()


def module_file(path):
    """Rattle.tlv.specs.Walk -> crates/tlv/specs/Walk.antt"""
    parts = path.split(".")
    if len(parts) < 4 or parts[0] != "Rattle" or parts[2] not in ("specs", "proofs"):
        return None
    file = "crates/" + parts[1] + "/" + "/".join(parts[2:]) + ".antt"
    return file if file in NAMES else None


FILES = sorted(glob.glob("crates/*/specs/**/*.antt", recursive=True) + glob.glob("crates/*/proofs/**/*.antt", recursive=True))
NAMES = {}
for f in FILES:
    NAMES[f] = {n: respelled(n, t, f) for n, t in declarations(f).items()}
FIELDS = set()
for f in FILES:
    for block in re.findall(r"(?m)^pub record .*(?:\n(?:  .*|))*", read(f)):
        FIELDS |= set(re.findall(r"(?m)^  (?:pub )?(" + TOKEN + ") :", block))
EVERY = collections.defaultdict(set)
BY_CRATE = collections.defaultdict(lambda: collections.defaultdict(set))
for f, names in NAMES.items():
    for old, new in names.items():
        EVERY[old].add(new)
        BY_CRATE[f.split("/")[1]][old].add(new)
USE = re.compile(r"(?m)^(?:ghost )?use ([^\s{]+?)(?:\.\{([^}]*)\})?(?: as (" + TOKEN + r"))?;?$")


def scope(path, text):
    """the names that a file sees, old -> new, and its modules, alias -> file"""
    seen, modules = dict(NAMES.get(path, {})), {}
    foreign = set()
    for module, items, alias in USE.findall(text):
        file = module_file(module)
        if alias and file:
            modules[alias] = file
        elif not items and file:
            modules[module.split(".")[-1]] = file
        for item in (items or "").replace("\n", " ").split(","):
            words = item.split()
            if not words:
                continue
            name, last = words[0], words[-1]
            if file and name in NAMES[file]:
                if len(words) == 1:
                    seen[name] = NAMES[file][name]
            elif len(words) == 1:
                foreign.add(name)
    for name in foreign:
        if name not in NAMES.get(path, {}):
            seen.pop(name, None)
    return seen, modules


def turned_use(match, path, text):
    line = match.group(0)
    module, items, alias = match.groups()
    file = module_file(module)
    if items is not None:
        out = []
        for item in items.split(","):
            words = item.split()
            if words:
                new = NAMES[file].get(words[0], words[0]) if file else words[0]
                if len(words) == 3:
                    last = NAMES.get(path, {}).get(words[2], words[2])
                    out.append(new if new == last else new + " as " + last)
                else:
                    out.append(new)
        return line.replace("{" + items + "}", "{" + ", ".join(out) + "}")
    if alias:
        return re.sub(r" as " + re.escape(alias), " as " + NAMES.get(path, {}).get(alias, alias), line)
    return line


def turned_code(code, seen, modules):
    def word(match):
        token = match.group(0)
        before = code[: match.start()]
        if before.endswith("."):
            head = re.search(r"(" + TOKEN + r")\.$", before)
            if head and head.group(1) in modules:
                return NAMES[modules[head.group(1)]].get(token, token)
            return next(iter(EVERY[token])) if token in FIELDS and len(EVERY[token]) == 1 else token
        if token in seen:
            return seen[token]
        if token in FIELDS and "-" in token:
            return next(iter(EVERY[token]))
        return token
    return re.sub(TOKEN, word, code)


SPOKEN = collections.Counter()


def turned_prose(prose, crate, seen):
    def word(match):
        token = match.group(0)
        if token in ENGLISH or not ("-" in token or re.search("[a-z0-9][A-Z]", token)):
            return token
        for names in (seen, {k: next(iter(v)) for k, v in BY_CRATE[crate].items() if len(v) == 1} if crate else {},
                      {k: next(iter(v)) for k, v in EVERY.items() if len(v) == 1}):
            if token in names:
                if names[token] != token:
                    SPOKEN[token] += 1
                return names[token]
        return token
    return re.sub(r"[A-Za-z][A-Za-z0-9_]*(?:-[A-Za-z0-9_]+)*'*", word, prose)


def turn_antt(path, text):
    seen, modules = scope(path, text)
    crate = path.split("/")[1]
    out = []
    for line in text.split("\n"):
        if line.startswith("use "):
            out.append(USE.sub(lambda m: turned_use(m, path, text), line))
            continue
        code, dash, prose = line, "", ""
        at = re.search(r"(?<!\S)--(?=\s|$)", line)
        if at:
            code, dash, prose = line[: at.start()], "--", line[at.end():]
        out.append(turned_code(code, seen, modules) + dash + turned_prose(prose, crate, seen))
    clash(path, text, seen)
    return "\n".join(out)


def turn_rt(path, text):
    seen, modules = scope(path, text)
    crate = path.split("/")[1]
    text = re.sub(r"(?ms)^ghost use .*?;$", lambda m: USE.sub(lambda n: turned_use(n, path, text), m.group(0)), text)
    text = re.sub(r"((?:requires|ensures)\*? (?:\w+ )?\{)(.*?)(\}\n)",
                  lambda m: m.group(1) + turned_code(m.group(2), seen, modules) + m.group(3), text, flags=re.S)
    return re.sub(r"(?m)(//)(.*)$", lambda m: m.group(1) + turned_prose(m.group(2), crate, seen), text)


def clash(path, text, seen):
    code = "\n".join(re.sub(r"(?<!\S)--(\s.*|)$", "", l) for l in text.split("\n"))
    words = {m.group(0) for m in re.finditer(TOKEN, code) if not code[: m.start()].endswith(".")}
    to = collections.defaultdict(set)
    for token in words:
        to[seen.get(token, token)].add(token)
    for new, olds in sorted(to.items()):
        if len(olds) > 1:
            print("together:", path, sorted(olds), "->", new)


def turn_edit(path, text):
    crate = path.split("/")[1]
    every = {k: next(iter(v)) for k, v in BY_CRATE[crate].items() if len(v) == 1}
    for k, v in EVERY.items():
        if len(v) == 1:
            every.setdefault(k, next(iter(v)))
    out, file = [], ""
    for line in text.split("\n"):
        if line.startswith("file: "):
            file = line[6:]
        if line.startswith(("old: ", "new: ")) and (file.endswith(".antt") or re.search(r"ensures|ghost use", line)):
            line = line[:5] + re.sub(TOKEN, lambda m: every.get(m.group(0), m.group(0)), line[5:])
        out.append(line)
    return "\n".join(out)


def turn_page(path, text):
    every = {k: next(iter(v)) for k, v in EVERY.items() if len(v) == 1}

    def span(match):
        return re.sub(r"[A-Za-z][A-Za-z0-9_]*(?:-[A-Za-z0-9_]+)*'*",
                      lambda m: m.group(0) if m.group(0) in ENGLISH or not re.search("[-A-Z]", m.group(0)) else every.get(m.group(0), m.group(0)), match.group(0))
    return re.sub(r"`[^`\n]+`", span, text)


def main():
    turn = [(f, turn_antt) for f in FILES] + [(f, turn_rt) for f in sorted(glob.glob("crates/*/src/**/*.rt", recursive=True))]
    turn += [(f, turn_edit) for f in sorted(glob.glob("crates/*/must-fail/*.edit"))]
    turn += [(f, turn_page) for f in sorted(glob.glob("docs/*.md") + ["README.md"])]
    changed = 0
    for path, how in turn:
        old = read(path)
        new = how(path, old)
        if new != old:
            changed += 1
            if "--check" not in sys.argv:
                with open(path, "w", encoding="utf8") as file:
                    file.write(new)
    for token, count in sorted(SPOKEN.items()):
        if "--spoken" in sys.argv:
            print("spoken:", token, count)
    print("files changed:", changed)


main()
