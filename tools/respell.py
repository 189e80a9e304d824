#!/usr/bin/env python3
"""Spells this repository's own definitions, lemmas and fields as the library spells its own.

usage: python3 tools/respell.py [ROOT]      (once, right after the library's own script)

Values and lemmas are in snake case (`own-number` becomes `own_number`), types in camel case (`Sound-board` becomes `SoundBoard`).
Names that the check makes for goals and steps, names of the library, Rust identifiers, strings and comments stay.
Prints the names that would fall together, and then changes nothing.
"""

import os
import re
import sys

TOKEN = re.compile(r"[^\s(){}\[\],;.:λ«»\"]+")
HEAD = re.compile(r"^\s*((?:(?:abbrev|unfoldable|pub|data|record|ruleset)\s+)*)([^\s:(){}\[\]|,;.\"]+)\s*(?::\s+(.*)|[({].*|=\s.*)$")
# a fact that began with a small letter, two laws whose short names are the library's words, and a relation that a record takes
SPECIAL = {"handed-down": "HandedDown", "bit-and": "bit-bit_and", "bit-or": "bit-bit_or", "One-group": "OneGroup"}


def files(root, ending):
    for folder, dirs, names in os.walk(os.path.join(root, "crates")):
        dirs[:] = sorted(d for d in dirs if d not in ("out", "must-fail"))
        for name in sorted(names):
            if name.endswith(ending):
                yield os.path.join(folder, name)


def read(path):
    with open(path, encoding="utf-8") as f:
        return f.read()


def uncommented(line, mark):
    at = line.find(mark)
    return (line, "") if at < 0 else (line[:at], line[at:])


def own_names(root):
    """Names that stand at the head of a signature and are no goal of the check's, and those that an import gives."""
    own, made = set(SPECIAL), set()
    for path in list(files(root, ".antt")) + list(files(root, ".rt")):
        own.update(re.findall(r" as ([a-zA-Z]+(?:-[a-zA-Z]+)+)", read(path)))
    for path in files(root, ".antt"):
        for line in read(path).split("\n"):
            code = uncommented(line, "--")[0]
            if code.lstrip().startswith(("use ", "mod ", "pub mod ", "let ", "in ", "elim ", "|")):
                continue
            m = HEAD.match(code)
            if not m:
                continue
            if m.group(3) and m.group(3).startswith("goal."):
                made.add(m.group(2))
            elif m.group(3) or "record" in m.group(1) or "data" in m.group(1) or "ruleset" in m.group(1):
                own.add(m.group(2))
    return {n for n in own if "-" in n or "′" in n}, made


def taken(root):
    """Names that come from the library, or that the check makes and a file imports."""
    out = set()
    for path in list(files(root, ".antt")) + list(files(root, ".rt")):
        for m in re.finditer(r"use (Rattle\.(\w+)[^\s{;]*)\.\{([^}]*)\}", read(path)):
            if m.group(2) == "std" or m.group(1).endswith((".Goals", ".Given")):
                out.update(w.strip().split(" as ")[0] for w in m.group(3).split(","))
    return out


def spelled(name):
    if name in SPECIAL:
        return SPECIAL[name]
    name = name.replace("′", "'")
    if name[0].isupper():
        return "".join(p[:1].upper() + p[1:] for p in name.split("-"))
    return name.replace("-", "_")


def turned(text, names, mark, answers):
    lines = []
    for line in text.split("\n"):
        code, rest = uncommented(line, mark)
        parts = re.split(r'("(?:[^"\\]|\\.)*")', code)
        for i in range(0, len(parts), 2):
            parts[i] = TOKEN.sub(lambda m: m.group(0) if made_by_check(parts[i], m.start(), answers) else names.get(m.group(0), m.group(0)), parts[i])
        lines.append("".join(parts) + rest)
    return "\n".join(lines)


def made_by_check(code, at, answers):
    """Whether what stands before a name says that the check made it: a goal, or a step of the code in an answer."""
    return code[:at].endswith("goal.") or (answers and re.search(r"(?<![\w.'-])[cl]\.$", code[:at]) is not None)


def main():
    root = sys.argv[1] if len(sys.argv) > 1 else "."
    own, made = own_names(root)
    foreign = taken(root)
    for name in sorted(own & (made | foreign)):
        print("stays, since it is not only ours:", name)
    names = {n: spelled(n) for n in own - made - foreign}
    words = foreign.union(*(TOKEN.findall(re.sub(r"use [\w.+]+", "", read(path))) for path in files(root, ".antt")))
    fallen = [n for n in sorted(names) if names[n] in words - {"SoFar"} or sum(spelled(o) == names[n] for o in names) > 1]
    for name in fallen:
        print("falls together:", name, "->", names[name])
    if fallen:
        return 1
    for ending, mark in ((".antt", "--"), (".rt", "//")):
        for path in files(root, ending):
            before = read(path)
            after = turned(before, names, mark, os.path.basename(path) in ("Answers.antt", "Invariants.antt", "Choices.antt"))
            if after != before:
                with open(path, "w", encoding="utf-8") as f:
                    f.write(after)
    print(len(names), "names respelled")
    return 0


if __name__ == "__main__":
    sys.exit(main())
