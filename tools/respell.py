#!/usr/bin/env python3
"""Brings the names that this repository declares in specs/ and proofs/ to today's spelling, after port.py.

usage: python3 tools/respell.py [FOLDER]     once, at the top of the repository

Words and lemmas are written in snake case (entries_of), types and modules in camel case (LayerOk). The crate `log`
becomes `entry_log`, since the kit has a library `log`. Names that the toolchain makes (goals, fields of a goal's
arguments) and names of the library keep their spelling, and so do names in code, strings and comments of code.
"""

import os
import re
import sys

WORD = r"[A-Za-z0-9_'·-]"
NAME = r"[A-Za-z][A-Za-z0-9_']*(?:-[A-Za-z0-9_']+)+"
DECLARED = [
    re.compile(r"^\s*(?:(?:abbrev|unfoldable|opaque|pub|record|data|module|ruleset|let) )*(%s) ?(?::|\(|\{)" % NAME),
    re.compile(r"^\s*(?:pub )?(?:record|data|module) (%s)\b" % NAME),
]
RENAMED_CRATES = {"log": "entry_log"}
# lemmas of the library, of which the repository has a copy or which it cites
LIBRARY = {"cond-false", "map-append", "sum_by-cons"}


def texts(root, endings):
    for folder, dirs, files in os.walk(os.path.join(root, "crates")):
        dirs[:] = sorted(d for d in dirs if d != "out")
        for f in sorted(files):
            if f.endswith(endings):
                yield os.path.join(folder, f)


def read(path):
    with open(path, encoding="utf-8") as f:
        return f.read()


def write(path, text):
    with open(path, "w", encoding="utf-8") as f:
        f.write(text)


def spelled(name):
    parts = name.split("-")
    if name[0].isupper():
        return "".join(p[:1].upper() + p[1:] for p in parts)
    return "_".join(parts)


def declared(root):
    names = set()
    for path in texts(root, (".antt",)):
        answers = os.path.basename(path) in ("Answers.antt", "Invariants.antt", "Proof.antt")
        for line in read(path).split("\n"):
            if line.lstrip().startswith("--"):
                continue
            for form in DECLARED:
                m = form.match(line)
                if not m or line.startswith(("use ", "pub use ")):
                    continue
                if answers and re.search(r": (goal|given|rules)\.", line):
                    continue
                names.add(m.group(1))
    return names


def all_words(root):
    words = set()
    for path in texts(root, (".antt",)):
        words.update(re.findall(r"(?<!%s)[A-Za-z][A-Za-z0-9_']*(?!%s)" % (WORD, WORD), read(path)))
    return words


def respell(text, table):
    form = re.compile(r"(?<!%s)(%s)(?!%s)" % (WORD, "|".join(sorted(map(re.escape, table), key=len, reverse=True)), WORD))
    return form.sub(lambda m: table[m.group(1)], text)


def in_code(text, table):
    """Only clauses, ghost items and ghost uses have names with a dash; strings and comments stay."""
    out = []
    for line in text.split("\n"):
        bare = line.lstrip()
        out.append(line if bare.startswith("//") or '"' in line else respell(line, table))
    return "\n".join(out)


def rename_crates(root):
    for old, new in RENAMED_CRATES.items():
        if not os.path.isdir(os.path.join(root, "crates", old)):
            continue
        os.rename(os.path.join(root, "crates", old), os.path.join(root, "crates", new))
        for path in texts(root, (".rt", ".antt")):
            s = read(path)
            t = re.sub(r"\bRattle\.%s\." % old, "Rattle.%s." % new, s)
            if path.endswith(".rt"):
                t = re.sub(r"(?m)^(\s*(?:pub )?use )%s::" % old, r"\g<1>%s::" % new, t)
            if t != s:
                write(path, t)
        lines = []
        for line in read(os.path.join(root, "crates.txt")).split("\n"):
            if line.startswith("#") or ":" not in line:
                lines.append(line)
                continue
            head, deps = line.split(":", 1)
            named = [new if d == old else d for d in deps.split()]
            lines.append((new if head == old else head) + ":" + "".join(" " + d for d in named))
        write(os.path.join(root, "crates.txt"), "\n".join(lines))


def main():
    root = sys.argv[1] if len(sys.argv) > 1 else "."
    table = {n: spelled(n) for n in declared(root) - LIBRARY}
    seen, words = {}, all_words(root)
    for old, new in sorted(table.items()):
        if new in seen or new in words:
            print("fall together:", old, "->", new, "(also %s)" % seen.get(new, "a word that is there"))
        seen[new] = old
    for path in texts(root, (".rt", ".antt")):
        s = read(path)
        t = in_code(s, table) if path.endswith(".rt") else respell(s, table)
        if t != s:
            write(path, t)
    rename_crates(root)
    for old, new in sorted(table.items()):
        print(old, "->", new)


main()
