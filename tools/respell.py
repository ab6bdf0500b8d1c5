#!/usr/bin/env python3
"""Brings the repository's own names in proofs and clauses to one spelling: words in snake case, types and modules in camel case, and a dash
only where it joins two names. It was run once, at the top, right after the kit's own script had brought the crates to a newer Rattle.

It reads names as antt does, up to a space or a bracket, and turns each part between dashes that begins with a small letter. In Rust-like
sources only clauses and imports have such names, and strings are left alone. It stops, and writes nothing, where two names of one file
would fall together.
"""

import os
import re
import sys

NAME = re.compile(r"""[^\s(){}\[\].,;:«»⟦⟧⌜⌝"`&*=<>!|?@/\\]+""")
STRING = re.compile(r'("(?:[^"\\\n]|\\.)*")')
PART = re.compile(r"[a-z][a-z0-9_']*[A-Z]")
# the library's new word for the old one, and a lemma that would have its function's name
WORDS = {"getD": "get_or"}
WHOLE = {
    ("crates/theory_splitting/specs/SplitsInto.antt", "read_as"): "read_as_lem",
    ("crates/promises/specs/Unwritten.antt", "too_large"): "too_large_lem",
}


def part(p):
    if p in WORDS:
        return WORDS[p]
    if not PART.match(p):
        return p
    p = re.sub(r"(?<=[a-z0-9'])([A-Z])", r"_\1", p)
    return re.sub(r"(?<=[A-Z])([A-Z][a-z])", r"_\1", p).lower()


def spelled(name):
    return "-".join(part(p) for p in name.split("-"))


def texts():
    for top in ("crates", os.path.join("tests", "edits")):
        for folder, dirs, files in os.walk(top):
            dirs[:] = sorted(d for d in dirs if d != "out")
            for f in sorted(files):
                if f.endswith((".antt", ".rt", ".edit")):
                    yield os.path.join(folder, f)


def turned(path, text):
    seen = {}

    def one(m):
        name = m.group()
        new = WHOLE.get((path, name)) or spelled(name)
        seen.setdefault(new, set()).add(name)
        return new

    pieces = STRING.split(text) if path.endswith(".rt") else [text]
    pieces[::2] = [NAME.sub(one, p) for p in pieces[::2]]
    together = {new: old for new, old in seen.items() if len(old) > 1}
    return "".join(pieces), together


def main():
    new, bad = {}, 0
    for path in texts():
        with open(path, encoding="utf-8") as f:
            text = f.read()
        new[path], together = turned(path, text)
        if path.endswith(".antt") and "/specs/" in path and together:
            bad += 1
            print(f"{path}: fall together: {together}")
    if bad:
        sys.exit(1)
    changed = 0
    for path, text in new.items():
        with open(path, encoding="utf-8") as f:
            if f.read() == text:
                continue
        with open(path, "w", encoding="utf-8") as f:
            f.write(text)
        changed += 1
    print(f"{changed} files changed")


if __name__ == "__main__":
    main()
