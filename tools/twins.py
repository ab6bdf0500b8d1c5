#!/usr/bin/env python3
"""Lists functions of src/ whose bodies are the same but for names and numbers: `tools/twins.py [DIR]`. A group is a place to look at,
not a verdict; bodies of a few words are passed over."""
import collections
import glob
import re
import sys

WORDS = {"let", "mut", "if", "else", "while", "for", "in", "return", "match", "as", "loop", "true", "false", "self", "break"}
FUNCTION = re.compile(r"\bfn (\w+)[^{;]*?\)(?: -> [^\n{]*)?\n(?:\s+(?:requires|ensures)[\s\S]*?)?^(\s*)\{\n([\s\S]*?)^\2\}", re.M)

groups = collections.defaultdict(list)
for path in sorted(glob.glob((sys.argv[1] if len(sys.argv) > 1 else ".") + "/crates/*/src/**/*.rt", recursive=True)):
    with open(path, encoding="utf-8") as source:
        text = re.sub(r"//[^\n]*", "", source.read())
    for found in FUNCTION.finditer(text):
        shape = re.sub(r"[A-Za-z_]\w*|\d+", lambda w: w.group() if w.group() in WORDS else "x", found.group(3))
        shape = " ".join(shape.split())
        if len(shape) > 40:
            groups[shape].append(path.split("crates/")[1] + " " + found.group(1))
for group in groups.values():
    if len(group) > 1:
        print(", ".join(group))
