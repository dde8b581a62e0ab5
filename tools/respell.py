#!/usr/bin/env python3
"""Brings the repository's own definitions and lemmas to today's spelling: words in snake case, types and modules in camel case.

usage: python3 tools/respell.py [--list]     at the top of the repository, after port.py; --list prints the names and writes nothing

A name that is declared in specs/ or proofs/ and begins with a small letter goes from camelCase to snake_case. What specs/
declares, and each field and constructor, gets an underscore in the place of a dash; a lemma of proofs/ keeps its dashes,
which join names. Functions of src/, strings, inputs and outputs keep theirs. In a .rt file only ghost lines, clauses and
names between backticks of comments are read.
"""

import glob
import os
import re
import sys
from collections import defaultdict

WORD = r"[^\s(){}\[\],;.`\"⌜⌝]+"
DECLARED = re.compile(r"^(\s*)((?:abbrev |unfoldable |pub )*)(" + WORD + r") :(?=\s|$)")
HEAD = re.compile(r"^\s*(?:pub )?(?:data|record) ")
WHERE = re.compile(r"^\s*(?:pub )?module ")


def antt_files():
    for part in ("specs", "proofs"):
        yield from sorted(glob.glob(f"crates/*/{part}/**/*.antt", recursive=True))


def snake(name):
    return re.sub(r"(?<=[a-z0-9])([A-Z])(?![A-Z])", lambda m: "_" + m.group(1).lower(), name)


def joined(name):
    """A dash within a word to an underscore; an arrow or an operator keeps its own."""
    return re.sub(r"(?<=\w)-(?=\w)", "_", name)


def declared():
    """Each declared name, and whether specs/, a record or a data type declares it."""
    names = defaultdict(bool)
    for f in antt_files():
        inside = None
        for line in open(f, encoding="utf-8"):
            if line.lstrip().startswith("--") or not line.strip():
                continue
            depth = len(line) - len(line.lstrip())
            if inside is not None and depth <= inside:
                inside = None
            if HEAD.match(line):
                inside = depth
                continue
            m = DECLARED.match(line)
            if m and not (inside is not None and depth > inside + 2):
                names[m.group(3)] |= "/specs/" in f or inside is not None
    return names


def renamed():
    out = {}
    for name, defined in declared().items():
        new = name
        if re.match(r"[a-z_]", name):
            new = snake(name)
        if defined:
            new = joined(new)
        if new != name:
            out[name] = new
    return out


def turn(text, names):
    return re.sub(WORD, lambda m: names.get(m.group(0), m.group(0)), text)


def turn_rust(text, names):
    """Ghost lines and clauses of a .rt file, and what its comments name between backticks."""
    out, i = [], 0
    start = re.compile(r"ghost\b|\b(?:requires|ensures)\*?(?: [a-z_]+)? \{|//[^\n]*")
    while True:
        m = start.search(text, i)
        if not m:
            return "".join(out) + text[i:]
        out.append(text[i:m.start()])
        if m.group(0).startswith("//"):
            out.append(re.sub(r"`[^`\n]*`", lambda w: turn(w.group(0), names), m.group(0)))
            i = m.end()
            continue
        j = m.start()
        if m.group(0) == "ghost":
            if text.startswith("ghost use", j):
                end = text.index(";", j) + 1
            else:
                end = m.end()
        else:
            depth, end = 0, text.index("{", j)
            while True:
                depth += {"{": 1, "}": -1}.get(text[end], 0)
                end += 1
                if depth == 0:
                    break
        out.append(turn(text[j:end], names))
        i = end


def main():
    names = renamed()
    clash = defaultdict(list)
    for old, new in names.items():
        clash[new].append(old)
    words = set()
    for f in antt_files():
        words |= set(re.findall(WORD, open(f, encoding="utf-8").read()))
    for new, olds in sorted(clash.items()):
        if len(olds) > 1 or new in words:
            print(f"falls together: {', '.join(olds)} -> {new}{' (in use)' if new in words else ''}")
    if "--list" in sys.argv:
        for old, new in sorted(names.items()):
            print(old, new)
        return
    for f in antt_files():
        text = open(f, encoding="utf-8").read()
        new = turn(text, names)
        if new != text:
            open(f, "w", encoding="utf-8").write(new)
    for f in sorted(glob.glob("crates/*/src/**/*.rt", recursive=True)):
        text = open(f, encoding="utf-8").read()
        new = turn_rust(text, names)
        if new != text:
            open(f, "w", encoding="utf-8").write(new)


if __name__ == "__main__":
    os.chdir(os.path.join(os.path.dirname(os.path.abspath(__file__)), ".."))
    main()
