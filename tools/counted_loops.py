#!/usr/bin/env python3
"""Lists the loops of src/ that count an index by hand: `while` and `loop` whose body steps a variable of the condition by 1.

usage: python3 tools/counted_loops.py     at the top of the repository; the last line is how many
"""

import glob
import re

count = 0
for path in sorted(glob.glob("crates/*/src/*.rt")):
    lines = open(path, encoding="utf-8").read().split("\n")
    for number, line in enumerate(lines):
        head = re.match(r"^(\s*)(while |loop \{)", line)
        if not head:
            continue
        body = []
        for later in lines[number + 1 :]:
            if later.startswith(head.group(1) + "}"):
                break
            body.append(later)
        stepped = [m.group(1) for m in (re.match(r"^\s*(\w+) [+-]= 1;", b) for b in body) if m]
        if any("loop" in line or re.search(r"\b" + name + r"\b", line) for name in stepped):
            count += 1
            print(f"{path}:{number + 1}: {line.strip()}")
print(count)
