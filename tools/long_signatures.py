#!/usr/bin/env python3
"""Lists the functions of src/ that have six or more parameters.

usage: python3 tools/long_signatures.py     at the top of the repository; the last line is how many
"""

import glob
import re

MANY = 6

count = 0
for path in sorted(glob.glob("crates/*/src/*.rt")):
    text = open(path, encoding="utf-8").read()
    for found in re.finditer(r"fn (\w+)(?:<[^>]*>)?\(([^)]*)\)", text, re.S):
        names = [p.split(":")[0].replace("mut ", "").strip() for p in found.group(2).split(",") if ":" in p]
        if len(names) >= MANY:
            count += 1
            print(f"{path}: {found.group(1)}({', '.join(names)})")
print(count)
