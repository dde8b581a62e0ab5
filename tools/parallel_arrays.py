#!/usr/bin/env python3
"""Lists the structs of src/ with two or more arrays of one length, and the functions that make two or more such arrays.

usage: python3 tools/parallel_arrays.py     at the top of the repository; the last line is how many
"""

import collections
import glob
import re

ARRAY = r"\[[^\[\];]*; ([^\]]+)\]"

count = 0
for path in sorted(glob.glob("crates/*/src/*.rt")):
    text = open(path, encoding="utf-8").read()
    items = re.split(r"\n(?=(?:pub )?(?:struct|fn|impl)|    (?:pub )?fn )", text)
    for item in items:
        name = re.match(r"\s*(?:pub )?(struct|fn) (\w+)", item)
        if not name:
            continue
        pattern = r"^\s+(?:pub )?\w+: " if name.group(1) == "struct" else r"^\s+let mut \w+ = "
        lengths = collections.Counter(re.findall(pattern + ARRAY, item, re.M))
        shared = {length: n for length, n in lengths.items() if n > 1}
        if shared:
            count += 1
            print(f"{path}: {name.group(1)} {name.group(2)}: {shared}")
print(count)
