#!/usr/bin/env python3
"""Writes crates.txt so that a line lists what the crate's own text uses, and not all that stands below it.

usage: python3 tools/uses.py        at the top of the repository

What a crate uses is what its src/, specs/ and proofs/ name, and what its edits name. Words that are no crates of the repository stay.
"""

import glob
import re

lines = open("crates.txt", encoding="utf-8").read().split("\n")
LINE = re.compile(r"^([a-z0-9_]+)((?: [a-z_=0-9]+)*):(.*)$")
names = [m[1] for m in map(LINE.match, lines) if m]


def used(crate):
    found = set()
    for p in glob.glob(f"crates/{crate}/src/**/*.rt", recursive=True) + glob.glob(f"crates/{crate}/*/**/*.antt", recursive=True) + glob.glob(f"crates/{crate}/must-fail/*.edit"):
        if "/out/" in p:
            continue
        text = open(p, encoding="utf-8").read()
        found |= set(re.findall(r"Rattle\.([a-z0-9_]+)", text))
        if not p.endswith(".antt"):
            found |= set(re.findall(r"\b([a-z0-9_]+)::", text)) | set(re.findall(r"^use ([a-z0-9_]+)", text, re.M))
    return found


out = []
for line in lines:
    m = LINE.match(line)
    if m:
        mine = used(m[1])
        line = f"{m[1]}{m[2]}:" + "".join(f" {d}" for d in m[3].split() if d not in names or d in mine)
    out.append(line)
with open("crates.txt", "w", encoding="utf-8") as f:
    f.write("\n".join(out))
