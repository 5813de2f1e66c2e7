#!/usr/bin/env python3
"""Writes `#![tactic(auto)]` near the head of each crate's root file, where it has none. Written for the port (docs/PORT.md)."""
import glob
import re

for p in sorted(glob.glob("crates/*/src/lib.rt") + glob.glob("crates/*/src/main.rt")):
    text = open(p, encoding="utf-8").read()
    if "#![tactic(" in text:
        continue
    head = re.match(r"((?://[^\n]*\n)*)\n*", text)
    rest = text[head.end():]
    with open(p, "w", encoding="utf-8") as f:
        f.write(head[1] + "#![tactic(auto)]\n" + ("\n" + rest if rest else ""))
