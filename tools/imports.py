#!/usr/bin/env python3
"""Drops from the proofs of functions the imports that nothing in the file names.

usage: python3 tools/imports.py CRATE..       Written for the port (docs/PORT.md): it goes by text, and the check says the rest.
"""

import glob
import re
import sys


def names(item, text):
    name = item.split(" as ")[-1].strip()
    if "◌" in name:
        return all(part in text for part in name.split("◌") if part)
    if name == "[]":
        return "[]" in text
    return re.search(r"(?<![\w'·₀-₉-])" + re.escape(name) + r"(?![\w'·₀-₉-])", text) is not None


for crate in sys.argv[1:]:
    for path in glob.glob(f"crates/{crate}/proofs/**/*.antt", recursive=True):
        if not path.endswith(("/Answers.antt", "/Invariants.antt")):
            continue
        lines = open(path, encoding="utf-8").read().split("\n")
        rest = "\n".join(re.sub(r"--.*$", "", it) for it in lines if not it.startswith("use "))
        out, seen = [], set()
        for line in lines:
            m = re.match(r"use (\S+)\.\{(.*)\}$", line)
            if m:
                keep = [it.strip() for it in m[2].split(",") if names(it.strip(), rest) and (m[1], it.strip()) not in seen]
                seen |= {(m[1], it) for it in keep}
                if keep:
                    out.append(f"use {m[1]}.{{{', '.join(keep)}}}")
                continue
            m = re.match(r"use (\S+) as (\S+)$", line)
            if m and not re.search(r"(?<![\w.'-])" + re.escape(m[2]) + r"\.", rest):
                continue
            out.append(line)
        new = "\n".join(out)
        if new != "\n".join(lines):
            open(path, "w", encoding="utf-8").write(new)
