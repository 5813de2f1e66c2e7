#!/usr/bin/env python3
"""Takes `if .. then .. else` from the library, which has it today, in place of the definition of crate `machine` (docs/PORT.md).

usage: python3 tools/library_if.py [FOLDER]      FOLDER: the folder crates/ of a checkout
"""

import glob
import os
import re
import sys

ROOT = sys.argv[1] if len(sys.argv) > 1 else "crates"
NAME = "if◌then◌else◌"
OLD = re.compile(r"^((?:ghost )?use )Rattle\.(machine)\.specs\.Lists\.\{([^}]*)\}(;?)$", re.M)


def turned(text):
    hit = [m for m in OLD.finditer(text) if NAME in [it.strip() for it in m[3].split(",")]]
    if not hit:
        return text
    m = hit[0]
    keep = [it.strip() for it in m[3].split(",") if it.strip() and it.strip() != NAME]
    line = f"{m[1]}Rattle.{m[2]}.specs.Lists.{{{', '.join(keep)}}}{m[4]}" if keep else None
    prelude = re.search(r"^((?:ghost )?use )Rattle\.std\.specs\.Prelude\.\{([^}]*)\}(;?)$", text, re.M)
    if prelude:
        text = text[:m.start()] + (line if line is not None else "\0") + text[m.end():]
        text = text.replace("\0\n", "")
        prelude = re.search(r"^((?:ghost )?use )Rattle\.std\.specs\.Prelude\.\{([^}]*)\}(;?)$", text, re.M)
        return text[:prelude.start()] + f"{prelude[1]}Rattle.std.specs.Prelude.{{{prelude[2]}, {NAME}}}{prelude[3]}" + text[prelude.end():]
    new = f"{m[1]}Rattle.std.specs.Prelude.{{{NAME}}}{m[4]}"
    return text[:m.start()] + (new + "\n" + line if line is not None else new) + text[m.end():]


for p in sorted(glob.glob(os.path.join(ROOT, "**", "*"), recursive=True)):
    if not p.endswith((".antt", ".rt")) or "/out/" in p:
        continue
    text = open(p, encoding="utf-8").read()
    new = text
    while True:
        more = turned(new)
        if more == new:
            break
        new = more
    if p.endswith("machine/specs/Lists.antt") and NAME + " {" in new:
        new = new.replace("--   if b then x else y   x where the test b is true, else y\n", "").replace("-- A choice by a test, and tests over lists:", "-- Tests over lists:")
        new = new.replace("◌∷◌, eqb}", "◌∷◌, eqb, if◌then◌else◌}", 1)
        new = re.sub(r"infix 10 if◌then◌else◌\nabbrev pub if◌then◌else◌[^\n]*\nif◌then◌else◌ true[^\n]*\nif◌then◌else◌ false[^\n]*\n\n?", "", new)
    if new != text:
        open(p, "w", encoding="utf-8").write(new)
