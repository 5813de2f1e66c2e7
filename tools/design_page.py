#!/usr/bin/env python3
"""Writes the lists of docs/DESIGN-PASS.md, behind its line '<!-- lists -->', from what the kit's port.py says of two commits.

usage: python3 /opt/rattle/port/port.py contracts COMMIT | python3 tools/design_page.py      COMMIT: the page's first line

Functions that are gone stand in the page's own words, before that line.
"""

import re
import sys

page = "docs/DESIGN-PASS.md"
head = open(page, encoding="utf-8").read().split("<!-- lists -->")[0]
rows, kind, name = {"signature": [], "contract": [], "definitions, changed": []}, None, None
for line in sys.stdin:
    line = line.rstrip("\n")
    m = re.match(r"(signature|contract|definitions, changed): (.*)", line)
    if m:
        kind, name = m[1], m[2].replace(" src/lib.rt", "").replace(" src/", "::").replace(" ", "::", 1)
        rows[kind].append([name, [], []])
    elif line.startswith("    - ") and kind:
        rows[kind][-1][1].append(line[6:])
    elif line.startswith("    + ") and kind:
        rows[kind][-1][2].append(line[6:])
    elif not line.startswith("    "):
        kind = None


def cell(texts):
    text = " ".join(re.sub(r"^\[['\"](.*)['\"]\]$", r"\1", t) for t in texts)
    text = " ".join(re.sub(r"^(requires|ensures)  ", r"\1 ", text).split()).replace("( ", "(").replace(", )", ")")
    return "`" + text.replace("|", "\\|") + "`"


out = [head.rstrip(), "", "<!-- lists -->", ""]
for kind, title in (("signature", "### Signatures"), ("contract", "### Clauses"), ("definitions, changed", "### Definitions")):
    out += [title, "", "| Where | Before | Today |", "|---|---|---|"]
    out += [f"| `{name}` | {cell(old)} | {cell(new)} |" for name, old, new in rows[kind]] + [""]
open(page, "w", encoding="utf-8").write("\n".join(out).rstrip() + "\n")
print(", ".join(f"{len(v)} {k}" for k, v in rows.items()))
