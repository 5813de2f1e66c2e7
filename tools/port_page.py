#!/usr/bin/env python3
"""Writes the parts of docs/PORT.md that are lists, behind its line '<!-- lists -->'.

usage: python3 tools/port_page.py LANDED PORTED LOG..

LANDED: a checkout of the landed commit; PORTED: the same after port.py and tools/respell.py; LOG: what `rt ci` said of edits.
"""

import collections
import glob
import os
import re
import sys

landed, ported, logs = sys.argv[1], sys.argv[2], sys.argv[3:]
page = "docs/PORT.md"
head = open(page, encoding="utf-8").read().split("<!-- lists -->")[0]
out = [head.rstrip(), "", "<!-- lists -->", ""]

respelt = dict(it.split("\t") for it in open("tools/respelt.tsv", encoding="utf-8").read().split("\n") if "\t" in it)
DECL = re.compile(r"^ *(?:(?:pattern |unfoldable |abbrev |pub |record |data )*)([^\s:(){}]+)(?: \{[^}]*\})?(?: [({].*)? :(?= |$)", re.M)

out += ["## Names of definitions and theorems, by crate", "",
        "What the scripts renamed in specs/. Laws and lemmas of proofs/ follow the same rule; `tools/respelt.tsv` has all.", "",
        "| Crate | Renamed in specs/ | Functions whose proof is in today's form |", "|---|---|---|"]
crates = sorted(os.listdir("crates"))
for c in crates:
    old = set()
    for p in glob.glob(f"{landed}/crates/{c}/specs/**/*.antt", recursive=True):
        old |= set(DECL.findall(open(p, encoding="utf-8").read()))
    new = set()
    for p in glob.glob(f"crates/{c}/specs/**/*.antt", recursive=True):
        new |= set(DECL.findall(open(p, encoding="utf-8").read()))
    gone, came = sorted(old - new), new - old

    def key(n):
        return re.sub(r"[-_·'′]", "", n).lower()

    by = {key(n): n for n in came}
    pairs = [f"`{n}` is `{by[key(n)]}`" for n in gone if key(n) in by]
    lost = [f"`{n}` is gone" for n in gone if key(n) not in by]
    was = {os.path.relpath(os.path.dirname(p), f"{landed}/crates/{c}/proofs") for p in glob.glob(f"{landed}/crates/{c}/proofs/**/Proof.antt", recursive=True)}
    n = len(was)
    if pairs or lost or n:
        out.append(f"| {c} | {'; '.join(pairs + lost) or '-'} | {n} |")

said = {}
for log in logs:
    for m in re.finditer(r"must-fail (\S+?)/(\S+?\.edit): ([^\n]*)", open(log, encoding="utf-8", errors="replace").read()):
        said[m[1], m[2]] = m[3]
out += ["", "## Must-fail edits whose text changed", "", "Each file under its name, with the statement that refuses it (the first that the prover names).", "",
        "| Edit | Refused by |", "|---|---|"]
changed = same = unseen = 0
for e in sorted(glob.glob("crates/*/must-fail/*.edit")):
    c, name = e.split("/")[1], os.path.basename(e)
    before = f"{landed}/{e}"
    if os.path.exists(before) and open(before, encoding="utf-8").read() == open(e, encoding="utf-8").read():
        same += 1
        continue
    changed += 1
    s = said.get((c, name), "")
    m = re.search(r"refused, as it must be(?: \([^)]*\))?: (?:note: )?(\S+?):\d+:\d+: (?:error: )?(?:[^`]*\()?(?:`([^`]*)`)?", s)
    where = f"`{m[2]}` in {m[1].removeprefix('./')}" if m and m[2] else (m[1] if m else "not tried yet")
    unseen += not m
    out.append(f"| {c}/{name.removesuffix('.edit')} | {where} |")
out += ["", f"{changed} changed, {same} as they were."]
with open(page, "w", encoding="utf-8") as f:
    f.write("\n".join(out) + "\n")
print(f"{changed} edits changed, {same} as they were, {unseen} not tried in these logs; {sum(1 for v in said.values() if 'refused, as' in v)} refused, {[k for k, v in said.items() if 'refused, as' not in v]}")
