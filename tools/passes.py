#!/usr/bin/env python3
"""Lets some crates pass on a crate that they stand on, so that crates.txt has fewer paths.

usage: python3 tools/passes.py      at the top of the repository

Today's rt walks each path down crates.txt, and reads a crate's files on each: with every crate that is named listed, eight million. Here edges that
another edge implies are saved: the crate takes what it used through another that lists it. `pub use memory;` in reply/src/lib.rt and
`pub use Rattle.memory.specs as memory` in reply/specs/Lib.antt let a crate over reply write `use reply::memory;`,
`Rattle.reply.specs.memory.Splice` and `Rattle.reply.proofs.memory.Splice`. A line passes on all that the other crate passes on, and each check above
reads it: to save all such edges made libraries of 94 MB from 5. So the edge that gains most is saved first: twice the seconds of its walks, as rt ci walks
twice, less what reading the passed modules costs; until none gains.
"""

import glob
import os
import re

LINE = re.compile(r"^([a-z0-9_]+)((?: [a-z_=0-9]+)*):(.*)$")
lines = open("crates.txt", encoding="utf-8").read().split("\n")
lists, order = {}, []
for m in map(LINE.match, lines):
    if m:
        lists[m[1]] = m[3].split()
        order.append(m[1])
names = set(order)


def files(crate):
    for p in sorted(glob.glob(f"crates/{crate}/src/**/*.rt", recursive=True) + glob.glob(f"crates/{crate}/specs/**/*.antt", recursive=True)
                    + glob.glob(f"crates/{crate}/proofs/**/*.antt", recursive=True) + glob.glob(f"crates/{crate}/must-fail/*.edit")):
        yield p, open(p, encoding="utf-8").read()


def code(text):
    return re.sub(r"//[^\n]*", "", text)


texts = {c: dict(files(c)) for c in order}
uses = {}
for c in order:
    found = set()
    for p, t in texts[c].items():
        for m in re.finditer(r"Rattle\.([a-z0-9_]+)\.(?:specs|proofs)\.([a-z0-9_]+)?", t):
            # what is already taken through another crate counts as itself
            found.add(m[1])
        if p.endswith(".rt"):
            found |= {n for n in re.findall(r"(?<![\w:])([a-z0-9_]+)::", code(t)) if n in names}
            found |= {n for n in re.findall(r"^(?:pub )?use ([a-z0-9_]+)[;:]", t, re.M) if n in names}
        if p.endswith(".edit"):
            found |= {n for n in re.findall(r"(?<![\w:.])([a-z0-9_]+)::", t) if n in names and n in lists[c]}
    uses[c] = [d for d in lists[c] if d in names and d in found]

top, seen = [], set()


def visit(c):
    if c not in seen:
        seen.add(c)
        for d in uses[c]:
            visit(d)
        top.append(c)


for c in order:
    visit(c)
below = {}
for c in top:
    below[c] = set().union(*[{d} | below[d] for d in uses[c]]) if uses[c] else set()


def clashes(c, d):
    """Whether the crate has an item or a module of the name of crate d."""
    for p, t in texts[c].items():
        if p.endswith(".rt") and re.search(r"\b(?:fn|mod|struct|enum|const) %s\b" % re.escape(d), t):
            return True
    if any(os.path.basename(p)[:-5].lower() == d for p in texts[c] if p.endswith(".antt")):
        return True
    return os.path.isdir(f"crates/{c}/proofs/{d}") or os.path.exists(f"crates/{c}/src/{d}.rt")


programs = {c for c in order if os.path.exists(f"crates/{c}/src/main.rt")}
clash = {(e, d): clashes(e, d) for e in order for d in below[e]}
users = {c: [x for x in order if c in uses[x]] for c in order}
keeps = {c: list(uses[c]) for c in order}
passes, through = {c: set() for c in order}, {c: {} for c in order}

# Milliseconds of one visit of a crate, as measured; its modules; the checks that read its library: of each crate above, and of their edits.
weight, own, readers = {}, {}, {}
for c in order:
    read = [p for part in ("src", "specs", "proofs") for p in glob.glob(f"crates/{c}/{part}/**/*", recursive=True) if os.path.isfile(p)]
    weight[c] = 0.04 * len(read) + sum(map(os.path.getsize, read)) / 125000
    own[c] = 2 + sum("/src/" not in p for p in read)
    readers[c] = sum(1 + len(glob.glob(f"crates/{x}/must-fail/*.edit")) for x in order if c in below[x])
# Seconds to read one passed module once: estimated from libraries' sizes, 8 KB a module.
READ = 0.0001


def walks():
    """What a walk from each crate costs, and how many walks come to each."""
    down, up = {}, {}
    for c in top:
        down[c] = weight[c] + sum(down[d] for d in keeps[c])
    for c in reversed(top):
        up[c] = 1 + sum(up[x] for x in users[c] if c in keeps[x])
    return down, up


def passed():
    """How many modules each crate passes on, and how often what it passes is read."""
    count, often = {}, {}
    for c in top:
        count[c] = sum(own[d] + count[d] for d in passes[c])
    for c in reversed(top):
        often[c] = readers[c] + sum(often[x] for x in order if c in passes[x])
    return count, often


def plan(c, d, count, often):
    """The cheapest way in which c, which does not list d, takes it: what it costs, and who takes it through whom."""
    best = None
    for e in keeps[c]:
        if e == d or d not in below[e] or e in programs or clash[e, d]:
            continue
        if d in passes[e]:
            return 0, [(c, d, e)]
        cost, ways = often[e] * (own[d] + count[d]), [(c, d, e)]
        if d not in keeps[e] and d not in through[e]:
            more = plan(e, d, count, often)
            if more is None:
                continue
            cost, ways = cost + more[0], ways + more[1]
        if best is None or cost < best[0]:
            best = cost, ways
    return best


refused = set()
while True:
    (down, up), (count, often) = walks(), passed()
    best = 0.02, None
    edges = ((up[c] * down[d], c, d) for c in order for d in keeps[c] if (c, d) not in refused and d not in through[c].values())
    for saves, c, d in sorted((it for it in edges if any(it[2] in below[e] for e in keeps[it[1]])), reverse=True)[:250]:
        keeps[c].remove(d)
        way = plan(c, d, count, often)
        keeps[c].append(d)
        if way is None:
            refused.add((c, d))
        else:
            best = max(best, (2 * saves / 1000 - READ * way[0], (c, d, way[1])), key=lambda it: it[0])
    if best[1] is None:
        break
    c, d, ways = best[1]
    keeps[c].remove(d)
    for x, y, e in ways:
        through[x][y] = e
        passes[e].add(y)


def turn(c, root):
    """Turns the files of crate c below the folder root."""
    for p in sorted(texts[c]):
        q = os.path.join(root, p)
        if not os.path.exists(q):
            continue
        t = open(q, encoding="utf-8").read()
        new = t
        for d, e in through[c].items():
            new = re.sub(r"Rattle\.%s\.(specs|proofs)\." % re.escape(d), r"Rattle.%s.\1.%s." % (e, d), new)
        if p.endswith(".rt"):
            top_file = p.endswith(("/lib.rt", "/main.rt")) and p.count("/") == 3
            wanted = []
            for d, e in through[c].items():
                if top_file and d in passes[c]:
                    wanted.append(f"pub use {e}::{d};")
                elif re.search(r"(?<![\w:])%s::" % re.escape(d), re.sub(r"^(?:pub )?use %s::" % re.escape(d), "", code(new), flags=re.M)):
                    wanted.append(f"use {e}::{d};")
                new = re.sub(r"^((?:pub )?use )%s::" % re.escape(d), r"\g<1>%s::%s::" % (e, d), new, flags=re.M)
            if top_file:
                wanted += [f"pub use {d};" for d in sorted(passes[c]) if d in keeps[c]]
            wanted = [w for w in sorted(wanted, key=lambda w: w.replace("pub ", "")) if w not in new.split("\n")]
            if wanted:
                m = re.search(r"^(?:pub )?use ", new, re.M)
                if m:
                    new = new[:m.start()] + "\n".join(wanted) + "\n" + new[m.start():]
                else:
                    m = re.match(r"(?://[^\n]*\n)*(?:#!\[[^\n]*\n)?\n*(?:ghost use [^;]*;\n+|mod \w+;\n+|pub mod \w+;\n+)*", new)
                    new = new[:m.end()] + "\n".join(wanted) + "\n\n" + new[m.end():]
        if new != t:
            open(q, "w", encoding="utf-8").write(new)
    if passes[c]:
        p = os.path.join(root, f"crates/{c}/specs/Lib.antt")
        t = open(p, encoding="utf-8").read() if os.path.exists(p) else ""
        # a crate of laws alone has no specs to pass on
        for d in sorted(d for d in passes[c] if os.path.isdir(f"crates/{d}/specs") or "fn " in texts[d][f"crates/{d}/src/lib.rt"]):
            line = f"pub use Rattle.{d}.specs as {d}" if d in keeps[c] else f"pub use Rattle.{through[c][d]}.specs.{d} as {d}"
            if line not in t.split("\n"):
                t = t.rstrip("\n") + ("\n" if t else "") + line + "\n"
        os.makedirs(os.path.dirname(p), exist_ok=True)
        open(p, "w", encoding="utf-8").write(t)


for c in order:
    turn(c, ".")
out = []
for line in lines:
    m = LINE.match(line)
    if m:
        line = f"{m[1]}{m[2]}:" + "".join(f" {d}" for d in m[3].split() if d not in names or d in keeps[m[1]])
    out.append(line)
open("crates.txt", "w", encoding="utf-8").write("\n".join(out))
