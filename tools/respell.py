#!/usr/bin/env python3
"""Brings the repository's own definitions and lemmas to today's spelling: words in snake case, a dash between two names.

usage: python3 tools/respell.py [FOLDER]        FOLDER: a checkout, after port.py; the current one if left out

Written and run once, behind port.py (docs/PORT.md). It collects what the .antt files below crates/ declare, and turns:

  ownReply           own_reply              a word in camel case
  CMD·RESET          CMD_RESET              a constant of devices/audio.h with a middle dot
  Demand3·port       Demand3Port            a fact with a middle dot
  held-of            held_of                plain words are joined by _
  length-encodes     length-encodes         two names of definitions keep their dash
  K-reads            k_reads                a desk's letter is a word

Where two names fall together, that of the lemma gets _lem; the rest is printed and left. Names of src/, of files and of edits stay.
It prints the map, old and new, to tools/respelt.tsv.
"""

import collections
import glob
import os
import re
import sys

ROOT = os.path.abspath(sys.argv[1] if len(sys.argv) > 1 else ".")
DECLARES = re.compile(r"^( *)((?:pattern |unfoldable |abbrev |pub |axiom )*)(record |data )?([^\s:(){}]+)((?: \{[^}]*\})?)(?: [({].*)? :(?= |$)")
CONSTRUCTORS = re.compile(r"^ +([A-Za-z][^\s:(){}]*(?: [A-Za-z][^\s:(){}]*)*) : ")
TOKEN = re.compile(r"[A-Za-zΛ][A-Za-z0-9_'·₀-₉’-]*")
CAMEL = re.compile(r"(?<=[a-z0-9])(?=[A-Z])")
# words that are also names of definitions here, and stand in lemmas as words
WORDS = set("a all and any as at back before behind both by cut each end ends few first fits free from front gone good has held here how in is it "
            "keep kept last left less line look lost made map made mark more most names new next no none not of off on one only open or other out own "
            "part place quiet read room run same says set so some start step still stop sub tail take test than that the there then through to "
            "too turn two up was what where which whole with without word write writes yes".split())
# functions of the library that lemmas here speak of
LIBRARY = set("length append take drop map set replicate get_or slice splice reverse concat filter sum eqb ltb leb bit_and bit_or odd half".split())


def files(root, ends):
    for p in sorted(glob.glob(os.path.join(root, "crates", "**", "*"), recursive=True)):
        if p.endswith(ends) and "/out/" not in p:
            yield p


def declared(root):
    names, plain, types = collections.OrderedDict(), set(), set()
    for p in files(root, ".antt"):
        answers = p.endswith("/Proof.antt")
        inside = ""
        for line in open(p, encoding="utf-8"):
            if line.lstrip().startswith("--"):
                continue
            for alias in re.findall(r" as ([a-z][A-Za-z0-9_'·-]*)", line) if line.startswith("use Rattle.") else ():
                if not (answers and alias in ("tie", "reads", "lts")):
                    names.setdefault(alias, []).append(p)
            m = DECLARES.match(line)
            if m:
                kind, name = m[3], m[4]
                if m[1] == "":
                    inside = kind or ""
                if answers and re.search(r": tie\.", line):
                    continue
                if answers and re.search(r"-spec$|_spec$", name):
                    continue
                names.setdefault(name, []).append(p)
                if kind or name[0].isupper():
                    types.add(name)
                elif "/specs/" in p or "abbrev" in m[2] or "unfoldable" in m[2]:
                    plain.add(name)
            if inside == "data " and line.startswith(" "):
                c = CONSTRUCTORS.match(line)
                if c:
                    for n in c[1].split():
                        names.setdefault(n, []).append(p)
    return names, plain, types


def snake(word):
    return CAMEL.sub("_", word).lower() if word[:1].islower() else word


def of_the_library(text, own):
    """The names that a file imports from a library of the kit: they are not the repository's, whatever they are called."""
    out = set()
    for m in re.finditer(r"^(?:ghost )?use ([^\s;{}]+?)\.\{([^}]*)\}", text, re.M):
        root = re.match(r"Rattle\.(\w+)", m[1])
        if not (root and root[1] in own):
            for it in m[2].split(","):
                out.add(it.strip().split(" as ")[-1].strip())
                out.add(it.strip().split(" as ")[0].strip())
    return out


def spelt(name, plain, types):
    if "·" in name:
        parts = name.split("·")
        if name.upper() == name:
            return "_".join(parts)
        return "".join(p[:1].upper() + p[1:] for p in parts)
    if name in ("GAVE-UP",):
        return name.replace("-", "_")
    parts = name.split("-")
    out = ""
    for i, part in enumerate(parts):
        word = snake(part)
        if len(parts) > 1 and len(part) == 1 and part in "AB":
            word = part.lower()
        if len(parts) > 1 and (part == "K" or part == "K's" or (len(part) > 1 and part.isupper() and part not in types)):
            word = part.lower()
        if i == 0:
            out = word
            continue
        before = parts[i - 1]

        def is_name(p):
            return (p in plain and p not in WORDS) or p in LIBRARY or (p[:1].isupper() and p not in ("A", "B", "K", "K's"))

        out += ("-" if is_name(before) and is_name(part) else "_") + word
    return out


def main():
    names, plain, types = declared(ROOT)
    turned, taken = {}, collections.defaultdict(list)
    for n in names:
        taken[spelt(n, plain, types)].append(n)
    left = []
    for new, olds in taken.items():
        if len(olds) == 1:
            turned[olds[0]] = new
            continue
        # the definition keeps the name, then what has it already; lemmas get _lem
        olds.sort(key=lambda n: (not any("/specs/" in p for p in names[n]), n not in plain and n not in types, n != new, "-" in n, n))
        turned[olds[0]] = new
        for k, o in enumerate(olds[1:]):
            turned[o] = new + "_lem" + ("" if k == 0 else str(k + 1))
            left.append(f"fall together: {' '.join(olds)}: {o} is {turned[o]}")
    turned = {o: n for o, n in turned.items() if o != n}
    turned["GAVE-as-UP"] = "GAVE_UP"
    for o, n in list(turned.items()):
        if n in names and n not in turned and not n.endswith("_lem"):
            left.append(f"taken: {o} would be {n}")
    with open(os.path.join(os.path.dirname(os.path.abspath(__file__)), "respelt.tsv"), "w", encoding="utf-8") as f:
        for o in sorted(turned):
            f.write(f"{o}\t{turned[o]}\n")

    for p in files(ROOT, ".rt"):
        for alias in re.findall(r"^ghost use .* as ([a-z][A-Za-z0-9_'·-]*)", open(p, encoding="utf-8").read(), re.M):
            if alias not in turned and spelt(alias, plain, types) != alias:
                turned[alias] = spelt(alias, plain, types)
    own = set(os.listdir(os.path.join(ROOT, "crates")))
    foreign = set()

    def in_code(text):
        def one(m):
            if text[max(0, m.start() - 4):m.start()] == "tie." or m[0] in foreign:
                return m[0]
            return turned.get(m[0], m[0])

        return TOKEN.sub(one, text)

    def in_words(text):
        # in a comment: names in camel case or with a dot, and others between backticks
        text = TOKEN.sub(lambda m: turned.get(m[0], m[0]) if "-" not in m[0] else m[0], text)
        return re.sub(r"`([^`\n]+)`", lambda m: "`" + TOKEN.sub(lambda t: turned.get(t[0], t[0]), m[1]) + "`", text)

    def at_head(text):
        # the list of names at a file's head:  --   name a b   what it is
        m = re.match(r"^(--   +)(\S.*?)(   +.*)?$", text)
        return m[1] + in_code(m[2]) + in_words(m[3] or "") if m else in_words(text)

    changed = 0
    for p in files(ROOT, (".antt", ".rt")):
        text = open(p, encoding="utf-8").read()
        mark = "--" if p.endswith(".antt") else "//"
        foreign.clear()
        foreign.update(of_the_library(text, own))
        out = []
        inside = False
        for line in text.split("\n"):
            lead = line.lstrip()
            if lead.startswith(mark):
                out.append(at_head(line) if mark == "--" else in_words(line))
                continue
            if mark == "//":
                # code keeps its names; clauses and `ghost use` are antt
                starts = re.match(r"\s*(requires|ensures|ghost|decreases)\b", line)
                if starts:
                    inside = True
                if inside:
                    out.append(in_code(line))
                    if line.rstrip().endswith(("}", ";")) and line.count("{") <= line.count("}"):
                        inside = False
                    elif line.count("{") > line.count("}"):
                        inside = True
                    continue
                out.append(line)
                continue
            code, sep, comment = line.partition(" -- ")
            out.append(in_code(code) + sep + in_words(comment))
        new = "\n".join(out)
        if new != text:
            changed += 1
            with open(p, "w", encoding="utf-8") as f:
                f.write(new)
    print("\n".join(left))
    print(f"respell: {len(turned)} names, {changed} files")


if __name__ == "__main__":
    main()
