#!/usr/bin/env python3
"""Brings crates/*/must-fail/*.edit to the spelling that port.py and tools/respell.py gave the files they edit, each with its wrong meaning.
Written and run once, behind both (docs/PORT.md); `--check` only says which edits don't apply to the files as they stand.

usage: python3 tools/port_edits.py [--check [COMMIT]]      at the top of a checkout; with COMMIT, lists the edits that changed since

An edit is applied to the file as it stood in OLD; the line that it changed is respelled, before and after; what differs in today's file is
its new pair, the same part of the line as it was if that stands there once. Names go by tools/respelt.tsv and by the words that stand in
the same place in OLD and today. What this script can't turn (BY_HAND) is written out below; the rest is printed.
"""

import collections
import glob
import os
import re
import subprocess
import sys

OLD = "7e89b5b"
NAME = re.compile(r"[A-Za-zΛ][A-Za-z0-9_'′·₀-₉’-]*")
LEX = re.compile(r"\s+|[(){},;]|λ [^.]*\.|\.[a-z0-9]\w*(?:['′])?|[^\s(){},;]+")
LIBRARY = re.compile(r"(?:lib\.(?:ListN|Dec)|Prim\.Native\.Nat|mathlib\.Core\.(?:List|Bool))\.(?=[A-Za-z])")
KEYWORDS = {"if", "then", "else", "let", "in", "record", "where", "with", "case", "of", "pub", "abbrev", "unfoldable"}
BY_HAND = {
    # `finished` and `at_once` both have the line `error: a.error,`: the wrong reply stands behind the return of `finished`
    "answers/own_reply_tells_no_error": [("        };", "        }; } if r.flags % 2 == 0 { let at = reply::put(replies, n, Reply { id: r.id, command: r.command, error: 0, map: a.map, key: a.key }); return Outcome { answer: a, state: s, n: at };")],
    # clauses
    "record_structs/array_said_to_stay": [("result.listed.error result.listed.count result.list", "result.listed.error result.listed.count list")],
    "record_structs/list_said_to_stay": [("result.error result.count list.new", "result.error result.count list.old")],
    "record_structs/number_told_for_the_refusal": [("list.old result.error result.count", "list.old result.count result.error")],
    "record_structs/number_told_for_the_refusal_of_an_array": [("list result.listed.error result.listed.count", "list result.listed.count result.listed.error")],
}
# names that today's file imports and has no other use for: `rt tidy` takes those imports out, so the edit says the whole path
IN_FULL = {
    "machine/close_with_key_0_accepted": "true",
    "machine/close_without_an_entry": "true",
    "machine/nowait_from_64_on": "not",
    "machine/stolen_lock_unlocks": "false",
    "two_runs/any_abort_misses": "true",
    "two_runs/any_command_misses": "true",
}


def shown(commit, path, seen={}):
    if (commit, path) not in seen:
        seen[commit, path] = subprocess.run(["git", "show", f"{commit}:{path}"], capture_output=True, text=True).stdout
    return seen[commit, path]


def edits():
    return sorted(glob.glob("crates/*/must-fail/*.edit"))


def pairs_of(text):
    """The pairs of an edit, as rt reads them: file, old, new, and the numbers of the lines of old and new."""
    file, old, out = None, None, []
    lines = text.split("\n")
    for i, l in enumerate(lines):
        if l.startswith("file: "):
            file = l[6:].strip()
        elif l.startswith("old: "):
            old = (l[5:], i)
        elif l.startswith("new:"):
            out.append((file, old[0], l[4:].removeprefix(" "), old[1], i))
    return out, lines


def why_not(path):
    """Why an edit can't be applied; None if it can."""
    crate, texts = path.split("/must-fail/")[0], {}
    for file, old, new, _, _ in pairs_of(open(path, encoding="utf-8").read())[0]:
        if file not in texts:
            texts[file] = open(f"{crate}/{file}", encoding="utf-8").read()
        if texts[file].count(old) != 1:
            return f"{file}: {texts[file].count(old)} times: {old}"
        texts[file] = texts[file].replace(old, new)
    return None if texts else "no pair"


def name_map():
    """Old names and today's: tools/respelt.tsv, and the words of each file of specs/ beside those of OLD."""
    m = dict(l.rstrip("\n").split("\t") for l in open("tools/respelt.tsv", encoding="utf-8"))
    beside = collections.defaultdict(collections.Counter)

    def words(text):
        return [w for l in text.split("\n") if not l.startswith(("--", "use ")) for w in NAME.findall(l)]

    for p in sorted(glob.glob("crates/*/specs/**/*.antt", recursive=True)):
        a, b = words(shown(OLD, p)), words(open(p, encoding="utf-8").read())
        if len(a) == len(b):
            for x, y in zip(a, b):
                beside[x][y] += 1
    for x, ys in beside.items():
        m[x] = ys.most_common(1)[0][0]
    return {x: y for x, y in m.items() if x != y}


def fields(s):
    """`x .f` is `x.f`, and `g x .f` is `(g x).f`."""
    tokens, at = LEX.findall(s), 0

    def atom(t):
        return t == "[]" or ((t[0].isalnum() or t[0] == "_") and t not in KEYWORDS and not t.startswith("λ"))

    def parse(close):
        nonlocal at
        out, run, n, one = [], None, 0, True
        while at < len(tokens):
            t = tokens[at]
            if t == close:
                break
            at += 1
            if t.isspace():
                out.append(t)
            elif t in "({":
                inner, single = parse(")" if t == "(" else "}")
                ended = at < len(tokens)
                at += 1
                if t == "{":
                    out.append("{" + inner + ("}" if ended else ""))
                    run, one = None, False
                    continue
                if run is None:
                    run, n = len(out), 0
                out.append(inner.strip() if ended and single and "." in inner else "(" + inner + (")" if ended else ""))
                n += 1
            elif t == ")":
                out.append(t)
                out, run, n, one = ["".join(out)], 0, 1, False
            elif re.match(r"\.[a-z0-9]", t) and run is not None:
                body = "".join(out[run:]).rstrip()
                out[run:] = [("(" + body + ")" if n > 1 else body) + t]
                n = 1
            elif atom(t):
                if run is None:
                    run, n = len(out), 0
                out.append(t)
                n += 1
            else:
                out.append(t)
                run, one = (run if re.match(r"\.[a-z0-9]", t) else None), False
        return "".join(out), one and n == 1 and run is not None and not "".join(out[:run]).strip()

    return parse(None)[0]


def ws(s):
    return re.sub(r"\s+", " ", s).strip()


def main():
    names = name_map()

    def word(s):
        return NAME.sub(lambda m: names.get(m[0], names.get(m[0].replace("′", "'"), m[0].replace("′", "'"))), s)

    def paths(s):
        return re.sub(r"Rattle·(\w+)(?:·specs\.specs|\.specs)\.", r"Rattle.\1.specs.", s)

    def spell(s):
        s = LIBRARY.sub("Rattle.std.specs.Prelude.", paths(s)).replace("Lists.if_then_else_", "Lists.if◌then◌else◌")
        return word(fields(s))

    def of_use(line, after, now):
        """The pair for a line `use` that an edit gives more names."""
        a, b = (re.match(r"use ([^{]*)\.\{(.*)\}", l) for l in (line, after))
        more = [re.sub(r"^_(\S+)_$", r"◌\1◌", word(x)) for x in b[2].split(", ") if x not in a[2].split(", ")]
        module = "Rattle.std.proofs.Math.Option" if a[1].endswith("Option") else "Rattle.std.specs.Prelude"
        have = [l for l in now.split("\n") if l.startswith(f"use {module}.{{")][0].split("{")[1].rstrip("}").split(", ")
        more = [x for x in more if x not in have]
        return f"use {module}.{{{have[0]}", f"use {module}.{{{', '.join(more + have[:1])}"

    def turn(line, after, o, n, before, now):
        """The pair for a line of a definition, and what it makes of the file."""
        want, at = ws(spell(line)), 0
        place = sum(ws(spell(l)) == want for l in before)
        for today in now.split("\n"):
            if ws(today) == want:
                if place == 0:
                    break
                place -= 1
            at += len(today) + 1
        else:
            return None
        made = today[: len(today) - len(today.lstrip())] + spell(after).strip()
        to = now[:at] + made + now[at + len(today) :]
        for so, sn in ((o, n), (spell(o), spell(n)), (word(paths(o)), word(paths(n)))):
            if now.count(so) == 1 and now.replace(so, sn) == to:
                return so, sn, to
        a, b = (re.findall(r"\s+|[^\s]+", l) for l in (today, made))
        x = y = 0
        while x < min(len(a), len(b)) and a[x] == b[x]:
            x += 1
        while y < min(len(a), len(b)) - x and a[-1 - y] == b[-1 - y]:
            y += 1
        found = []
        for i in range(x, -1, -1):
            for j in range(y, -1, -1):
                so, sn = "".join(a[i : len(a) - j]), "".join(b[i : len(b) - j])
                if so and so == so.strip() and now.count(so) == 1 and now.replace(so, sn) == to:
                    found.append((len(so), so, sn))
        return (*min(found)[1:], to) if found else None

    changed = 0
    for path in edits():
        crate, edit = path.split("/must-fail/")
        text = open(path, encoding="utf-8").read()
        pairs, lines = pairs_of(text)
        old, now, out = {}, {}, []
        for file, o, n, _, _ in pairs:
            if file not in old:
                old[file], now[file] = shown(OLD, f"{crate}/{file}"), open(f"{crate}/{file}", encoding="utf-8").read()
            t = old[file]
            by_hand = BY_HAND.get(f"{crate[7:]}/{edit[:-5]}")
            if by_hand:
                out.append(by_hand[len(out)])
                continue
            if t.count(o) != 1:
                print(f"left: {path}: {t.count(o)} times in {OLD}: {o}")
                break
            start = t.rfind("\n", 0, t.index(o)) + 1
            line = t[start : t.index("\n", t.index(o))]
            after = line.replace(o, n)
            if file.endswith(".rt"):
                made = (o, n, now[file].replace(o, n))
            elif line.startswith("use "):
                so, sn = word(paths(o)), word(paths(n))
                if not line.startswith("use Rattle·") or now[file].count(so) != 1:
                    so, sn = of_use(line, after, now[file])
                made = (so, sn, now[file].replace(so, sn))
            else:
                made = turn(line, after, o, n, t[:start].split("\n")[:-1], now[file])
            if not made or now[file].count(made[0]) != 1:
                print(f"left: {path}: {line}")
                break
            out.append(made[:2])
            old[file], now[file] = t.replace(o, n), made[2]
        else:
            name = IN_FULL.get(f"{crate[7:]}/{edit[:-5]}")
            for (_, _, _, i, j), (so, sn) in zip(pairs, out):
                if name and name not in NAME.findall(so):
                    sn = NAME.sub(lambda m: "Rattle.std.specs.Prelude." + name if m[0] == name else m[0], sn)
                lines[i], lines[j] = "old: " + so, "new: " + sn
            if "\n".join(lines) != text:
                open(path, "w", encoding="utf-8").write("\n".join(lines))
                changed += 1
    print(f"port_edits: {changed} edits changed")
    check()


def check(commit=None):
    bad = [(p, why_not(p)) for p in edits()]
    for p, why in bad:
        if why:
            print(f"bad: {p}: {why}")
        if commit and shown(commit, p) != open(p, encoding="utf-8").read():
            print(f"changed: {p}")
    print(f"port_edits: {len(bad)} edits, {sum(1 for _, w in bad if w)} that don't apply")
    return any(w for _, w in bad)


if __name__ == "__main__":
    if sys.argv[1:2] == ["--check"]:
        raise SystemExit(check(*sys.argv[2:3]))
    main()
