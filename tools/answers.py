#!/usr/bin/env python3
"""Turns a function's Proof.antt of the older form (tie.close (tie.spec ..)) to Invariants.antt and Answers.antt.

usage: python3 tools/answers.py CRATE NAMES.json      NAMES.json: what `rt check --generated DIR --old-names` wrote in the crate

Written for the port (docs/PORT.md). An answer that is only `search rules` goes: the check finds it. A path `c.before.before.put` becomes
`c.put`: the list of names says which step stands at which place. It prints what it could not turn; the check says the rest.
"""

import glob
import json
import os
import re
import sys

SIGN = re.compile(r"^((?:abbrev |pub |unfoldable )*)([^\s:(){}]+) :(?= |$)(.*)$")
PATH = re.compile(r"(?<![\w.'’₀-₉-])([A-Za-z][\w'₀-₉-]*)((?:\.[A-Za-z0-9_'₀-₉-]+)*)")


def norm(name):
    name = re.sub(r"^overflow[-_]", "", name)
    return re.sub(r"_lem\b", "", name.replace("-", "_")).lower()


def paren(s, i):
    """Where the next pair of parentheses begins and ends."""
    while i < len(s) and s[i] in " \n":
        i += 1
    if i == len(s) or s[i] != "(":
        return None
    d, j = 0, i
    while j < len(s):
        d += {"(": 1, ")": -1}.get(s[j], 0)
        j += 1
        if d == 0:
            return i, j
    return None


class Function:
    def __init__(self, crate, path, entry):
        self.crate, self.path, self.e = crate, path, entry
        self.notes = []
        self.place = {}
        self.params = entry.get("params", {})
        self.callee = {p[0]: p[3] for p in entry["places"]}
        for (old, parent, field, callee, _), new in zip(entry["places"], entry["places_by_name"]):
            self.place[old] = (parent, field[0], field[1], new)
        self.arms = {p[0]: a for p, a in zip(entry["places"], entry["arms"]) if a}
        self.by_norm = {norm(p): p for p in self.place}
        self.need = {}
        for (old, new), (at, _) in zip(entry["needs"], entry["asked_at"]):
            self.need[norm(old)] = (new, at)
        self.loops = {}
        for item, changed in zip(entry["loops"], entry["changed"]):
            (old, new), names = item[0], item[1]
            self.loops[norm(old)] = (new, names, changed)
        self.arg_names = {}
        self.cited = {}
        self.top = None
        self.goals = set()
        self.src = ""
        for a, b in entry["args"]:
            m, k = re.match(r"\.args \.(\S+)$", a), re.match(r"\.args \.(\S+)$", b)
            if m and k:
                self.arg_names[m[1]] = k[1]

    def resolve(self, at, parts):
        """The new path of .before.before.x.y at a place: the text behind `c`, or a place where it is none."""
        parts = list(parts)
        up, k = at, 0
        while k < len(parts) and parts[k] == "before":
            up = self.place[up][0] if up and self.place[up][0] else up
            k += 1
        if k == len(parts):
            return up, None
        first = parts[k]
        rest = parts[k + 1:]
        if first == "pre":
            first = "requires"
        if first in ("args", "requires", "ranges", "well_formed", "utf8", "well-formed"):
            if first in ("args", "ranges") and rest:
                rest[0] = self.arg_names.get(rest[0], rest[0])
            return None, "." + ".".join([first.replace("-", "_")] + rest)
        # what the arm of a match binds
        p = up
        while p:
            if p in self.arms:
                step, _, binds = self.arms[p]
                for new, old, path in binds:
                    if norm(old) == norm(first) and path and rest[:len(path)] == path:
                        return None, "." + ".".join([step, new] + rest[len(path):])
            p = self.place[p][0]
        p = up
        seen = 0
        while p:
            if norm(self.place[p][1]) == norm(first):
                if seen:
                    self.notes.append(f"{first} stands {seen} places higher")
                return None, "." + ".".join([self.place[p][2]] + self.by_parameter(p, rest))
            p, seen = self.place[p][0], seen + 1
        # lower than it should
        p, found, above = self.top, None, set()
        q = at
        while q:
            above.add(q)
            q = self.place[q][0]
        while p and p not in above:
            if norm(self.place[p][1]) == norm(first):
                found = p
            p = self.place[p][0]
        if found:
            self.notes.append(f"{first} stands lower")
            return None, "." + ".".join([self.place[found][2]] + self.by_parameter(found, rest))
        p = at
        while p:
            if norm(self.place[p][1]) == norm(first):
                self.notes.append(f"{first} stands lower")
                return None, "." + ".".join([self.place[p][2]] + rest)
            p = self.place[p][0]
        if re.search(r"[a-z_]\d$", first):
            was = len(self.notes)
            got = self.resolve(at, ["before"] * k + [first[:-1]] + rest)
            if not any("no step" in n or "lower" in n or "higher" in n for n in self.notes[was:]):
                return got
            del self.notes[was:]
        self.notes.append(f"no step {first} at {at}")
        return None, "." + ".".join([first] + rest)

    def by_parameter(self, p, rest):
        """`new.1.0`, what the call left in its second argument, goes by the parameter's name."""
        names = self.params.get(self.callee.get(p) or "", [])
        if rest and rest[0] in ("new", "auto") and len(rest) > 1:
            k = 1
            while k < len(rest) and rest[k] == "1":
                k += 1
            if k < len(rest) and rest[k] == "0" and k - 1 < len(names):
                return [rest[0], names[k - 1]] + rest[k + 1:]
        return rest

    def body(self, text, at, helpers):
        env = {"c": at}
        self.top = at
        names_of_args = set()
        out, pos = "", 0
        binds = re.compile(r"let ([A-Za-z]\w*) = ([A-Za-z]\w*)((?:\.before)*) in\s*")
        i = 0
        while i < len(text):
            m = binds.match(text, i)
            if m and (i == 0 or not (text[i - 1].isalnum())) and m[2] in env:
                env[m[1]] = self.resolve(env[m[2]], [p for p in m[3].split(".") if p])[0]
                i = m.end()
                continue
            m = re.compile(r"let ([A-Za-z]\w*) = ([A-Za-z]\w*)((?:\.before)*)\.args in").match(text, i)
            if m and m[2] in env:
                names_of_args.add(m[1])
            m = PATH.match(text, i)
            if m and m[1] in names_of_args and m[2] and m[2].split(".")[1] in self.arg_names and (i == 0 or not re.match(r"[\w.'’-]", text[i - 1])):
                tail = m[2].split(".")[1:]
                out += ".".join([m[1], self.arg_names[tail[0]]] + tail[1:])
                i = m.end()
                continue
            if m and (i == 0 or not re.match(r"[\w.'’-]", text[i - 1])):
                v, tail = m[1], [p for p in m[2].split(".") if p]
                if v in helpers and not tail:
                    h = re.match(r"\s+([A-Za-z]\w*)((?:\.before)*)(?![\w.'-])", text[m.end():])
                    if h and h[1] in env:
                        out += "(" + helpers[v] + ")"
                        i = m.end() + h.end()
                        continue
                if v in self.cited and v not in names_of_args and re.match(r"\s+c(?![\w'.-])", text[m.end():]):
                    out += self.cited[v]
                    i = m.end()
                    continue
                if v in env and (tail or v != "c"):
                    place, new = self.resolve(env[v], tail)
                    if new is None:
                        out += "c"
                        self.notes.append(f"{m[0]} stands by itself")
                    else:
                        out += "c" + new
                    i = m.end()
                    continue
                out += m[0]
                i = m.end()
                continue
            out += text[i]
            i += 1
        # the test of `if !x` says that x is false
        out = self.elims(out)
        out = re.sub(r"\(λ (\w+)\. \(c\.(?:shared[_-])?slice[_-]known(?:-[\w-]+)?\.given \1\)\.fits\)", r"(λ \1. search rules)", out)

        def negated(m):
            if not self.direct(m[3]):
                return m[0]
            return "§" + m[2] if m[1] else f"(ap not §{m[2]})"

        return re.sub(r"(\bnot-(?:true|false) (?:_|[\w.]+) )?((?<![\w.§])\w\.if-not-([\w+'-]+)\.(?:true|false))(?![\w.'-])", negated, out)

    def direct(self, name):
        """Whether the test `if !x` is of a call or a variable, and not of a field."""
        return not re.search(r"!\s*(?:\w+\.)+" + re.escape(re.sub(r"-\d+$", "", name)) + r"\b(?!\()|!\s*" + re.escape(re.sub(r"-\d+$", "", name)) + r"(\.\w+)+(?![\w(])", self.src)

    def arms_of(self, step):
        """The arms of the branch of a step: the ways through it that do not return, with their places."""
        returned = {at for new, at in self.need.values() if new.startswith("returns")}
        out = []

        def walk(p, names, places):
            kids = [q for q in self.place if self.place[q][0] == p and not q.startswith("Joined")]
            join = [q for q in self.place if self.place[q][0] == p and q.startswith("Joined")]
            if join:
                kids = join
            if not kids:
                if p not in returned:
                    out.append(("+".join(names), places))
                return
            for q in kids:
                n = self.place[q][3]
                k = re.match(r"(Then|Else)-(.*)$", n)
                walk(q, names + ([k[1].lower() + "-" + k[2]] if k else []), places + [self.place[q][2]])

        for q in self.place:
            if self.place[q][2] == step and not q.startswith("Joined"):
                k = re.match(r"(Then|Else)-(.*)$", self.place[q][3])
                if k:
                    walk(q, [k[1].lower() + "-" + k[2]], [step])
        return out

    def elims(self, text):
        pos = 0
        while True:
            i = text.find("⊎_elim", pos)
            if i < 0:
                return text
            pos = i + 6
            a = paren(text, i + 6)
            b = a and paren(text, a[1])
            m = b and re.compile(r"\s*c\.(if-[^\s.]+)\.branch(?![\w.'-])").match(text, b[1])
            arms = m and self.arms_of(m[1])
            if not arms or len(arms) != 2:
                continue
            said = []
            for (x, y), (name, places) in zip((a, b), arms):
                t = text[x + 1:y - 1]
                k = re.match(r"λ (\w+)((?: \w+)*)\.\s*", t)
                if not k:
                    break
                w, body = k[1], t[k.end():]

                def field(q):
                    n = int(q[1])
                    return f"{w}.{places[n]}" if n < len(places) else q[0]

                body = re.sub(r"(?<![\w.])%s\.(\d+)(?![\d])" % w, field, body)
                body = re.sub(r"(?<![\w.])(%s\.if-[\w+'-]+)\.taken\b" % w, r"\1.true", body)
                body = re.sub(r"(?<![\w.])(%s\.if-[\w+'-]+)\.left\b" % w, r"\1.false", body)
                body = re.sub(r"(?<![\w.])%s\.taken\b" % w, f"{w}.{m[1]}.true", body)
                body = re.sub(r"(?<![\w.])%s\.left\b" % w, f"{w}.{m[1]}.false", body)
                if k[2].strip():
                    body = f"λ{k[2]}. {body}"
                said.append(f"{name} {w} ↦ {body}")
            if len(said) != 2:
                continue
            self.goals |= {n for n, _ in arms}
            new = f"elim c.{m[1]}.branch\n    [ {said[0]}\n    | {said[1]} ]"
            text = text[:i] + new + text[m.end():]
            pos = i + len(new)

    def invariant(self, args, text, loop):
        new, names, changed = self.loops[loop]
        args = args.split()
        moved = [n for n, c in zip(names, changed) if c]
        if len(args) != len(names) + len(moved):
            self.notes.append(f"{loop} has {len(args)} arguments, and not {len(names)} + {len(moved)}")
            return None
        to = {}
        for a, n, c in zip(args, names, changed):
            to[a] = f"l.initial.{n}" if c else f"l.{n}"
        for a, n in zip(args[len(names):], moved):
            to[a] = f"l.{n}"
        for a in args:
            if re.search(r"(λ[^.]*\b%s\b[^.]*\.)|(\(%s( [\w' ]+)? :)" % (re.escape(a), re.escape(a)), text):
                self.notes.append(f"{loop}: {a} is bound again")

        def one(m):
            if re.match(r"\s*=(?![\w=])", text[m.end():]) and not m[2]:
                return m[0]
            return to.get(m[1], m[1]) + m[2]

        return PATH.sub(one, text)


def blocks(text):
    """The declarations of a file: comment, marks, name, type, body; and the `use` lines, and the head."""
    uses, head, items, comment = [], [], [], []
    cur = None
    for line in text.split("\n"):
        if line.startswith("use "):
            uses.append(line)
            continue
        if line.startswith("--") and cur is None and not uses:
            head.append(line)
            continue
        m = SIGN.match(line)
        if m and not line.startswith(" "):
            cur = {"comment": comment, "marks": m[1], "name": m[2], "type": m[3].strip(), "lines": [], "sign": True}
            comment = []
            items.append(cur)
            continue
        if line.startswith("--"):
            if not re.match(r"^-- (src/|\.\./)\S+:\d+", line):
                comment.append(line)
            continue
        if cur is None:
            if line.strip():
                comment.append(line)
            continue
        if cur["sign"] and line.startswith(" "):
            cur["type"] += "\n" + line
            continue
        if line.strip():
            cur["sign"] = False
        cur["lines"].append(line)
    return head, uses, items


def turn(crate, folder, where, entry):
    path = os.path.join(where, "Proof.antt")
    text = open(path, encoding="utf-8").read()
    if "tie.close" not in text:
        return [f"{folder}: by hand"]
    f = Function(crate, folder, entry)
    head, uses, items = blocks(text)
    helpers, answers, invs, others, lost = {}, [], [], [], []
    for it in items:
        body = "\n".join(it["lines"]).rstrip()
        it["body"] = body
        if re.match(r"tie\.(Need-|invariant-|decreases-)", it["type"]) or it["name"].endswith(("-spec", "_spec")):
            continue
        m = re.match(r"\(c : (?:tie|lts)\.([^)\s]+)\)", it["type"])
        if m:
            at = f.by_norm.get(norm(m[1]))
            k = re.match(re.escape(it["name"]) + r" c =\s*(.*)$", body, re.S)
            if at and k and not re.search(r"\) (\(|→ .*→)", it["type"]):
                helpers[it["name"]] = f.body(k[1].strip(), at, helpers)
            else:
                lost.append(f"{it['name']} : {it['type'][:60]}")
    for it in items:
        m = re.match(r"tie\.Need-([^\s]+)", it["type"])
        if m and f.need.get(norm(m[1])):
            f.cited[it["name"]] = f.need[norm(m[1])][0]
    src = os.path.join("crates", crate, "src", "lib.rt")
    f.src = open(src, encoding="utf-8").read() if os.path.exists(src) else ""
    for it in items:
        body, t = it["body"], it["type"]
        m = re.match(r"tie\.Need-([^\s]+)", t)
        if m:
            got = f.need.get(norm(m[1])) or f.need.get(norm(re.sub(r"^(?:part|slice[-_]bounds)-(.*)$", r"slice_bounds-\1", m[1]))) or f.need.get(norm(re.sub(r"^(?:part|slice[-_]bounds)-(.*)$", r"part-\1", m[1])))
            unfolding = ""
            u = re.match(r"(unfolding [^\n]*\n)+", body)
            if u:
                unfolding, body = u[0], body[u.end():]
            k = re.match(re.escape(it["name"]) + r" c(?: κs)?((?: [\w'₀-₉-]+)*)(?: =|(?=\n))\s*(.*)$", body, re.S)
            if k and k[2].strip() == "search rules" and not unfolding:
                continue
            if not got:
                lost.append(f"no goal {m[1]}")
                continue
            if not k or re.search(r"^" + re.escape(it["name"]) + r"(?![\w'-])", k[2], re.M):
                lost.append(f"clauses of {m[1]}")
                continue
            new, at = got
            answers.append((it["comment"], new + "\0" + k[1], unfolding, f.body(k[2], at, helpers)))
            continue
        m = re.match(r"tie\.(invariant|decreases)-([^\s]+)", t)
        if m:
            loop = norm(m[2])
            if loop not in f.loops:
                lost.append(f"no loop {m[2]}")
                continue
            unfolding = ""
            u = re.match(r"(unfolding [^\n]*\n)+", body)
            if u:
                unfolding, body = u[0], body[u.end():]
            k = re.match(re.escape(it["name"]) + r"((?: [^\s=]+)*) =\s*(.*)$", body, re.S)
            if not k:
                lost.append(f"clauses of {it['name']}")
                continue
            b = f.invariant(k[1], k[2], loop)
            if b is None:
                continue
            invs.append((it["comment"], f"{m[1]}-{f.loops[loop][0]}", unfolding, b))
            continue
        if it["name"].endswith(("-spec", "_spec")) or it["name"] in helpers:
            continue
        if re.search(r"\b(tie|lts)\.", t):
            lost.append(f"{it['name']} : {t[:70]}")
            continue
        others.append(it)
    module = folder.replace("/", ".")
    keep = [u for u in uses if not re.search(r"\.(Statement\.\{statement\}|Tie as tie|Lts as lts|Reads as \S+)$", u)]
    in_inv = "\n".join(b for _, _, _, b in invs)
    lemmas = []
    early = [o for o in others if re.search(r"(?<![\w.-])" + re.escape(o["name"]) + r"(?![\w-])", in_inv)]
    if early:
        # what an invariant speaks of stands before it, with all that stands above in the file
        last = max(others.index(o) for o in early)
        early = others[:last + 1]

    def written(o, pub):
        marks = o["marks"]
        if pub and "pub" not in marks:
            marks += "pub "
        s = "\n".join(o["comment"] + [f"{marks}{o['name']} : {o['type']}"]) + "\n" + o["body"] + "\n"
        return s

    head = "\n".join(head) + "\n" if head else ""
    used = lambda u, text: True
    if invs:
        out = head + "\n".join(keep + [f"use Rattle.{crate}.proofs.{module}.Given as goal"]) + "\n\n"
        for o in early:
            out += written(o, True) + "\n"
        for comment, name, unfolding, b in invs:
            out += "\n".join(comment + [f"abbrev pub {name} : goal.{name}"]) + "\n" + unfolding + f"{name} l = {b}\n\n"
        open(os.path.join(where, "Invariants.antt"), "w", encoding="utf-8").write(out.rstrip() + "\n")
    rest = [o for o in others if o not in early]
    if answers or rest:
        mine = list(keep)
        if any("(ap not " in b for _, _, _, b in answers):
            mine += ["use mathlib.Core.Bool.{not}", "use mathlib.Core.Path.{ap}"]
        if f.goals:
            mine.append(f"use Rattle.{crate}.proofs.{module}.Goals.{{{', '.join(sorted(f.goals))}}}")
        mine.append(f"use Rattle.{crate}.proofs.{module}.Goals as goal")
        if early:
            mine.append(f"use Rattle.{crate}.proofs.{module}.Invariants.{{{', '.join(o['name'] for o in early)}}}")
        out = head + "\n".join(mine) + "\n\n"
        done = set()
        text = [("lemma", o) for o in rest]
        for o in rest:
            out += written(o, False) + "\n"
        for comment, name, unfolding, b in answers:
            name, more = name.split("\0")
            if name in done:
                f.notes.append(f"two answers for {name}")
                continue
            done.add(name)
            out += "\n".join(comment + [f"pub {name} : goal.{name}"]) + "\n" + unfolding + f"{name} c{more} =" + (" " if "\n" not in b else "\n    ") + f"{b}\n\n"
        out = re.sub(r"(?<=[ (])\(§(\w\.[\w+.'-]+)\)", r"\1", out).replace("§", "")
        open(os.path.join(where, "Answers.antt"), "w", encoding="utf-8").write(out.rstrip() + "\n")
    os.remove(path)
    return [f"{folder}: {n}" for n in lost + sorted(set(f.notes))]


def main():
    crate, names = sys.argv[1], json.load(open(sys.argv[2], encoding="utf-8"))
    root = os.path.join("crates", crate, "proofs")
    for p in sorted(glob.glob(os.path.join(root, "**", "Proof.antt"), recursive=True)):
        where = os.path.dirname(p)
        folder = os.path.relpath(where, root)
        key = f"Rattle-{crate}-proofs.{folder.replace('/', '.')}.Lts"
        if key not in names:
            print(f"{crate}: {folder}: no names (key {key})")
            continue
        for line in turn(crate, folder, where, names[key]):
            print(f"{crate}: {line}")


if __name__ == "__main__":
    main()
