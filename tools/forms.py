#!/usr/bin/env python3
"""Lists the places in crates/*/src that docs/DESIGN-PASS.md counts, by form: `tools/forms.py` prints how many, `tools/forms.py --list FORM` prints them.
It reads text alone: a place is where a pattern stands, and whether it should be another is for a reader to say."""
import collections, glob, os, re, sys

ROOT = os.path.join(os.path.dirname(os.path.abspath(__file__)), "..")
FUNCTION = re.compile(r"^(?P<pad> *)(pub(\(crate\))? )?(extern \"C\" )?(const )?fn (?P<name>\w+)(?P<rest>.*?)^(?P=pad)\}", re.M | re.S)
ITEM = re.compile(r"^ *(?:pub )?(?P<kind>struct|enum) (?P<name>\w+)[^{;]*\{(?P<body>.*?)^ *\}", re.M | re.S)


def sources():
    for path in sorted(glob.glob(ROOT + "/crates/*/src/**/*.rt", recursive=True)):
        with open(path, encoding="utf-8") as f:
            text = f.read()
        short = os.path.relpath(path, ROOT + "/crates").replace("/src/lib.rt", "").replace("/src/", "/")
        yield short, re.sub(r"//[^\n]*", "", text)


def line_of(text, at):
    return text.count("\n", 0, at) + 1


def parts(rest):
    """A function's head (parameters, answer, clauses) and its body."""
    at = re.search(r"^ *\{ *$|\) *(?:-> *[^{\n]+)? *\{", rest, re.M)
    return (rest[: at.start()], rest[at.start():]) if at else (rest, "")


def lines_with(pattern):
    found = []
    for name, text in SOURCES:
        for m in re.finditer(pattern, text, re.M):
            found.append(f"{name}:{line_of(text, m.start())}: {text[m.start():m.end()].strip()}")
    return found


def items(kind):
    for name, text in SOURCES:
        for m in ITEM.finditer(text):
            if m["kind"] == kind:
                yield name, line_of(text, m.start()), m["name"], [x.strip().rstrip(",") for x in m["body"].strip().splitlines() if x.strip()]


def functions():
    for name, text in SOURCES:
        for m in FUNCTION.finditer(text):
            head, body = parts(m["rest"])
            yield name, line_of(text, m.start()), m["name"], head, body


def option_like():
    return [f"{c}:{n}: {e} {{ {', '.join(vs)} }}" for c, n, e, vs in items("enum")
            if len(vs) == 2 and sum("(" in v for v in vs) in (1, 2)]


def flagged():
    return [f"{c}:{n}: {s}" for c, n, s, fs in items("struct") if any(f.endswith(": bool") for f in fs) and len(fs) > 1]


def numbers():
    return lines_with(r"^ *return \d+;|\{ \d+ \}(?= else)|else \{ \d+ \}|^ +\d+$") + lines_with(r"\bcommand: \d+|\b(?:command|c) (?:==|!=|<=?|>=?) \d+")


def alike(key, places):
    groups = collections.defaultdict(list)
    for place in places:
        groups[key(place)].append(place)
    return [g for k, g in groups.items() if k and len(g) > 1]


def twin_structs():
    def key(p):
        return tuple(sorted(f.split(": ")[1] for f in p[3] if ": " in f)) if len(p[3]) > 1 else None
    return [" = ".join(f"{c} {s}" for c, n, s, f in g) for g in alike(key, items("struct"))]


KEYWORDS = set("let mut while if else return match for in as self true false loop break continue fn".split())


def twin_functions():
    def key(p):
        body = re.sub(r"\d+", "N", re.sub(r"\b[ui](8|16|32|64|size)\b", "T", p[4]))
        if body.count("\n") < 5:
            return None
        seen = {}
        return re.sub(r"[A-Za-z_]\w*", lambda m: m[0] if m[0] in KEYWORDS or m[0] in "NT" else "v%d" % seen.setdefault(m[0], len(seen)), body)
    return [" = ".join(f"{c}::{f}" for c, n, f, h, b in g) for g in alike(key, functions())]


def loops():
    return lines_with(r"^ *(?:'\w+: *)?(?:while|loop)\b.*$")


def conversions():
    return (lines_with(r"^ *\w+ as [ui](?:8|16|32|64|size)$") + lines_with(r".*[/%] 256\)? as u8.*")
            + lines_with(r"^ *if \w+ \{ 1 \} else \{ 0 \}$") + lines_with(r".* as u16 \+ .*") + lines_with(r".*\bprint_decimal\b.*"))


def facts():
    """Facts of one value that three or more contracts state."""
    where = collections.defaultdict(set)
    for c, n, f, head, body in functions():
        for clause in re.findall(r"(?:requires|ensures)[^{]*\{(.*?)\}(?=\s|$)", head, re.S):
            for fact in re.findall(r"\((length [\w.]+ ≡ \d+|[\w.]+ [<≤] \d+)\)|\{ (length [\w.]+ ≡ \d+) \}", " ".join(clause.split())):
                fact = re.sub(r"\.(now|old|new)", "", fact[0] or fact[1])
                where[fact].add(f"{c}::{f}")
    return [f"{len(w)} contracts: {fact}" for fact, w in sorted(where.items(), key=lambda x: -len(x[1])) if len(w) > 2]


def together():
    """Three or more parameters that stand side by side, in order, in three or more functions of the crates below the C interface."""
    where = collections.defaultdict(set)
    for c, n, f, head, body in functions():
        if c.startswith("qamhudeer"):
            continue
        inner = re.match(r"(?:<[^>]*>)?\((.*?)\)\s*(?:->|$|\n)", head, re.S)
        ps = [" ".join(p.split()).replace("mut ", "", 1) if p.strip().startswith("mut ") else " ".join(p.split()) for p in re.split(r",\s*", inner[1]) if p.strip()] if inner else []
        for i in range(len(ps) - 2):
            where[tuple(ps[i:i + 3])].add(f"{c}::{f}")
    return [f"{len(w)} functions: {', '.join(ps)}" for ps, w in sorted(where.items(), key=lambda x: -len(x[1])) if len(w) > 2]


def buffers():
    found = [f"{c}:{n}: struct {s}" for c, n, s, fs in items("struct")
             if any(re.search(r": \[.*;", f) for f in fs) and any(re.match(r"(pub )?(n|count|lent): u", f) for f in fs)]
    return found + lines_with(r"\w+: &(?:mut )?\[u8(?:; [^\]]+)?\], n: usize")


def switches():
    return lines_with(r"^.*\bmatch (?:how|kind|front|op|sign|l|t)\b.*$")


def answers():
    found = []
    for path in sorted(glob.glob(ROOT + "/crates/*/proofs/**/Answers.antt", recursive=True)):
        with open(path, encoding="utf-8") as f:
            for m in re.finditer(r"^pub [^\n:]+:[^\n]*\n(?:[^\n]*=)(?:[^\n]|\n(?!\n|pub ))*", f.read(), re.M):
                found.append(os.path.relpath(path, ROOT + "/crates") + ": " + m[0].split(":")[0][4:].strip())
    return found


FORMS = [
    ("1 enums of two variants, one of them with a value", option_like), ("1 structs with a flag beside a value", flagged),
    ("1 numbers for an answer or a command", numbers), ("2 groups of structs with the same types of fields", twin_structs),
    ("2 groups of functions with the same shape, of six lines or more", twin_functions), ("3 while and loop", loops),
    ("4 conversions and printing by hand", conversions), ("5 facts that three or more contracts state", facts),
    ("5 triples of parameters that three or more functions take", together), ("6 an array with a number beside it", buffers),
    ("7 a match on which step to do", switches), ("8 answers that proofs give", answers),
]

SOURCES = list(sources())
if len(sys.argv) > 2 and sys.argv[1] == "--list":
    for form, find in FORMS:
        if sys.argv[2] in form:
            print("==", form)
            print("\n".join(find()))
else:
    for form, find in FORMS:
        print(f"{len(find()):5}  {form}")
