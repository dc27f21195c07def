#!/usr/bin/env python3
"""Counts the places in crates/*/src that docs/DESIGN-PASS.md speaks of, point by point.

    python3 tools/places.py [-v] [FOLDER]

FOLDER is a checkout (the one that this file is in, if none is named); -v lists the places."""
import glob
import os
import re
import sys

words = [w for w in sys.argv[1:] if w != "-v"]
top = words[0] if words else os.path.join(os.path.dirname(os.path.abspath(__file__)), "..")
told = "-v" in sys.argv


def files(pattern):
    for path in sorted(glob.glob(os.path.join(top, "crates", pattern), recursive=True)):
        if "/out/" not in path:
            yield os.path.relpath(path, os.path.join(top, "crates")), open(path).read()


def bare(text):
    return re.sub(r"//[^\n]*", "", text)


sources = [(name, bare(text)) for name, text in files("*/src/**/*.rt")]


def found(pattern, flags=re.M):
    return [(name, m) for name, text in sources for m in re.finditer(pattern, text, flags)]


def functions():
    for name, text in sources:
        for m in re.finditer(r"^( *)(?:pub(?:\([a-z]+\))? )?fn (\w+)(.*?)^\1\}", text, re.M | re.S):
            head, _, body = m.group(3).partition("\n" + m.group(1) + "{\n")
            yield name, m.group(2), head, body


def shape(body):
    """A body with its names, numbers and texts by the order in which they come."""
    seen = {}
    tokens = re.findall(r'b?"[^"]*"|b?\'[^\']*\'|\w+|[^\s\w]', body)
    kept = {"let", "mut", "if", "else", "match", "while", "for", "in", "return", "loop", "break", "as"}
    return " ".join(
        seen.setdefault(t, "#%d" % len(seen)) if re.match(r"[\w\"'b]", t) and t not in kept else t
        for t in tokens
    )


def say(point, what, places):
    print("%s. %4d  %s" % (point, len(places), what))
    if told:
        for place in places:
            print("           " + place)


enums = []
for name, m in found(r"^(?:pub(?:\([a-z]+\))? )?enum (\w+) \{\n(.*?)^\}", re.M | re.S):
    variants = [v.strip().rstrip(",") for v in m.group(2).split("\n") if v.strip()]
    enums.append((name, m.group(1), variants))
NOTHING = {"Bad", "Neither", "Other", "Nothing", "Unknown", "Unread", "NoText", "TooLong", "NoRule"}
REFUSED = {"Refused", "Faulty", "Malformed"}


def plain(variants):
    return {v.split("(")[0] for v in variants}


two = [e for e in enums if len(e[2]) == 2]
more = [e for e in enums if len(e[2]) > 2 and plain(e[2]) & (NOTHING | REFUSED) and e[1] != "Refusal"]
say(1, "enums of two variants", ["%s %s %s" % (n, e, v) for n, e, v in two])
say(1, "enums of more, one of which stands for nothing or for a refusal", ["%s %s" % e[:2] for e in more])
alike = {}
for name, fn, head, body in functions():
    if body.count("\n") >= 3:
        alike.setdefault(shape(body), []).append("%s %s" % (name, fn))
groups = [g for g in alike.values() if len(g) > 1]
say(2, "functions whose body of three lines or more is another's but for names, numbers and texts",
    [", ".join(g) for g in groups for _ in g[1:]])
say(3, "loops by `while` or `loop`", ["%s %s" % (n, m.group(0).strip()) for n, m in found(r"^ *(?:(?:let \w+ = )?'\w+: )?(?:while .*|loop )\{$")])
say(4, "functions that only match an enum or a number to true and false",
    ["%s %s" % (n, f) for n, f, h, b in functions() if re.search(r"=> (true|false)", b) and not re.search(r"=> (?!true|false)[^{\n]", b)])
say(4, "tests of the form `if .. { return true; }` or `false`", ["%s" % n for n, m in found(r"if [^{}\n]* \{\n\s*return (?:true|false);\n\s*\}")])
clauses = {}
for name, fn, head, body in functions():
    for c in re.findall(r"^\s*requires (?:\w+ )?(\{.*\})$", head, re.M):
        clauses.setdefault(c, []).append("%s %s" % (name, fn))
say(5, "functions with a `requires` that stands in three or more", [f for g in clauses.values() if len(g) > 2 for f in g])
lists = {}
for name, fn, head, body in functions():
    params = re.findall(r"(\w+: [^,()]+?)(?:,|\)|\n)", head.split("ensures")[0].split("requires")[0])
    for i in range(len(params) - 2):
        lists.setdefault(tuple(p.strip() for p in params[i:i + 3]), set()).add("%s %s" % (name, fn))
say(5, "functions that share three parameters in a row with two others", sorted({f for g in lists.values() if len(g) > 2 for f in g}))
say(5, "`let x = value.x;` before a use", ["%s %s" % (n, m.group(0).strip()) for n, m in found(r"^ *let \w+ = \w+\.\w+;$")])
say(6, "an optional text as a length beside its slice", ["%s %s" % (n, m.group(0)) for n, m in found(r"\w+: (?:Given|Option<usize>),\s*\w+: &(?:'a )?\[u8\]")])
say(6, "an array of marks or numbers beside rows", ["%s %s" % (n, m.group(0)) for n, m in found(r"\b(?:marks|order|merged): &(?:mut )?\[\w+\]")])
say(7, "a bool parameter that says which step to run",
    ["%s %s" % (n, f) for n, f, h, b in functions() for p in re.findall(r"(\w+): bool", h.split("ensures")[0]) if re.search(r"if !?%s\b" % p, b)])
answers = list(files("*/proofs/**/*.antt"))
repeats = []
for name, text in answers:
    lets = re.findall(r"^ +let [^=]+=[^\n]*", text, re.M)
    repeats += [name for l in set(lets) if len(l) > 60 and lets.count(l) > 1 for _ in range(lets.count(l) - 1)]
say(8, "lines of proofs/", [""] * sum(t.count("\n") for _, t in answers) if not told else [])
say(8, "long `let`s that repeat one of the same file", repeats)
