#!/usr/bin/env python3
"""Brings the repository's own antt names to the kit's spelling. Run it at the top of the repository, right after port.py.

usage: python3 tools/respell.py          renames in place, and prints what it did
       python3 tools/respell.py --names  prints each old name with its new one, and writes nothing

1. A definition, lemma, field or constructor that crates/*/specs or crates/*/proofs declares in camel case gets snake case
   (`replaceFrom`: `replace_from`). Names that begin with a capital, and everything that the Rust side or Rattle names, stay.
2. A dash of a declared name stays only where it joins two names that the name's own statement cites: `length-append` in
   `length (a ++ b) ≡ ..`. Every other dash joins a plain word and becomes `_` (`levels-all`: `levels_all`).
3. The crate `json` becomes `json_text`: the kit has a library `json`.

A name is renamed in antt files, in clauses, `ghost use` lines and comments of .rt files, in must-fail edits, and in pages and scripts.
Behind a dot it is renamed only where it is a field of a record that is declared here, or an item of one of the modules here. Two names that
would become one, or a name that would be captured, are a `collision:`; nothing is written then. EXCEPT gives such a name another one.
A second run changes nothing.
"""

import glob
import os
import re
import sys

# names whose plain respelling would meet another name of a file that cites them, or hide one
EXCEPT = {
    # constructors of `Kind`, beside the tests `is_hash` and `is_plus`
    "is-slash": "is_slash_byte",
    "is-hash": "is_hash_byte",
    "is-plus": "is_plus_byte",
    # fields that say where a part begins, beside the functions `filters_at`, `eqs_at` and `notes_at`
    "filters-at": "filters_place",
    "eqs-at": "eqs_place",
    "notes-at": "notes_place",
}
# files that cite names: the pages and scripts
PAGES = ["README.md", "CONTRIBUTING.md", "CHANGELOG.md", "docs/*.md", "examples/*.md", "oracle/*.md", "rust/*.md", "bin/*", "examples/run", "bench/run"]
# the signs of a statement, and the words for them in a lemma's name
SIGNS = {"[]": "nil", "◌∷◌": "cons", "∷": "cons", "++": "append", "+": "add", "-": "sub", "*": "mul", "≤": "le", "<": "lt", "&&": "and", "||": "or", "0": "zero"}

TOKEN = re.compile(r"[^\s(){}\[\],;:\"`.]+")
WORD = r"[^\s(){}\[\],;:\"`.]+"
DECLARED = re.compile(r"^( *)((?:(?:unfoldable|abbrev|pub|private) )*)(record |data |module |mod )?(" + WORD + r")(?= [:({]| *:$| where$)")
USE = re.compile(r"^ *(?:pub )?(?:ghost )?use ([^\s{;]+?)(?:\.\{([^}]*)\})?(?: as ([^\s;]+))?;?$")


def read(path):
    with open(path, encoding="utf-8") as f:
        return f.read()


def snake(name):
    """camelCase in snake case; an apostrophe, an index and `_` stay."""
    return re.sub(r"(?<=[^\W_])(?=[A-Z])", "_", name).lower()


def is_camel(name):
    return bool(re.search(r"[A-Z]", name[1:])) and bool(re.match(r"[a-z]", name))


def code_of(line):
    """A line of antt without its comment, and the comment."""
    m = re.search(r"(?:^|(?<=\s))--(?=\s|$)", line)
    return (line[: m.start()], line[m.start() :]) if m else (line, "")


class File:
    """An antt file: its own declarations, what it imports from elsewhere, and the names by which it calls modules of the repository."""

    def __init__(self, path, text):
        self.path, self.text = path, text
        self.is_proof = os.path.basename(path) == "Proof.antt"
        self.statements = []  # (name, kind, statement)
        self.foreign, self.modules, self.made = set(), set(), set()
        self.imported = set()
        lines = text.split("\n")
        self.read_uses(lines)
        self.read_declarations([code_of(l)[0].rstrip() for l in lines])

    def read_uses(self, lines):
        for line in lines:
            m = USE.match(code_of(line)[0].rstrip())
            if m:
                own = is_own(m[1])
                for item in (m[2] or "").split(","):
                    words = item.split()
                    if words:
                        self.imported.add(words[0])
                        if not own:
                            self.foreign.update(words)
                        if is_own(m[1] + "." + words[0]):
                            self.modules.add(words[-1])
                if m[3] and own:
                    self.modules.add(m[3])

    def read_declarations(self, lines):
        inside = []  # the blocks around a line: (indent of its lines, kind)
        for i, line in enumerate(lines):
            if not line.strip():
                continue
            indent = len(line) - len(line.lstrip())
            while inside and indent <= inside[-1][0]:
                inside.pop()
            m = DECLARED.match(line)
            if m and not line.startswith(" " * (indent + 1)):
                kind = (m[3] or "").strip()
                top = indent == 0 or (inside and inside[-1][0] < indent and inside[-1][1] != "where" and indent == inside[-1][0] + 2)
                if top and m[4] not in ("use", "record", "_"):
                    rest = [line[m.end() :]]
                    for more in lines[i + 1 :]:
                        if more.strip() and len(more) - len(more.lstrip()) <= indent:
                            break
                        rest.append(more)
                    if kind in ("record", "data", "module", "mod"):
                        rest = rest[:1]
                    what = kind or ("field" if inside and inside[-1][1] == "record" else "constructor" if inside and inside[-1][1] == "data" else "name")
                    statement = " ".join(rest).strip()
                    if self.is_proof and (re.match(r":\s*(\{[^}]*\}\s*→\s*)*(tie\.|statement\b)", statement) or re.search(r"[-_]spec$|^(invariant|decreases)-", m[4])):
                        self.made.add(m[4])
                    else:
                        self.statements.append((m[4], what, statement))
            block = re.match(r"^ *(?:pub |private )*(record|data|module) .*", line)
            if block and line.endswith(" where"):
                inside.append((indent, block[1]))
            elif block and not (m and not m[3]):
                end = next((l for l in lines[i:] if l.rstrip().endswith("where")), "")
                if end:
                    inside.append((indent, block[1]))
            elif line.strip() == "where":
                inside.append((indent, "where"))


def is_own(path):
    """Is this the path of an antt file of the repository?"""
    parts = path.split(".")
    return len(parts) > 3 and parts[0] == "Rattle" and parts[2] in ("specs", "proofs") and os.path.exists(os.path.join("crates", parts[1], *parts[2:]) + ".antt")


def cited(statement, known):
    """The names that a statement cites, each in snake case: known ones that it doesn't bind itself, and words for its signs."""
    bound = set()
    for group in re.findall(r"[({]([^(){}:]+?) : ", statement) + re.findall(r"λ ([^.()]+)\.", statement):
        bound.update(group.split())
    names = set()
    for t in re.findall(r"\[\]|[^\s(){}\[\],;:\"`.]+", statement):
        if t in SIGNS:
            names.add(SIGNS[t])
        elif t in known and t not in bound:
            names.add(snake(t).replace("-", "_"))
    return names


def undash(name, citations):
    """The name with `_` for each dash that doesn't join two names that every one of its statements cites."""
    parts = [snake(p) for p in name.split("-")]
    out = parts[0]
    for k in range(1, len(parts)):
        left, right = "_".join(parts[:k]).split("_"), "_".join(parts[k:]).split("_")
        joins = all(
            any("_".join(left[i:]) in names for i in range(len(left))) and any("_".join(right[: i + 1]) in names for i in range(len(right)))
            for names in citations
        )
        out += ("-" if joins else "_") + parts[k]
    return out


def new_names(files):
    known_here = {n for f in files for n, kind, _ in f.statements if kind != "field"}
    of = {}
    for f in files:
        for name, kind, statement in f.statements:
            if name[0].isupper() and "-" not in name or kind in ("record", "data", "module", "mod"):
                continue
            if is_camel(name) or "-" in name.strip("-"):
                of.setdefault(name, []).append(cited(statement, known_here | f.imported))
    names = {}
    for name, citations in of.items():
        new = EXCEPT.get(name) or (undash(name, citations) if "-" in name else snake(name))
        if name[0].isupper() and name not in EXCEPT:
            new = name[0] + new[1:]
        if new != name:
            names[name] = new
    return names, {n for f in files for n, kind, _ in f.statements if kind == "field"}


class Renamer:
    def __init__(self, names, fields, declared):
        self.names, self.fields = names, fields
        # a page, a comment and an edit may still have names that the files have in the new spelling already
        self.older = {n for n in declared | set(names.values()) if "_" in n}

    def antt(self, text, modules, foreign=frozenset(), is_proof=False, camel_only=False):
        """The text of antt with the new names."""

        def swap(m):
            t = m[0]
            if t not in self.names or t in foreign or camel_only and "-" in t:
                return t
            at = m.start()
            if at > 1 and text[at - 1] == "." and not text[at - 2].isspace():
                before = re.search(r"(" + WORD + r")\.$", text[:at][-80:])
                if not (before and before[1] in modules):
                    if t not in self.fields or is_proof and "-" in t:
                        return t
            return self.names[t]

        return TOKEN.sub(swap, text)

    def comment(self, text):
        """A comment or a page: camel case as it stands, a name with a dash only between backticks."""
        text = re.sub(r"`[^`\n]+`", lambda m: self.loose(m[0], True), text)
        return self.loose(text, False)

    def loose(self, text, dashed):
        def swap(m):
            t = m[0]
            if "-" in t and not dashed:
                return t
            if t not in self.names and (is_camel(t) or "-" in t) and snake(t).replace("-", "_") in self.older:
                return snake(t).replace("-", "_")
            return self.names.get(t, t)

        return re.sub(r"(?<![\w'-])[^\W\d_][\w'-]*(?![\w'-])", swap, text)

    def antt_file(self, f):
        out = []
        for line in f.text.split("\n"):
            code, note = code_of(line)
            pieces = re.split(r"(\"(?:[^\"\\]|\\.)*\")", code)
            code = "".join(p if k % 2 else self.antt(p, ALL_MODULES | f.modules, f.foreign | f.made, f.is_proof) for k, p in enumerate(pieces))
            out.append(code + self.comment(note))
        return "\n".join(out)

    def source_file(self, text):
        return "".join(self.antt(p, ALL_MODULES | aliases(text)) if kind == "clause" else self.comment(p) if kind == "note" else p for kind, p in source_parts(text))


ALL_MODULES = set()
LITERAL = re.compile(r"b?r?\"(?:[^\"\\]|\\.)*\"|b?'(?:[^'\\\n]|\\.[^'\n]*)'|//[^\n]*|^ *ghost use [^;]*;|^ *(?:requires|ensures|ghost|invariant|decreases|also_owns|also_shares)\*?(?: \w+)?:? (?=\{)", re.M | re.S)


def source_parts(text):
    """A .rt file in parts: clause, note (a comment), use, or code with its literals."""
    at = 0
    while True:
        m = LITERAL.search(text, at)
        if not m:
            yield "code", text[at:]
            return
        yield "code", text[at : m.start()]
        end = m.end()
        if m[0].startswith("//"):
            yield "note", m[0]
        elif m[0].lstrip().startswith("ghost use"):
            yield "clause", m[0]
        elif m[0][0] in "br\"'":
            yield "code", m[0]
        else:
            depth = 0
            while True:
                depth += {"{": 1, "}": -1}.get(text[end], 0)
                end += 1
                if depth == 0:
                    break
            yield "code", m[0]
            yield "clause", text[m.end() : end]
        at = end


def aliases(text):
    return {m[2] for m in re.finditer(r"^ *ghost use (Rattle\.[\w.]+) as (\w+);", text, re.M) if is_own(m[1])}


def meetings(files, names):
    """For each antt file, the names of it that would become one."""
    for f in files:
        here = {}
        code = "\n".join(re.sub(r"\"(?:[^\"\\]|\\.)*\"", "", code_of(l)[0]) for l in f.text.split("\n"))
        for m in TOKEN.finditer(code):
            if not (m.start() > 1 and code[m.start() - 1] == "." and not code[m.start() - 2].isspace()):
                t = m[0]
                new = t if t in f.foreign | f.made else names.get(t, t)
                here.setdefault(new, set()).add(t)
        for new, olds in sorted(here.items()):
            if len(olds) > 1:
                yield f, new, olds


def part_lemmas(files, names):
    """A lemma that would have its function's name gets `_lem`: the one that was in camel case keeps the name, else the one without a dash."""
    lemmas = {n for f in files for n, kind, _ in f.statements if kind == "name"}
    for _, new, olds in list(meetings(files, names)):
        first = min(olds, key=lambda n: (not is_camel(n), "-" in n))
        for n in olds - {first}:
            if n in lemmas and n not in EXCEPT:
                names[n] = new + "_lem"


def collisions(files, sources, names):
    """Each place where two names would become one, or where a clause's name would be one that the code's parameters, fields and constants have."""
    found = [f"collision: {f.path}: {', '.join(sorted(olds))} -> {new}" for f, new, olds in meetings(files, names)]
    for path, text in sources:
        parts = list(source_parts(text))
        code = " ".join(p for kind, p in parts if kind == "code" and not re.match(r"b?r?[\"']", p))
        rust = set(re.findall(r"\b(\w+)(?= *:(?!:))", code)) | set(re.findall(r"\b(?:const|static|let|mut|ghost) (\w+)", code))
        bound = {t for kind, p in parts if kind == "clause" for g in re.findall(r"λ ([^.]+)\.", p) for t in re.findall(WORD, g)}
        here = {}
        for kind, p in parts:
            if kind == "clause":
                for m in TOKEN.finditer(p):
                    if not p[: m.start()].endswith("."):
                        here.setdefault(names.get(m[0], m[0]), set()).add(m[0])
                    if m[0] in names and not p[: m.start()].endswith("."):
                        if names[m[0]] in rust | bound:
                            found.append(f"collision: {path}: {m[0]} -> {names[m[0]]} is a word of the code")
        found += [f"collision: {path}: {', '.join(sorted(olds))} -> {new}" for new, olds in here.items() if len(olds) > 1]
    return sorted(set(found))


def move_crate(old, new):
    """Renames a crate: its folder, its lines in crates.txt, and the paths that name it."""
    if not os.path.isdir(f"crates/{old}"):
        return 0
    os.rename(f"crates/{old}", f"crates/{new}")
    changed = 0
    for path in ["crates.txt", *texts("rt"), *texts("antt"), *texts("edit"), *pages()]:
        text = before = read(path)
        if path == "crates.txt":
            text = re.sub(rf"(?<![\w#]){old}(?!\w)", new, text)
        text = re.sub(rf"\b(Rattle[.·]){old}(?![\w'-])", rf"\g<1>{new}", text)
        text = re.sub(rf"\bcrates/{old}(?!\w)", f"crates/{new}", text)
        if path.endswith((".rt", ".edit")):
            text = "".join(p if re.match(r"b?r?[\"']", p) else re.sub(rf"(?<![\w:.]){old}(?=::[\w{{*])", new, re.sub(rf"^(\s*(?:pub )?use ){old}(?=;| as )", rf"\g<1>{new}", p, flags=re.M)) for _, p in source_parts(text)) if path.endswith(".rt") else re.sub(rf"(?<![\w:.\"]){old}(?=::[\w{{*])", new, text)
        if text != before:
            write(path, text)
            changed += 1
    return changed


def texts(kind):
    found = {p for p in glob.glob(f"crates/*/**/*.{kind}", recursive=True) if p.split("/")[2] in ("src", "specs", "proofs", "must-fail", "tests")}
    return sorted(found)


def pages():
    return sorted({p for g in PAGES for p in glob.glob(g) if os.path.isfile(p)})


def write(path, text):
    with open(path, "w", encoding="utf-8") as f:
        f.write(text)


def main(argv):
    if not os.path.exists("crates.txt"):
        sys.exit("respell: run it at the top of the repository")
    files = [File(p, read(p)) for p in texts("antt")]
    sources = [(p, read(p)) for p in texts("rt")]
    ALL_MODULES.update(os.path.basename(f.path)[:-5] for f in files if not f.is_proof)
    names, fields = new_names(files)
    part_lemmas(files, names)
    if argv == ["--names"]:
        for n in sorted(names):
            print(n, names[n])
        return 0
    bad = collisions(files, sources, names)
    bad += [f"collision: {f.path}: a prime is left" for f in files if "′" in f.text]
    if bad:
        print("\n".join(bad))
        return 1
    renamer, changed = Renamer(names, fields, {n for f in files for n, _, _ in f.statements}), 0
    work = [(f.path, f.text, renamer.antt_file(f)) for f in files]
    work += [(p, t, renamer.source_file(t)) for p, t in sources]
    for p in texts("edit"):
        t = read(p)
        is_antt = bool(re.search(r"^file: .*\.antt$", t, re.M))
        lines = [renamer.comment(l) if l.startswith("#") else renamer.loose(renamer.antt(l, ALL_MODULES | {"spec"}, camel_only=not is_antt), False) for l in t.split("\n")]
        work.append((p, t, "\n".join(lines)))
    work += [(p, t, renamer.comment(t)) for p in pages() for t in [read(p)]]
    for path, old, new in work:
        if old != new:
            write(path, new)
            changed += 1
    camel = sum(is_camel(n) for n in names)
    print(f"respell: {camel} names from camel case, {len(names) - camel} with a dash less, in {changed} files")
    print(f"respell: the crate json is json_text in {move_crate('json', 'json_text')} files")
    return 0


if __name__ == "__main__":
    raise SystemExit(main(sys.argv[1:]))
