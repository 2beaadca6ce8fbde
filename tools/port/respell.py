#!/usr/bin/env python3
"""Brings the repository's own definitions and lemmas to the spelling of today's Rattle. Run once, at the top, after port.py.

Definitions, fields, constructors and lemmas are written in snake case; a dash of a lemma's name stays only where it joins two
names of definitions. Types, modules, functions of src/, goals that Rattle names, strings and names of the library stay.
Names that would fall together with another name get `_lem`, or stay; the script prints both lists.
"""
import collections
import glob
import os
import re

TOKEN = re.compile(r"(?<![\w'′·-])[^\W\d_][\w'′·]*(?:-[\w'′·≤]+)*|_[\w']+")
HEAD = re.compile(r"^(\s*)((?:(?:abbrev|unfoldable|opaque|instance) )*)(pub )?((?:(?:record|data) )?)([^\s:(){}.,;⊢=↦\[]+(?: [^\s:(){}.,;⊢=↦\[]+)*)\s*(?:[({].*[)}])?\s*:(?:\s|$)")


def files(pattern):
    return sorted(glob.glob(pattern, recursive=True))


def code(line):
    at = re.search(r"(?:^|\s)--(?:\s|$)", line)
    return line if at is None else line[: at.start()]


specs = files("crates/*/specs/**/*.antt")
proofs = files("crates/*/proofs/**/*.antt")
walks = [p for p in proofs if p.endswith("/Proof.antt")]
lemmas = [p for p in proofs if p not in walks]
sources = files("crates/*/src/**/*.rt")
crates = {p.split("/")[1] for p in sources}

declared, definitions, fields, outside = set(), set(), set(), set()
used = collections.Counter()
for path in specs + lemmas:
    inside = 0
    text = open(path, encoding="utf-8").read()
    for found in re.finditer(r"^\s*(?:pub )?use ([^{\n]*?)\.\{([^}]*)\}", text, re.M):
        if found[1].split(".")[0] != "Rattle" or found[1].split(".")[1] not in crates:
            outside.update(w.split(" as ")[0] for w in re.split(r",\s*", found[2].strip()))
    for line in text.splitlines():
        line = code(line)
        used.update(TOKEN.findall(line))
        head = HEAD.match(line)
        if head is None:
            if line.strip() and not line.startswith(" "):
                inside = 0
            continue
        names = head[5].split(" ")
        if names[0] in ("use", "mod", "module", "let", "elim", "where"):
            continue
        kind = head[4].strip()
        declared.update(names)
        if kind:
            inside = len(head[1]) + 1
            definitions.update(names)
        elif inside and len(head[1]) >= inside:
            fields.update(names)
        else:
            inside = 0
            if head[2].strip():
                definitions.update(names)
for path in walks:
    for found in re.finditer(r"^use (mathlib|Prim|native|borrow|lib|seplogic|denote)[^{\n]*\.\{([^}]*)\}", open(path, encoding="utf-8").read(), re.M):
        outside.update(re.split(r",\s*", found[2].strip()))
words = set()
for path in sources:
    text = open(path, encoding="utf-8").read()
    words.update(re.findall(r"[A-Za-z_][A-Za-z_0-9]*", re.sub(r"\b(?:requires|ensures|invariant)\b[^{;]*\{.*|ghost use [^;]*;", "", text)))


def snake(part):
    part = re.sub(r"(?<=[a-z0-9'])([A-Z])", lambda m: "_" + m[1].lower(), part)
    return part


def is_type(name):
    return name[:1].isupper()


nouns = {snake(n) for n in definitions if len(n) > 2 and "-" not in n} | {"length", "get_or", "append"}


def spelled(name):
    parts = [p if is_type(p) else snake(p) for p in name.split("-")]
    out = parts[0]
    for i in range(1, len(parts)):
        left = any("_".join(parts[k:i]) in nouns or (k == i - 1 and is_type(parts[k])) for k in range(i))
        right = any("_".join(parts[i:k]) in nouns for k in range(i + 1, len(parts) + 1))
        joins = name not in fields and name not in definitions and left and right
        out += ("-" if joins else "_") + parts[i]
    return out


renamed, kept = {}, {}
taken = collections.defaultdict(set)
for name in set(used) | declared:
    taken[name].add(name)
for name in sorted(declared, key=lambda n: (n not in definitions and n not in fields, n)):
    if is_type(name) and "-" not in name or name in outside:
        continue
    to = spelled(name)
    if to == name:
        continue
    if len(taken[to] - {name}) or to in words and name not in fields and "-" in name:
        kept[name] = to
        to += "_lem"
        if len(taken[to] - {name}) or name in definitions or name in fields:
            continue
    taken[to].add(name)
    renamed[name] = to


# Where port.py gave a lemma or a local name the spelling that a definition has from now on: the lemma's name, by file.
APART = [
    ("crates/theory/specs/", "in_pair"),
    ("crates/theory/specs/", "start_test"),
    ("crates/theory/specs/Cases/Tree.antt", "at_most_one"),
    ("crates/theory/specs/Starts/Next/Laws.antt", "next_start"),
    ("crates/share/specs/", "end_below"),
    ("crates/share/proofs/", "end_below"),
    ("crates/starts/specs/", "passed_on"),
    ("crates/starts/proofs/", "passed_on"),
    ("crates/ladder/specs/Code/Laws.antt", "fits_in"),
]
for name in "atMostOne endBelow fitsIn inPair isRun leafWeights nextStart notAfter outOfOrder passedOn sameBefore startTest".split():
    renamed[name] = snake(name)
    kept.pop(name, None)
renamed["startPlace"] = "place_of_start"
renamed["verdictPlace"] = "place_of_verdict"


def apart(path, text):
    for start, name in APART:
        if path.startswith(start):
            text = re.sub(r"(?<![\w'.·-])" + name + r"(?![\w'-])", name + "_lem", text)
    return text


def respell(text, stay=frozenset(), comments=True):
    def word(found):
        name = found[0]
        return name if name in stay else renamed.get(name, name)

    out = []
    for line in text.split("\n"):
        body = code(line)
        rest = line[len(body):]
        if comments:
            rest = re.sub(r"(?<![\w'-])[a-z]\w*[A-Z][\w']*(?:-\w+)*", word, rest)
        out.append(TOKEN.sub(word, body) + rest)
    return "\n".join(out)


def respell_source(text):
    """Clauses and ghost items of a source file: names of the logic that no Rust name can be, those with a dash or in camel case."""
    return re.sub(r"(?<![\w\"'-])(?<!r#)[a-z][\w']*(?:-[\w']+)+|\b[a-z]\w*[A-Z][\w']*", lambda m: renamed.get(m[0], m[0]), text)


def goals(text):
    """The names of a proof by walk that Rattle makes: what it declares, and the steps of its paths."""
    own = set(re.findall(r"^(?:abbrev |pub )*([^\s:.]+)(?: [^:\n]*)? :", text, re.M))
    steps = {s for s in re.findall(r"(?<=\.)[a-z][\w'-]*", text) if s not in fields}
    return own | steps


if __name__ == "__main__":
    if os.path.exists("docs/PORT.md"):
        raise SystemExit("docs/PORT.md is there: this has been run")
    for path in specs + lemmas:
        text = open(path, encoding="utf-8").read()
        open(path, "w", encoding="utf-8").write(respell(apart(path, text)))
    for path in walks:
        text = open(path, encoding="utf-8").read()
        open(path, "w", encoding="utf-8").write(respell(apart(path, text), goals(text)))
    for path in sources:
        text = open(path, encoding="utf-8").read()
        open(path, "w", encoding="utf-8").write(respell_source(text))
    for path in files("docs/*.md") + files("README.md") + files("crates/*/must-fail/README.md"):
        text = open(path, encoding="utf-8").read()
        text = re.sub(r"`[^`\n]*`", lambda m: respell(m[0], comments=False), text)
        open(path, "w", encoding="utf-8").write(text)
    print(len(renamed), "names spelled anew")
    for name, to in kept.items():
        print("fell together:", name, "->", renamed.get(name, name), "since", to, "is taken")
