#!/usr/bin/env python3
"""Counts the places in src/ that today's forms of the language could serve, point by point.

usage: python3 tools/places.py [-v] [FOLDER]      FOLDER: a checkout (this one); -v: each place, not the counts alone

It goes by text, so a row is a place to look at and no verdict: docs/DESIGN-PASS.md says of each what became of it.
Points 1, 3, 4, 6 and 7 are patterns over the lines of crates/*/src; point 2 compares the bodies of functions with their names,
types and numbers left out; point 5 compares the clauses, and the parameters, of all functions; point 8 counts answers and lemmas.
"""

import os
import re
import sys

# what is looked for in lines: point, name of the row, pattern
LINES = [
    (1, "success told by a bool", r"^\s*(pub(\(\w+\))? )?fn .*&mut .*-> bool"),
    (1, "a flag as a field", r"^\s+(pub )?\w+: bool,"),
    (1, "a number for a kind, a cause, a layer or a refusal", r"\b(event|layer|kind|cause|code|refusal): u(8|16|32)\b|^\s+[A-Z]\w+\(u(8|16|32)\)"),
    (1, "an error or none handed on by hand", r"return (Err\(|None\b)|if let (Some|Err|\w+::\w+)\((\w+)\) = .*\{$|let (Some|Ok)\(.*\) = .* else"),
    (3, "a loop over a range", r"\bfor \w+ in .*\.\."),
    (3, "a while or a loop", r"^\s*('\w+: )?(while|loop)\b"),
    (3, "a counter or an index moved by hand", r"^\s*\w+ (\+= 1|= end);"),
    (4, "a method that turns a value into a number, or back", r"fn (number|numbers|of)\("),
    (4, "a value made from bytes, or bytes from a value, place by place", r"(\[|^\s+)(\*?\w+(\.\w+)?\[[^\]]+\], ){1,}"),
    (4, "an answer or an option matched into another by hand", r"Ok\(\(\)\) => Ok\(\(\)\)|Err\((\w+)\) => Err\(|None => false|None => None|Power::On => Power::On|\} else \{ None \}"),
    (4, "an impl of a trait that a derive could write", r"^impl.* (PartialEq|Eq|PartialOrd|Ord|Clone|Copy|Default|Debug|Hash)(<.*>)? for"),
    (6, "a list used as a queue", r"\.remove\(0\)|\.take\(0\)"),
    (6, "a heap list", r"\bVec<"),
    (6, "an array or a slice with a length beside it", r"\b(len|length|size|used|filled): (u\w+|usize),"),
    (7, "a boxed, dynamic or passed function", r"\bdyn \w|\bfn\(|impl Fn|: Fn(Mut|Once)?\("),
    (7, "a step chosen by a value that is passed", r"match (mode|step|op|which|what|call)\b"),
]

TOKEN = re.compile(r"[A-Za-z_]\w*|\d\w*|\"[^\"]*\"|'[^']*'|\S")
KEYWORDS = set("if else match for in while loop let mut return fn as self Ok Err Some None true false ref move".split())


def sources(top):
    for crate in sorted(os.listdir(os.path.join(top, "crates"))):
        for folder, dirs, files in os.walk(os.path.join(top, "crates", crate, "src")):
            dirs.sort()
            for name in sorted(files):
                if name.endswith(".rt") and name != "tables.rt":
                    path = os.path.join(folder, name)
                    yield os.path.relpath(path, top), open(path).read().split("\n")


def functions(lines):
    """Each function with a body: its line, its name, its head with its clauses, its body."""
    k = 0
    while k < len(lines):
        found = re.match(r"^(\s*)(?:pub(?:\(\w+\))? )?(?:final )?fn (\w+)", lines[k])
        if not found or lines[k].rstrip().endswith(";"):
            k += 1
            continue
        indent, start = found.group(1), k
        while k < len(lines) and not re.match(rf"^{indent}\}}|^{indent}\{{\}}", lines[k]) and not (k > start and lines[k].rstrip() == ""):
            if lines[k].rstrip().endswith("};") and "ensures" in lines[k]:
                break
            k += 1
        block = lines[start:k + 1]
        opened = next((j for j, l in enumerate(block) if l == indent + "{" or (j == 0 and l.endswith("{"))), None)
        if opened is not None:
            yield start + 1, found.group(2), block[:opened + 1], block[opened + 1:-1]
        k += 1


def shape(body):
    out = []
    for token in TOKEN.findall("\n".join(l for l in body if not l.strip().startswith("//"))):
        out.append(token if token in KEYWORDS or not re.match(r"[A-Za-z_\d\"']", token) else "_")
    return tuple(out)


def enums(top):
    for path, lines in sources(top):
        text = "\n".join(lines)
        for found in re.finditer(r"^(?:pub )?enum (\w+)[^{]*\{(.*?)^\}", text, re.M | re.S):
            if re.search(r"^    \w+\s*[({]", found.group(2), re.M):
                yield path, text[:found.start()].count("\n") + 1, "enum " + found.group(1)


def twins(top):
    shapes = {}
    for path, lines in sources(top):
        if "#[cfg(test)]" in "\n".join(lines):
            continue
        for line, name, _, body in functions(lines):
            key = shape(body)
            if len(key) >= 12:
                shapes.setdefault(key, []).append((path, line, name))
    for group in shapes.values():
        if len(group) > 1:
            for place in group:
                yield place[0], place[1], "one shape: " + ", ".join(n for _, _, n in group)


def clauses(top):
    """Facts that stand in the clauses of three functions or more, and parameters that three functions or more have in common."""
    facts, pairs = {}, {}
    for path, lines in sources(top):
        if "#[cfg(test)]" in "\n".join(lines):
            continue
        for line, name, head, _ in functions(lines):
            for text in head:
                found = re.match(r"^\s+(requires|ensures)\*?(?: \w+)? \{ (.*) \},?;?$", text)
                if found:
                    facts.setdefault((path.split("/")[1], found.group(1), found.group(2)), []).append((path, line, name))
            given = re.findall(r"(\w+): ([^,()]+(?:\([^)]*\))?)", " ".join(head).split("->")[0])
            given = sorted({f"{n}: {t.strip()}" for n, t in given})
            for a in range(len(given)):
                for b in range(a + 1, len(given)):
                    pairs.setdefault((path.split("/")[1], given[a], given[b]), []).append((path, line, name))
    for key, places in facts.items():
        if len(places) >= 3:
            yield places[0][0], places[0][1], f"{len(places)} functions: {key[1]} {key[2]}"
    for key, places in pairs.items():
        if len(places) >= 3:
            yield places[0][0], places[0][1], f"{len(places)} functions: ({key[1]}, {key[2]})"


def proofs(top):
    answers, lemmas = [], []
    for folder, dirs, files in os.walk(os.path.join(top, "crates")):
        dirs[:] = sorted(d for d in dirs if d not in ("out", "src"))
        for name in sorted(files):
            path = os.path.join(folder, name)
            if not name.endswith(".antt") or "/proofs" not in folder:
                continue
            for k, text in enumerate(open(path)):
                if name == "Answers.antt" and re.match(r"^pub \S+ : goal\.", text):
                    answers.append((os.path.relpath(path, top), k + 1, text.strip()))
                elif folder.endswith("/proofs") and re.match(r"^(pub )?[^\s:]+ : ", text):
                    lemmas.append((os.path.relpath(path, top), k + 1, text.strip()))
    return answers, lemmas


def main():
    every = "-v" in sys.argv
    rest = [a for a in sys.argv[1:] if a != "-v"]
    top = rest[0] if rest else os.path.join(os.path.dirname(os.path.abspath(__file__)), "..")
    rows = [(1, "an enum with a case that carries a value", list(enums(top)))]
    for point, name, pattern in LINES:
        compiled = re.compile(pattern)
        rows.append((point, name, [(p, k + 1, l.strip()) for p, lines in sources(top) for k, l in enumerate(lines)
                                   if compiled.search(l) and not l.strip().startswith(("//", "ghost", "ensures", "requires"))]))
    rows.append((2, "functions whose bodies have one shape", list(twins(top))))
    rows.append((5, "a fact, or a pair of parameters, of three functions or more", list(clauses(top))))
    answers, lemmas = proofs(top)
    rows += [(8, "answers", answers), (8, "lemmas of our own", lemmas)]
    for point, name, places in sorted(rows, key=lambda r: r[0]):
        print(f"{point}  {name}: {len(places)}")
        if every:
            for path, line, text in places:
                print(f"     {path}:{line}: {text}")


main()
