#!/usr/bin/env python3
"""Brings the repository's own definitions and lemmas to the library's spelling: words in snake case, types as they are.

usage: python3 tools/respell.py            at the top of the repository, once, after the kit's port.py

Every name that is defined in a file of specs/ or proofs/, at the left edge or for other files to cite, and is written with a
hyphen or with a capital inside a word is respelled, there and wherever it is cited in a .rt or .antt file below crates/. Names of types, of functions
of src/, and the names that the toolchain makes for goals and invariants stay. The crate `bytes`, whose name is a library's
today, becomes `little_endian`. Names that would fall together, or that stand already, are printed, and then nothing is
written; a definition may have the name of a function of src/, as those of checks and powers do.
"""

import os
import re
import subprocess
import sys

CRATES = "crates"
OLD_CRATE, NEW_CRATE = "bytes", "little_endian"
WORD = r"A-Za-z0-9_'\-"
DEFINED = re.compile(r"^(?:\s+(?=pub ))?(?:(?:pub|abbrev|unfoldable|data|record|ruleset)\s+)*([^\s:(){}=λ◌.]+)\s*(?:[({][^)}]*[)}]\s*)*:(?!=)")
TOKEN = re.compile(rf"(?<![{WORD}])[A-Za-z_][{WORD}]*")


def texts():
    for folder, dirs, files in os.walk(CRATES):
        dirs[:] = sorted(d for d in dirs if d != "out")
        for name in sorted(files):
            if name.endswith((".rt", ".antt")):
                yield os.path.join(folder, name)


def read(path):
    with open(path, encoding="utf-8") as f:
        return f.read()


def is_made(path, text, name):
    """Whether the toolchain gives the name: a goal, an invariant or a measure, whose type is `goal.` something."""
    return re.search(rf"^(?:abbrev |pub )*{re.escape(name)} : (?:goal\.|Rattle\.[\w.]*(?:Goals|Given)\.)", text, re.M) is not None


def respelled(name):
    name = name.replace("-", "_")
    return re.sub(r"(?<=[a-z0-9])([A-Z])", lambda m: "_" + m.group(1).lower(), name)


def definitions():
    """The names to respell, each with the files that define it."""
    names = {}
    for path in texts():
        if not path.endswith(".antt"):
            continue
        text = read(path)
        for line in text.splitlines():
            found = DEFINED.match(line)
            if not found:
                continue
            name = found.group(1)
            if name[0].isupper() or respelled(name) == name or is_made(path, text, name):
                continue
            names.setdefault(name, set()).add(path)
    return names


def clashes(names):
    """Names that would fall together, and those that something else has already."""
    by_new = {}
    for name in names:
        by_new.setdefault(respelled(name), []).append(name)
    for new, olds in sorted(by_new.items()):
        if len(olds) > 1:
            yield f"{' and '.join(sorted(olds))} would both be {new}"
    everything = {path: read(path) for path in texts()}
    functions = {f for path, text in everything.items() if path.endswith(".rt") for f in re.findall(r"\bfn ([a-z_0-9]+)", text)}
    for path, text in everything.items():
        for token in sorted(set(TOKEN.findall(text)) & set(by_new) - functions):
            yield f"{token} stands already in {path}"


def turned(text, names):
    text = TOKEN.sub(lambda m: respelled(m.group()) if m.group() in names else m.group(), text)
    return text.replace(f"Rattle.{OLD_CRATE}.", f"Rattle.{NEW_CRATE}.")


def main():
    if not os.path.isdir(CRATES):
        sys.exit("respell: run it at the top of the repository")
    names = definitions()
    said = list(clashes(names))
    if said:
        sys.exit("respell: nothing was written\n" + "\n".join(said))
    for path in texts():
        text = read(path)
        new = turned(text, names)
        if new != text:
            with open(path, "w", encoding="utf-8") as f:
                f.write(new)
    if os.path.isdir(os.path.join(CRATES, OLD_CRATE)):
        subprocess.run(["git", "mv", os.path.join(CRATES, OLD_CRATE), os.path.join(CRATES, NEW_CRATE)], check=True)
        listed = read("crates.txt")
        with open("crates.txt", "w", encoding="utf-8") as f:
            f.write(re.sub(rf"(?m)^((?!#).*)$", lambda m: re.sub(rf"\b{OLD_CRATE}\b", NEW_CRATE, m.group()), listed))
    for name in sorted(names):
        print(name, "->", respelled(name))


if __name__ == "__main__":
    main()
