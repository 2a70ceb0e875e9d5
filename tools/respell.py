#!/usr/bin/env python3
"""Brings the names of this repository's own definitions and lemmas to one spelling: words in snake case, types in upper camel case.

usage: python3 tools/respell.py [--list]     at the top of the repository; --list only shows the names and what would fall together

Names that are made by the toolchain (goals, invariants), names of std, names of functions and strings stay. Files: specs/, proofs/, the ghost parts of src/, edits, docs.
"""
import os
import re
import sys

TOKEN = re.compile(r"[^\W\d](?:[\w']|-(?=[\w]))*")
DECL = re.compile(r"^\s*(?:(?:abbrev|unfoldable|irreducible|pub)\s+)*([^\W\d](?:[\w']|-(?=[\w]))*)\s*:\s")
DATA = re.compile(r"^\s*(?:(?:abbrev|unfoldable|irreducible|pub)\s+)*(?:record|data)\s+([^\W\d](?:[\w']|-(?=[\w]))*)")
GHOST = re.compile(r"^\s*ghost\s+([^\W\d]\w*)\s*[:=]")
STD = re.compile(r"use\s+(?!Rattle\.(?:%s)\.)([\w.◌+\-]+)\.\{([^}]*)\}")
# lemmas whose definition has their name now, and a test whose name another one has
OTHER = {"all-below": "each_below", "least_by": "least_by_lem"} | {
    n: n.replace("-", "_") + "_lem"
    for n in ("best-below", "book-lines", "book-stands", "chosen-below", "greedy-net", "hit-points", "last-guess", "last-place", "ledgers-stand", "places-stand", "point-stands", "points-stand", "sheet-bytes", "single-sheet")
}


def files(root, *ends):
    for folder, dirs, names in os.walk(root):
        dirs[:] = sorted(d for d in dirs if d not in ("out", "target", ".git"))
        for n in sorted(names):
            if n.endswith(ends):
                yield os.path.join(folder, n)


def is_made(path):
    """A file that answers goals: its names are the toolchain's."""
    return os.path.basename(path) in ("Answers.antt", "Invariants.antt", "Proof.antt")


def own_names(root):
    found = set()
    for p in files(os.path.join(root, "crates"), ".antt"):
        if is_made(p):
            continue
        with open(p, encoding="utf-8") as f:
            for line in f:
                for pattern in (DECL, DATA):
                    m = pattern.match(line)
                    if m:
                        found.add(m[1])
    for p in files(os.path.join(root, "crates"), ".rt"):
        with open(p, encoding="utf-8") as f:
            for line in f:
                m = GHOST.match(line)
                if m:
                    found.add(m[1])
    return found


def library_names(root, crates):
    pattern = re.compile(STD.pattern % "|".join(crates))
    found = set()
    for p in files(os.path.join(root, "crates"), ".antt", ".rt"):
        with open(p, encoding="utf-8") as f:
            for m in pattern.finditer(f.read()):
                found.update(w.strip().split(" as ")[0] for w in m[2].split(","))
    return found


def spelled(name):
    if name[0].isupper():
        return "".join(w[0].upper() + w[1:] for w in name.split("-"))
    name = re.sub(r"(?<=[a-z0-9])([A-Z])", lambda m: "_" + m[1].lower(), name)
    return name.replace("-", "_")


def code_names(root):
    found = set()
    for p in files(os.path.join(root, "crates"), ".rt"):
        with open(p, encoding="utf-8") as f:
            t = f.read()
        found.update(re.findall(r"\bfn\s+(\w+)", t))
        found.update(re.findall(r"\blet\s+(?:mut\s+)?(\w+)", t))
        found.update(re.findall(r"(\w+)\s*:\s*&?(?:mut\s)?\w", t))
    return found


def renaming(root):
    crates = sorted(os.listdir(os.path.join(root, "crates")))
    own, lib = own_names(root), library_names(root, crates)
    table = {}
    for n in sorted(own - lib):
        new = OTHER.get(n, spelled(n))
        if new != n:
            table[n] = new
    return table, own, lib


def main():
    root = os.getcwd()
    table, own, lib = renaming(root)
    taken = (own - set(table)) | lib
    for n, new in sorted(table.items()):
        if new in taken:
            print(f"falls together: {n} -> {new} (a name that stands)")
    back = {}
    for n, new in table.items():
        back.setdefault(new, []).append(n)
    for new, olds in sorted(back.items()):
        if len(olds) > 1:
            print(f"falls together: {olds} -> {new}")
    for n, new in sorted(table.items()):
        if new in code_names(root):
            print(f"like a name of the code: {n} -> {new}")
    if "--list" in sys.argv:
        print(len(table), "names")
        return
    for p in [*files(os.path.join(root, "crates"), ".antt", ".rt", ".edit"), *files(os.path.join(root, "docs"), ".md")]:
        with open(p, encoding="utf-8") as f:
            t = f.read()
        new = TOKEN.sub(lambda m: table.get(m[0], m[0]), t)
        if new != t:
            with open(p, "w", encoding="utf-8") as f:
                f.write(new)


main()
