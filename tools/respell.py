#!/usr/bin/env python3
"""Respells this repository's own definitions and lemmas in snake case: run once, at the top, after the toolchain's port.

A name that specs/ or proofs/ declare and that begins with a small letter and has a capital behind it, as rowMajor,
becomes row_major, and so does each such part of a name with dashes, as digits-rowMajor. Types, records, data, modules
and constructors keep their capital. Names of src/, strings and comments there keep their spelling.
Lemmas that the port's script gave the name that a definition now gets have their dash back, as all-small beside
all_small, and specs/Contracts.antt of words, a name that the toolchain makes itself, is specs/Promises.antt.
usage: respell.py [--check]    with --check it only prints the names and what falls together
"""
import os
import re
import sys

WORD = r"[A-Za-z0-9_'\u2080-\u209c\u00b2\u00b3\u03b1-\u03c9\u2113-]+"
BACK = {n.replace("-", "_"): n for n in ("all-small", "counts-of", "fit-of", "holds-at", "kept-by", "none-kept", "pair-found", "same-at", "term-words")}
MOVED = ("words", "Contracts", "Promises")
DECLARED = re.compile(r"^\s*(?:(?:abbrev|unfoldable|pub)\s+)*([^\s:(){}]+)\s*:(?!:)")
LISTED = re.compile(r"^\s*(?:(?:abbrev|unfoldable|pub)\s+)*(?:data|record)\s")


def files(root):
    for folder, dirs, names in os.walk(os.path.join(root, "crates")):
        dirs[:] = sorted(d for d in dirs if d != "out")
        for name in sorted(names):
            if name.endswith((".rt", ".antt")):
                yield os.path.join(folder, name)


def snake(name):
    """Each part between dashes: rowMajor is row_major; a part that begins with a capital is a type's and stays."""
    def part(word):
        if not word[:1].islower():
            return word
        return re.sub(r"(?<=[a-z0-9\u2080-\u2089])([A-Z]+)", lambda m: "_" + m[1].lower(), word)
    return "-".join(part(w) for w in name.split("-"))


def declared(root):
    names = {}
    for path in files(root):
        if path.endswith(".antt"):
            with open(path, encoding="utf-8") as f:
                for line in f:
                    m = DECLARED.match(line)
                    if m and not LISTED.match(line):
                        names.setdefault(m[1], set()).add(os.path.relpath(path, root))
    return names


def code_parts(text):
    """Pieces of Rust text: (is it a comment or a string, the piece)."""
    at = 0
    for m in re.finditer(r'//[^\n]*|b?"(?:\\.|[^"\\])*"|b\'(?:\\.|[^\'\\])\'', text):
        yield False, text[at:m.start()]
        yield True, m[0]
        at = m.end()
    yield False, text[at:]


def turned(text, table, rust):
    def one(m):
        return table.get(m[0], m[0])
    if not rust:
        return re.sub(WORD, one, text)
    return "".join(p if kept else re.sub(WORD, one, p) for kept, p in code_parts(text))


def back(text):
    """Lemmas with their dash again, but no part of a path, which may be a function's."""
    return re.sub(r"(?<![.\w'-])(" + "|".join(sorted(BACK)) + r")(?![\w'-])", lambda m: BACK[m[1]], text)


def move(root):
    crate, old, new = MOVED
    folder = os.path.join(root, "crates", crate, "specs")
    if not os.path.exists(os.path.join(folder, old + ".antt")):
        return
    os.rename(os.path.join(folder, old + ".antt"), os.path.join(folder, new + ".antt"))
    for path in files(root):
        with open(path, encoding="utf-8") as f:
            text = f.read()
        changed = text.replace(f"Rattle.{crate}.specs.{old}", f"Rattle.{crate}.specs.{new}")
        if path == os.path.join(folder, "Lib.antt"):
            changed = re.sub(rf"\bmod {old}\b", f"mod {new}", changed)
        if changed != text:
            with open(path, "w", encoding="utf-8") as f:
                f.write(changed)


def main(argv):
    root = "."
    if "--check" not in argv:
        move(root)
        for path in files(root):
            if path.endswith(".antt"):
                with open(path, encoding="utf-8") as f:
                    text = f.read()
                if back(text) != text:
                    with open(path, "w", encoding="utf-8") as f:
                        f.write(back(text))
    names = declared(root)
    table = {n: snake(n) for n in names if snake(n) != n}
    falls = {}
    for old, new in table.items():
        falls.setdefault(new, []).append(old)
    for new, olds in sorted(falls.items()):
        if len(olds) > 1 or new in names:
            print("together:", new, olds, sorted(names.get(new, ())))
    if "--check" in argv:
        for old in sorted(table):
            print(old, table[old])
        return 0
    changed = 0
    for path in files(root):
        with open(path, encoding="utf-8") as f:
            text = f.read()
        new = turned(text, table, path.endswith(".rt"))
        if new != text:
            with open(path, "w", encoding="utf-8") as f:
                f.write(new)
            changed += 1
    print(f"{len(table)} names, {changed} files")
    return 0


if __name__ == "__main__":
    raise SystemExit(main(sys.argv[1:]))
