#!/usr/bin/env python3
"""Brings the repository's own definitions and lemmas to snake case, once, right after port.py.

usage: python3 tools/respell.py [--list]       at the top of the repository

It turns each name that an .antt file below crates/ declares and that names no goal and nothing of the library: camel case to snake case, and
a dash to an underscore, except where the dash joins two definitions (as in along-within). Types keep their capitals. Words are turned in all
.antt files, and in the clauses, ghost items and comments of .rt files: no Rust name there is spelled so. Definitions of specs/ are named first; a
name that would fall together with another, with a variable of a proof or with a field, gets _lem behind it.
--list only prints the table. Rust's own names, strings, must-fail edits, inputs and outputs are not touched."""

import os
import re
import sys

DECLARED = re.compile(r"^ *(?:module _ .*)?(?:(?:abbrev|unfoldable|pub|data|record) )*([A-Za-z][\w'-]*)(?= :| *\{.*\} *:|$)", re.M)
WORD = re.compile(r"(?<![\w'\-«])[A-Za-z_][\w'\-]*")
GOAL = re.compile(r"\bgoal\.([A-Za-z][\w'-]*)")
USE = re.compile(r"^(?:ghost )?use [^\n]*", re.M)
OUTSIDE = re.compile(r"^use (?:Rattle\.std|lib|mir|borrow|native|mathlib|denote|Prim)\.[\w.]*\{([^}]*)\}", re.M)
QUIET = re.compile(r'"(?:[^"\\\n]|\\.)*"')
KEYWORDS = {"where", "let", "in", "do", "elim", "use", "pub", "mod", "module", "record", "data", "mutual"}


def files(ending):
    for folder, dirs, names in os.walk("crates"):
        dirs[:] = sorted(d for d in dirs if d != "out")
        for name in sorted(names):
            if name.endswith(ending):
                yield os.path.join(folder, name)


def read(path):
    with open(path, encoding="utf-8") as f:
        return f.read()


def snake(name):
    return re.sub(r"(?<=[a-z0-9])([A-Z])", lambda m: "_" + m[1].lower(), name.replace("getD", "get_or"))


def main(argv):
    texts = {p: read(p) for p in files(".antt")}
    programs = {p: read(p) for p in files(".rt")}
    goals = {m for t in texts.values() for m in GOAL.findall(t)}
    declared, definitions = set(), set()
    for path, text in texts.items():
        names = {n for n in DECLARED.findall(text) if n not in KEYWORDS and n not in goals}
        declared |= names
        if "/specs/" in path:
            definitions |= names
    library = {n.strip().split(" as ")[0] for t in texts.values() for m in OUTSIDE.findall(t) for n in m.split(",")}
    declared -= library
    definitions -= library
    fields = {w for t in programs.values() for w in re.findall(r"^\s*(?:pub(?:\(crate\))? )?(\w+): ", t, re.M)}
    taken = set(WORD.findall(USE.sub("", "\n".join(texts.values()))))
    table = {}

    def place(old, new):
        if new == old:
            return
        if new in taken or new in fields or new in table.values():
            new += "_lem"
        if new in taken or new in table.values():
            raise SystemExit(f"{old} and another name fall together at {new}")
        table[old] = new

    order = sorted(definitions) + sorted(declared - definitions)
    for name in order:
        if name[0].islower() and "-" not in name and re.search("[A-Z]", name):
            place(name, snake(name))
    respelled = definitions | {table.get(n, n) for n in definitions} | {n.replace("_", "-") for n in definitions}
    for name in order:
        if "-" in name and name[0].islower():
            parts = name.split("-")
            if len(parts) == 2 and all(p in respelled for p in parts):
                continue
            place(name, snake(name.replace("-", "_")))
    if "--list" in argv:
        for old, new in sorted(table.items()):
            print(f"{old}\t{new}")
        return

    def turn(text):
        parts, at = [], 0
        for m in QUIET.finditer(text):
            parts += [WORD.sub(lambda w: table.get(w[0], w[0]), text[at : m.start()]), m[0]]
            at = m.end()
        parts.append(WORD.sub(lambda w: table.get(w[0], w[0]), text[at:]))
        return "".join(parts)

    for path, text in list(texts.items()) + list(programs.items()):
        new = turn(text)
        if new != text:
            with open(path, "w", encoding="utf-8") as f:
                f.write(new)


main(sys.argv[1:])
