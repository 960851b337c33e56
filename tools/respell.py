#!/usr/bin/env python3
"""Turns the repository's own definitions and lemmas to snake case, by the table respell.tsv beside this file.

usage: python3 tools/respell.py        at the top of the repository, once

A row of the table is `old`, `new` and, where a name is changed in some files alone, a regular expression of their
paths below crates/. Names are whole tokens. In .rt files only what stands outside strings and comments is turned;
in the proof of a function, what follows a dot is a name that Rattle makes, and stays.
"""
import os
import re

TOP = os.path.join(os.path.dirname(os.path.abspath(__file__)), "..")
TOKEN = re.compile(r"(?<![A-Za-z_0-9'\-])[A-Za-z][A-Za-z_0-9'\-]*")
# The parts of a Rust file that no name is turned in.
QUIET = re.compile(r'"(?:[^"\\]|\\.)*"|//[^\n]*')
FUNCTION = re.compile(r"/proofs/.+/(Proof|Answers|Invariants)\.antt$")
PATH = re.compile(r"Rattle(\.[A-Za-z_0-9+]+)*\.$")


def rows():
    with open(os.path.join(TOP, "tools", "respell.tsv"), encoding="utf-8") as f:
        for line in f:
            old, new, *where = line.rstrip("\n").split("\t")
            yield old, new, where[0] if where else None


def turn(text, table, is_function):
    def one(m):
        name = m.group(0)
        if name not in table:
            return name
        before = text[max(0, m.start() - 200) : m.start()]
        if before.endswith("."):
            if PATH.search(before.rsplit(" ", 1)[-1].lstrip("(")):
                return name
            if is_function and name not in fields:
                return name
        return table[name]

    return TOKEN.sub(one, text)


def turn_rust(text, table):
    out, at = [], 0
    for m in QUIET.finditer(text):
        out += [turn(text[at : m.start()], table, False), m.group(0)]
        at = m.end()
    return "".join(out) + turn(text[at:], table, False)


table, some = {}, []
for old, new, where in rows():
    if where is None:
        table[old] = new
    else:
        some.append((re.compile(where), old, new))

paths = []
for folder, dirs, files in os.walk(os.path.join(TOP, "crates")):
    dirs[:] = sorted(d for d in dirs if d != "out")
    paths += [os.path.join(folder, f) for f in sorted(files) if f.endswith((".rt", ".antt"))]

# The fields of the repository's own records.
fields, texts = set(), {}
for p in paths:
    with open(p, encoding="utf-8") as f:
        texts[p] = f.read()
    for m in re.finditer(r"^  pub ([A-Za-z][A-Za-z_0-9'\-]*) :", texts[p], re.M):
        fields.add(m.group(1))

for p in paths:
    rel = os.path.relpath(p, os.path.join(TOP, "crates"))
    own = {old: new for where, old, new in some if where.search(rel)}
    here = {**table, **own}
    new = turn_rust(texts[p], here) if p.endswith(".rt") else turn(texts[p], here, bool(FUNCTION.search(p)))
    if new != texts[p]:
        with open(p, "w", encoding="utf-8") as f:
            f.write(new)
