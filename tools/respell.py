#!/usr/bin/env python3
"""Respells the definitions and lemmas of this repository: words in snake case, with no dash inside a name of our own.

usage: python3 tools/respell.py        at the top of a checkout

The pairs stand in tools/respell.tsv. A name is replaced where it stands whole, in specs/, proofs/, clauses and must-fail
edits; a name with a dash in code alone, since prose has such words too. Functions of src/, strings, inputs and outputs
have no name of the list.
"""

import os
import re

HERE = os.path.dirname(os.path.realpath(__file__))
ROOT = os.path.dirname(HERE)


def pairs():
    with open(os.path.join(HERE, "respell.tsv"), encoding="utf-8") as f:
        return dict(line.rstrip("\n").split("\t") for line in f)


def files():
    for folder, dirs, names in os.walk(os.path.join(ROOT, "crates")):
        dirs[:] = sorted(d for d in dirs if d != "out")
        for name in sorted(names):
            if name.endswith((".rt", ".antt", ".edit")):
                yield os.path.join(folder, name)


def respelled(text, table, code):
    """The text with each whole name of the table replaced; with code, also those with a dash."""
    def new(m):
        name = m.group(0)
        return table[name] if name in table and (code or "-" not in name) else name

    # a step of a proof, as c.pool_key, keeps the name that it has from the code
    return re.sub(r"(?<![\w'-])(?<!\bc\.)(?<!\bw\.)(?<!\bl\.)[a-z][\w'-]*", new, text)


def turned(path, text, table):
    """A comment keeps its words with a dash; a .rt file and an edit have code of Rattle, where a dash is a minus."""
    lines = []
    for line in text.split("\n"):
        at = line.find("--") if path.endswith(".antt") else 0
        at = len(line) if at < 0 or line[at - 1 : at] not in ("", " ") else at
        lines.append(respelled(line[:at], table, True) + respelled(line[at:], table, False))
    return "\n".join(lines)


def main():
    table = pairs()
    for path in files():
        with open(path, encoding="utf-8") as f:
            old = f.read()
        text = old.replace("\u2032", "'") if path.endswith(".edit") else old
        new = turned(path, text, table)
        if new != old:
            with open(path, "w", encoding="utf-8") as f:
                f.write(new)


main()
