#!/usr/bin/env python3
"""Respells the repository's definitions and lemmas by tools/respell.tsv: words in snake case, a dash between two names.

    python3 tools/respell.py

Run once, at the top, on a tree that the kit's port/port.py has turned. It rewrites the .antt, .rt and .edit files below crates/ in place.
Functions, exported names, types and strings keep their names: in a .rt file a name is respelled in ghost lines and clauses alone, and in
comments only where it is in camel case.
"""

import re
import sys
from pathlib import Path

TOKEN = re.compile(r"[^\s(){}.;,@\"«»\[\]]+|\"(?:[^\"\\]|\\.)*\"|.", re.S)
CAMEL = re.compile(r"[a-z][\w']*[A-Z]")
GHOST = re.compile(r"\s*(ghost\b|requires\b|ensures\b)")


def table():
    """The new name of each old one, and those of one file alone."""
    every, alone = {}, {}
    for line in Path("tools/respell.tsv").read_text().splitlines():
        if line.startswith("#"):
            continue
        old, new, *where = line.split("\t")
        if where:
            alone.setdefault(where[0], {})[old] = new
        else:
            every[old] = new
    return every, alone


def respelled(text, names):
    """The text with each whole name respelled; strings stay."""
    return "".join(names.get(token, token) for token in TOKEN.findall(text))


def comment(text, names):
    """A comment, in which a word with a dash is a word."""
    return respelled(text, {old: new for old, new in names.items() if CAMEL.match(old)})


def parted(line, mark):
    """A line's code and its comment."""
    at = line.find(mark)
    while at > 0 and line[at - 1] not in " \t":
        at = line.find(mark, at + 1)
    return (line, "") if at < 0 else (line[:at], line[at:])


def antt(text, names):
    lines = []
    for line in text.splitlines(keepends=True):
        code, said = parted(line, "-- ")
        lines.append(respelled(code, names) + comment(said, names))
    return "".join(lines)


def rattle(text, names):
    camel = {old: new for old, new in names.items() if CAMEL.match(old)}
    lines = []
    for line in text.splitlines(keepends=True):
        code, said = parted(line, "//")
        lines.append(respelled(code, names if GHOST.match(code) else camel) + comment(said, names))
    return "".join(lines)


def edit(text, names):
    turned = antt if re.search(r"^file: .*\.antt$", text, re.M) else rattle
    lines = []
    for line in text.splitlines(keepends=True):
        head = re.match(r"(old|new): ", line)
        lines.append(head[0] + turned(line[head.end():], names) if head else line)
    return "".join(lines)


def main():
    every, alone = table()
    for path in sorted(Path("crates").rglob("*")):
        turn = {".antt": antt, ".rt": rattle, ".edit": edit}.get(path.suffix)
        if turn is None or "out" in path.parts:
            continue
        old = path.read_text(encoding="utf-8")
        new = turn(old, every | alone.get(path.as_posix(), {}))
        if new != old:
            path.write_text(new, encoding="utf-8")


sys.exit(main())
