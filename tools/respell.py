#!/usr/bin/env python3
"""Respells the definitions and lemmas of this repository by respelled.tsv beside this script: words in snake case, types in camel case.

usage: tools/respell.py            at the top of the repository, once, after the kit's own script for older repositories

A row of the table is an old name, a tab, a new one. Whole names turn: in .antt and .rt files the code, in edits that must fail the lines that are
read, and in pages, comments and sentences what stands between back quotes. Functions of src/, exported names, strings, inputs and outputs keep theirs:
no row has the spelling of one. The notes of docs/landings keep the names of their day.
"""

import os
import re

HERE = os.path.dirname(os.path.realpath(__file__))
WHERE = ["crates", "docs", "README.md", "CONTRIBUTING.md"]


def table():
    with open(os.path.join(HERE, "respelled.tsv"), encoding="utf-8") as rows:
        return dict(row.rstrip("\n").split("\t") for row in rows if row.strip())


NEW = table()
NAME = re.compile(r"[^\W\d][\w'′]*(?:-[\w'′]+)*")
SPAN = re.compile(r"`[^`\n]*`")
STRING = re.compile(r'"(?:[^"\\\n]|\\.)*"')


def turned(text):
    """The text with each name of the table in its new spelling."""
    return NAME.sub(lambda m: NEW.get(m[0], m[0]), text)


def spans(text):
    """The same, between back quotes alone."""
    return SPAN.sub(lambda m: turned(m[0]), text)


def code(line, mark):
    """A line of code turned, and of its comment what stands between back quotes."""
    strings = []

    def put_by(m):
        strings.append(m[0])
        return f'"{len(strings) - 1}"'

    line = STRING.sub(put_by, line)
    at = re.search(mark, line)
    cut = at.start() if at else len(line)
    line = turned(line[:cut]) + spans(line[cut:])
    return re.sub(r'"(\d+)"', lambda m: strings[int(m[1])], line)


def respelled(path, text):
    lines = text.split("\n")
    if path.endswith(".antt"):
        lines = [code(line, r"(?<!\S)--") for line in lines]
    elif path.endswith(".rt"):
        lines = [code(line, r"//") for line in lines]
    elif path.endswith(".edit"):
        lines = [turned(line) if re.match(r"(file|old|new):", line) else spans(line) for line in lines]
    elif path.endswith(".md"):
        lines = [spans(line) for line in lines]
    return "\n".join(lines)


def files():
    for top in WHERE:
        if os.path.isfile(top):
            yield top
        for folder, inner, names in os.walk(top):
            inner[:] = sorted(d for d in inner if d not in ("out", "landings"))
            yield from (os.path.join(folder, name) for name in sorted(names))


def main():
    for path in files():
        if not path.endswith((".antt", ".rt", ".edit", ".md")):
            continue
        with open(path, encoding="utf-8") as f:
            old = f.read()
        new = respelled(path, old)
        if new != old:
            with open(path, "w", encoding="utf-8") as f:
                f.write(new)


main()
