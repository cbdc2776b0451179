#!/usr/bin/env python3
"""Brings the repository's own names to the spelling of today's Rattle, after port.py: definitions, lemmas and fields in snake case.

usage: python3 tools/port/respell.py      at the top of the repository, or of another checkout on which port.py ran

respell.tsv beside this file has each name that port.py leaves, and its new spelling: `rowCount` and `row-count` fall together, and the lemma
then gets `_lem`. by_port.tsv has the names that port.py itself respells; both are applied to the must-fail edits, which port.py does not touch,
and to what stands in backquotes in the pages. Functions of src/, C names, strings and file names keep their spelling.
"""

import glob
import os
import re

HERE = os.path.dirname(os.path.realpath(__file__))
NAME = re.compile(r'(?<![^\s(){}.;,@"«»:?])[^\s(){}.;,@"«»:?]+')
# What Rattle calls its goals in proof files of a function.
GOAL = re.compile(r"(?:tie|goal)\.\S+|Need-\S+")
SPAN = re.compile(r"`[^`\n]+`")


def rows(name):
    with open(os.path.join(HERE, name)) as text:
        return dict(line.rstrip("\n").split("\t") for line in text)


OWN = rows("respell.tsv")
ALL = OWN | rows("by_port.tsv")


def words(text, names):
    return NAME.sub(lambda m: names.get(m.group(), m.group()), text)


def proof_text(text):
    """antt: all but the goals' names."""
    at, made = 0, []
    for goal in GOAL.finditer(text):
        made += [words(text[at : goal.start()], OWN), goal.group()]
        at = goal.end()
    return "".join(made) + words(text[at:], OWN)


def code_text(text):
    """Rust's names are in snake case, so a name in camel case is one of a clause."""
    camel = {a: b for a, b in OWN.items() if "-" not in a}
    return words(text, camel)


def edit_text(text):
    """An edit: what it says first stays; ` .field` is written tight, and `_+_` is `◌+◌`."""
    made = []
    for line in text.split("\n"):
        if line.startswith(("old:", "new:")):
            line = line[:4] + re.sub(r"(?<=[\w)'′\]}]) \.(?=[A-Za-z])", ".", words(line[4:], ALL))
            line = re.sub(r"(?<![\w-])_([^\w\s(){}.;,]+)_(?![\w-])", r"◌\1◌", line)
        made.append(line)
    return "\n".join(made)


def page_text(text):
    def span(match):
        inner = match.group()[1:-1]
        # What has a slash is a path.
        return match.group() if "/" in inner else "`" + words(inner, ALL) + "`"

    return SPAN.sub(span, text)


def turn(pattern, change):
    for name in sorted(glob.glob(pattern, recursive=True)):
        with open(name) as file:
            old = file.read()
        new = change(old)
        if new != old:
            with open(name, "w") as file:
                file.write(new)


turn("crates/*/specs/**/*.antt", proof_text)
turn("crates/*/proofs/**/*.antt", proof_text)
turn("crates/*/src/**/*.rt", code_text)
turn("crates/*/must-fail/*.edit", edit_text)
turn("tests/edits/*/*.edit", edit_text)
turn("docs/**/*.md", page_text)
turn("*.md", page_text)
