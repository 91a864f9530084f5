#!/usr/bin/env python3
"""Turns the names of this repository's own definitions and lemmas from camel case to snake case, as today's Rattle spells them.

usage: tools/spelling.py [FOLDER]    rewrites the .antt, .rt and .md files below FOLDER (or here) in place; to be run once

Types, modules, facts, functions of src/ and exported C names keep their spelling. Words are turned wherever they stand, in
clauses, definitions, proofs, comments and documents: a name is a name of one thing in the whole repository. Where the new
spelling is already that of another lemma, that lemma gets '_lem' (LEMMAS), as the style of Rattle's names has it.
"""

import os
import re
import sys

# Lemmas that had the new spelling of a definition.
LEMMAS = ["in_order", "next_word", "no_items", "none_left", "only_one", "word_fits"]

# Words of camel case whose new spelling is not their words in snake case.
SPECIAL = {"getD": "get_or"}

# A part of a name: names are joined by dashes, and a module's path by dots.
PART = re.compile(r"(?<![\w'])[a-z][a-z0-9]*(?:_[a-z0-9]+)*[A-Z][\w']*")
BREAK = re.compile(r"(?<=[a-z0-9])[A-Z]")
LEMMA = re.compile(r"(?<![\w'-])(" + "|".join(LEMMAS) + r")(?![\w'-])")


def turned(word):
    if re.search(r"_[A-Z]", word):
        return word
    return SPECIAL.get(word) or BREAK.sub(lambda m: "_" + m.group().lower(), word)


def turn(text, path):
    if path.endswith(".antt"):
        text = LEMMA.sub(lambda m: m.group() + "_lem", text)
    return PART.sub(lambda m: turned(m.group()), text)


def main():
    top = sys.argv[1] if len(sys.argv) > 1 else "."
    changed = 0
    for folder, dirs, files in os.walk(top):
        dirs[:] = sorted(d for d in dirs if d not in ("out", "target", ".git"))
        for name in sorted(files):
            if not name.endswith((".antt", ".rt", ".md")):
                continue
            path = os.path.join(folder, name)
            with open(path, encoding="utf-8") as f:
                old = f.read()
            new = turn(old, path)
            if new != old:
                with open(path, "w", encoding="utf-8") as f:
                    f.write(new)
                changed += 1
    print(f"{changed} files changed")


main()
