#!/usr/bin/env python3
"""Turns the names of definitions, lemmas and modules in README.md and docs/, where they stand in backquotes, to today's spelling.

usage: python3 tools/turn_pages.py     at the top of the repository, after rename_words.py; a second run changes nothing

A word turns by renames.tsv; else, where today's specs/ and proofs/ have it in snake case alone, to that.
docs/PORT.md keeps both spellings and is left as it is.
"""

import glob
import os
import re

HERE = os.path.dirname(os.path.abspath(__file__))
WORD = re.compile(r"[A-Za-z_ℕ0-9][\w'′<>≤≡≢+*/%^∷-]*")


def main():
    with open(os.path.join(HERE, "renames.tsv"), encoding="utf-8") as f:
        words = dict(line.rstrip("\n").split("\t")[:2] for line in f)
    today = set()
    for path in glob.glob("crates/*/specs/**/*.antt", recursive=True) + glob.glob("crates/*/proofs/**/*.antt", recursive=True) + glob.glob("crates/*/src/**/*.rt", recursive=True):
        with open(path, encoding="utf-8") as f:
            today.update(WORD.findall(f.read()))

    def word(found):
        old = found[0]
        if old in words:
            return words[old]
        snake = re.sub(r"(?<=[a-z0-9])([A-Z])(?=[a-z0-9]|$|-)", lambda it: "_" + it[1].lower(), old).replace("-", "_")
        if old not in today and not old[0].isupper() and snake in today:
            return snake
        return old

    def quoted(found):
        return "`" + WORD.sub(word, found[1]) + "`"

    for path in sorted(["README.md"] + glob.glob("docs/*.md")):
        if os.path.basename(path) in ("PORT.md",):
            continue
        with open(path, encoding="utf-8") as f:
            text = f.read()
        new = re.sub(r"`([^`\n]+)`", quoted, text)
        if new != text:
            with open(path, "w", encoding="utf-8") as f:
                f.write(new)


main()
