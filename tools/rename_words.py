#!/usr/bin/env python3
"""Turns the repository's own definitions and lemmas to snake case, by the table renames.tsv beside this file.

usage: python3 tools/rename_words.py     at the top of the repository, once, after the kit's port.py

A table row has the old word, the new one and, where a word is another thing elsewhere, the crates in which alone it turns.
Of a .rt file it turns imports of definitions, contracts and comments, and no code; of an .antt file every word but what the
file takes from the kit.
"""

import glob
import os
import re

HERE = os.path.dirname(os.path.abspath(__file__))
WORD = re.compile(r"[A-Za-z_ℕ0-9][\w'′<>≤≡≢+*/%^∷-]*")
LIBRARY = re.compile(r"(?:pub |ghost )?use (\S+?)\.\{(.*)\}")


def table():
    words = {}
    with open(os.path.join(HERE, "renames.tsv"), encoding="utf-8") as f:
        for line in f:
            parts = line.rstrip("\n").split("\t")
            words[parts[0]] = (parts[1], set(parts[2].split()) if len(parts) > 2 else None)
    return words


def of_the_kit(text):
    found = set()
    for line in text.split("\n"):
        use = LIBRARY.match(line)
        if use and (not use[1].startswith("Rattle.") or use[1].startswith("Rattle.std.")):
            found.update(it.strip().split(" as ")[0] for it in use[2].split(","))
    return found


def turned(text, words, crate, kept):
    def word(found):
        new = words.get(found[0])
        if new is None or found[0] in kept or (new[1] is not None and crate not in new[1]):
            return found[0]
        return new[0]

    return WORD.sub(word, text)


def turned_source(text, words, crate, kept):
    lines, depth = [], 0
    for line in text.split("\n"):
        bare = line.strip()
        begins = re.match(r"(ghost use|requires|ensures|ghost|invariant)\b", bare)
        if depth > 0 or begins or bare.startswith("//"):
            lines.append(turned(line, words, crate, kept))
        else:
            lines.append(line)
        if depth > 0 or (begins and not bare.startswith("ghost use")):
            depth += line.count("{") - line.count("}")
    return "\n".join(lines)


# Lemmas that would fall together with a definition of the file, which takes their word: turned first.
FIRST = [
    ("crates/records/proofs/Stored.antt", r"\bhas_room\b", "has_room_lem"),
    ("crates/placing/proofs/int_line/Proof.antt", r"\bhas_room\b", "has_room_lem"),
    ("crates/bounds/proofs/Fits.antt", r"\bslot_read\b", "slot_read_lem"),
    ("crates/bounds/proofs/timing/read_time/Proof.antt", r"\bf\.slot_read\b", "f.slot_read_lem"),
]


def main():
    words = table()
    for path, old, new in FIRST:
        with open(path, encoding="utf-8", newline="") as f:
            text = f.read()
        with open(path, "w", encoding="utf-8", newline="") as f:
            f.write(re.sub(old, new, text))
    for path in sorted(glob.glob("crates/*/src/**/*.rt", recursive=True)
                       + glob.glob("crates/*/specs/**/*.antt", recursive=True)
                       + glob.glob("crates/*/proofs/**/*.antt", recursive=True)):
        crate = path.split(os.sep)[1]
        with open(path, encoding="utf-8", newline="") as f:
            text = f.read()
        turn = turned_source if path.endswith(".rt") else turned
        new = turn(text, words, crate, of_the_kit(text))
        if new != text:
            with open(path, "w", encoding="utf-8", newline="") as f:
                f.write(new)


main()
