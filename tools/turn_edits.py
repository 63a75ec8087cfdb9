#!/usr/bin/env python3
"""Turns the must-fail edits, crates/*/must-fail/*.edit, to today's spelling, each with the same wrong meaning.

usage: python3 tools/turn_edits.py          at the top of the repository, once, after the kit's port.py and rename_words.py
       python3 tools/turn_edits.py --check  looks only: each old text stands once where its turn comes, each new text
                                            differs from it, has brackets that fit, and names only what the file knows

An edit is read as it was in the commit LANDED, so that a second run gives the same. In an edit of src/ the texts are code,
which kept its spelling. In one of specs/ or proofs/ each text is turned by

- the words of renames.tsv, as rename_words.py turns them, those of the library in LIBRARY below, and each word in camel case
  that today's specs/ and proofs/ have in snake case alone (which the kit's scripts turned);
- the paths, `Rattle·c·specs.specs.M` to `Rattle.c.specs.M`, and `the-variants` to `TheVariants`;
- the projections, `f x .y` to `(f x).y`, `(r .y)` to `r.y`;

and, where that is not what stands in today's file, it is taken from BY_HAND below, (crate/edit, pair): (old, new).
"""

import glob
import os
import re
import subprocess
import sys

LANDED = "2e07bb32a499458c49ef92db47f6c61c9e9a450e"
HERE = os.path.dirname(os.path.abspath(__file__))
WORD = re.compile(r"[A-Za-z_ℕ0-9][\w'′<>≤≡≢+*/%^∷-]*")
LIBRARY = {"getD": "get_or", "the-variants": "TheVariants"}
# What ends an application to the left of a projection.
OPERATORS = {"=", ":", "→", "↔", "≡", "≤", "<", "+", "-", "*", "/", "^", "∷", "++", "&&", "||", "×", "⊎", "λ", "pub", "record", ";"}

# The edits that need a word of the library which the file does not import, where each import is Prelude's today; and one that named
# a variant by its type.
PRELUDE = "use Rattle.std.specs.Prelude.{"
BY_HAND = {
    ("guarantee/windows_rounded_down", 0): (PRELUDE + "ℕ", PRELUDE + "◌/◌, ℕ"),
    ("waits/past_the_list_cleared", 0): (PRELUDE + "ℕ", PRELUDE + "replicate, ℕ"),
    ("writer/text_before_13", 1): (PRELUDE + "ℕ", PRELUDE + "take, ℕ"),
    ("input/word_past_the_buffer", 0): ("    words.arg(i, buf).unwrap_or(0)", "    words.arg(i, buf).unwrap_or(0) + 1"),
    # the tests keep their names, by which proof files cite them
    ("trace/slots_may_fall", 0): ("    if r.slot < last {", "    if r.slot < last & 0 {"),
    ("runner/stopped_at_once", 0): ("    while used < out.len() && !is_done(", "    while used < out.len() && !!is_done("),
    ("machine/slot_changes_channel", 0): (
        "    at_slot s (map (older (delay_of t)) s.returning) (pick (opens t s.slot) (replicate 32 0) s.admitted) (s.slot + 1)",
        "    record { waiting = s.waiting; returning = map (older (delay_of t)) s.returning; admitted = pick (opens t s.slot) (replicate 32 0) s.admitted; last = s.last; allowance = s.allowance; slot = s.slot + 1; channel = Rattle.model.specs.declared.Channel.TheVariants.Write }"),
}


def table():
    words = {}
    with open(os.path.join(HERE, "renames.tsv"), encoding="utf-8") as f:
        for line in f:
            parts = line.rstrip("\n").split("\t")
            words[parts[0]] = (parts[1], set(parts[2].split()) if len(parts) > 2 else None)
    return words


WORDS = table()


def todays():
    """Returns the words of today's specs/ and proofs/, without their comments."""
    words = set()
    for part in ("specs", "proofs"):
        for path in glob.glob(f"crates/*/{part}/**/*.antt", recursive=True):
            words.update(WORD.findall(re.sub(r"--.*", "", read(path))))
    return words


def in_words(text, crate):
    def word(found):
        name = found[0]
        if name in LIBRARY:
            return LIBRARY[name]
        new = WORDS.get(name)
        if new is not None and (new[1] is None or crate in new[1]):
            return new[0]
        snake = re.sub(r"([a-z0-9])([A-Z])", lambda it: it[1] + "_" + it[2].lower(), name).replace("-", "_")
        return snake if name[0].islower() and name not in TODAY and snake in TODAY else name

    def part(text):
        text = re.sub(r"Rattle·([\w-]+)·specs\.specs\.", r"Rattle.\1.specs.", text)
        text = re.sub(r"Rattle·([\w-]+)\.", r"Rattle.\1.", text)
        return WORD.sub(word, text)

    # (what stands in quotes is text)
    return "".join(it if it.startswith('"') else part(it) for it in re.split(r'("(?:\\.|[^"\\])*"?)', text))


TOKEN = re.compile(r'\s+|"(?:\\.|[^"\\])*"?|[(){};]|[^\s(){};"]+')


def group(tokens, at):
    """Returns a bracket's tokens, projections turned, from the opening one at `at`, and the place behind it."""
    inner, at, level = [], at + 1, 0
    closing = {"(": ")", "{": "}"}
    start = at
    while at < len(tokens):
        if tokens[at] in "({":
            level += 1
        elif tokens[at] in ")}":
            if level == 0:
                break
            level -= 1
        at += 1
    opened = tokens[start - 1]
    body = projected(tokens[start:at])
    if at == len(tokens):
        return opened + body, at, False
    # brackets around a projection alone are no longer needed
    bare = opened == "(" and re.fullmatch(r"[\w']+(\.[\w']+)+|\([^()]*(\([^()]*\)[^()]*)*\)(\.[\w']+)+", body) and re.search(r"\s\.[\w']", "".join(tokens[start:at]))
    return (body if bare else opened + body + closing[opened]), at + 1, True


def projected(tokens):
    """Returns the text of tokens with projections written tight."""
    out, at = [], 0  # atoms, blanks and operators
    while at < len(tokens):
        token = tokens[at]
        if token in ("(", "{"):
            text, at, _ = group(tokens, at)
            out.append(("atom", text))
            continue
        at += 1
        if token.isspace():
            out.append(("blank", token))
        elif re.fullmatch(r"\.[\w']+", token) and len(out) > 1 and out[-1][0] == "blank":
            out.pop()
            first = len(out)
            while first > 0 and out[first - 1][0] in ("atom", "blank"):
                first -= 1
            while first < len(out) and out[first][0] == "blank":
                first += 1
            taken = out[first:]
            del out[first:]
            if len(taken) == 1:
                out.append(("atom", taken[0][1] + token))
            else:
                out.append(("atom", "(" + "".join(it[1] for it in taken) + ")" + token))
        elif token in OPERATORS or token in ")}" or token.endswith("."):
            out.append(("operator", token))
        else:
            out.append(("atom", token))
    return "".join(it[1] for it in out)


def turned(text, crate):
    """Returns a text of specs/ or proofs/ in today's spelling."""
    return projected(TOKEN.findall(in_words(text, crate)))


TODAY = set()


def landed(path):
    return subprocess.run(["git", "show", f"{LANDED}:{path}"], check=True, capture_output=True).stdout.decode()


def read(path):
    with open(path, encoding="utf-8", newline="") as f:
        return f.read()


def pairs_of(text):
    """Returns an edit's pairs: the file, the old and the new text."""
    path, old, pairs = None, None, []
    for line in text.split("\n"):
        if line.startswith("file: "):
            path = line[len("file: "):].strip()
        elif line.startswith("old: "):
            old = line[len("old: "):]
        elif line.startswith("new:"):
            pairs.append((path, old, line[len("new:"):].removeprefix(" ")))
            old = None
    return pairs


def turn(edit):
    """Returns an edit's text, turned, and how many of its pairs came from BY_HAND."""
    crate, name = edit.split(os.sep)[1], os.path.basename(edit)[:-len(".edit")]
    lines, path, pair, by_hand = [], None, 0, 0
    for line in landed(edit).split("\n"):
        if line.startswith("file: "):
            path = line[len("file: "):].strip()
        for number, mark in enumerate(("old:", "new:")):
            if line.startswith(mark):
                hand = BY_HAND.get((f"{crate}/{name}", pair))
                if hand is not None:
                    by_hand += number
                    line = mark + " " + hand[number]
                elif path.endswith(".antt"):
                    line = mark + " " + turned(line[len(mark) + 1:], crate)
                pair += number
                break
        lines.append(line)
    return "\n".join(lines), by_hand


def brackets_fit(text):
    text = re.sub(r'--.*|//.*|b?"(?:\\.|[^"\\])*"|b?\'(?:\\.|[^\'\\])\'', "", text)
    open_, closing = [], {")": "(", "]": "[", "}": "{"}
    for sign in text:
        if sign in "([{":
            open_.append(sign)
        elif sign in closing:
            if not open_ or open_.pop() != closing[sign]:
                return False
    return not open_


def checked(edit):
    """Returns what is wrong with an edit."""
    folder, texts, said = os.path.dirname(os.path.dirname(edit)), {}, []
    for path, old, new in pairs_of(read(edit)):
        if not os.path.isfile(f"{folder}/{path}"):
            return [f"there is no file {path}"]
        text = texts.setdefault(path, read(f"{folder}/{path}"))
        if text.count(old) != 1:
            return [f"an old text is in {path} {text.count(old)} times: {old}"]
        if old == new:
            said.append("a new text is the old one")
        texts[path] = text.replace(old, new)
    for path, text in texts.items():
        was = read(f"{folder}/{path}")
        if text == was:
            said.append("it changes nothing")
        if not brackets_fit(text) and brackets_fit(was):
            said.append(f"the brackets of {path} no longer fit")
        words = lambda it: set(re.findall(r"[A-Za-zφ_][\w']*", re.sub(r"--.*|//.*", "", it)))
        for word in sorted(words(text) - words(was)):
            said.append(f"{path} does not name {word}")
    return said


def at_landed(path):
    """Whether LANDED has the file: what came after it was written in today's spelling."""
    shown = subprocess.run(["git", "cat-file", "-e", f"{LANDED}:{path}"], stderr=subprocess.DEVNULL, check=False)
    return shown.returncode == 0


def main():
    edits = sorted(glob.glob("crates/*/must-fail/*.edit"))
    TODAY.update(todays())
    if sys.argv[1:] != ["--check"]:
        count = 0
        for edit in edits:
            if not at_landed(edit):
                continue
            text, by_hand = turn(edit)
            count += bool(by_hand)
            if text != read(edit):
                with open(edit, "w", encoding="utf-8", newline="") as f:
                    f.write(text)
        print(f"{len(edits)} edits, {count} of them by hand")
    bad = 0
    for edit in edits:
        for it in checked(edit):
            bad += 1
            print(f"{edit}: {it}")
    print(f"{bad} things to look at")


if __name__ == "__main__":
    main()
