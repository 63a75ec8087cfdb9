#!/usr/bin/env python3
"""Counts in crates/*/src the places of the older forms that docs/DESIGN-PASS.md speaks of.

usage: python3 tools/count_points.py [POINT]   at the top of the repository; POINT is 1 to 7, or all of them without one

What it finds is a list to be read, a line for each place with its file: a program cannot tell whether a place has to change.
"""

import collections
import glob
import re
import sys

FILES = sorted(glob.glob("crates/*/src/**/*.rt", recursive=True))
TEXT = {f: open(f).read() for f in FILES}


def functions():
    """(file, line, name, parameters, clauses, body) of each function."""
    for f in FILES:
        s = TEXT[f]
        for m in re.finditer(r"^[ \t]*(?:pub(?:\(crate\))? )?(?:extern \"C\" )?fn (\w+)[^(\n]*\(", s, re.M):
            i = m.end()
            depth = 1
            while depth:
                depth += {"(": 1, ")": -1}.get(s[i], 0)
                i += 1
            brace = re.compile(r"^[ \t]*\{\s*$|\) *(?:-> [^\n{]*)?\{\s*$|\{\s*\}\s*$", re.M).search(s, i - 1)
            if not brace:
                continue
            j = s.index("{", brace.start())
            end = re.compile(r"^" + re.match(r"[ \t]*", m.group(0)).group(0) + r"\}", re.M).search(s, j)
            body = s[j : end.end() if end else j]
            yield f, s.count("\n", 0, m.start()) + 1, m.group(1), s[m.end() : i - 1], s[i:j], body


FUNCTIONS = list(functions())


def show(title, places):
    print(f"{title}: {len(places)}")
    for p in places:
        print("   ", p)


def point_1():
    enums = []
    for f in FILES:
        for m in re.finditer(r"^(?:pub )?enum (\w+)[^{]*\{(.*?)^\}", TEXT[f], re.M | re.S):
            variants = re.findall(r"^    (\w+)(\([^)]*\))?", m.group(2), re.M)
            empty = [v for v, x in variants if not x]
            held = [v for v, x in variants if x]
            # an Option or a Result: at most two cases hold something, and one of them does
            if held and len(variants) <= 5:
                enums.append(f"{f}: {m.group(1)} {{ {', '.join(v + (x or '') for v, x in variants)} }}")
    show("enums of which a case holds something", enums)
    answers = []
    for f in FILES:
        for m in re.finditer(r"^pub struct (\w+)[^{;]*\{(.*?)^\}", TEXT[f], re.M | re.S):
            fields = re.findall(r"(?:pub )?(\w+): (\w+)", m.group(2))
            if any(n in ("answer", "number", "kind", "done") for n, _ in fields):
                answers.append(f"{f}: {m.group(1)} {{ {', '.join(n + ': ' + t for n, t in fields)} }}")
    show("structs with an answer, a number or a kind beside a value", answers)
    numbers = []
    for f in FILES:
        for n, line in enumerate(TEXT[f].split("\n"), 1):
            if re.search(r"return (255|8|512|EMPTY);|=> (255|EMPTY),|== 255\b|: (255|IDLE),", line):
                numbers.append(f"{f}:{n}: {line.strip()}")
    show("numbers that stand for no value", numbers)


def shape(body):
    words = re.findall(r"[A-Za-z_]\w*|\d+|\S", re.sub(r"//[^\n]*", "", body))
    keep = {"let", "mut", "if", "else", "while", "for", "in", "return", "match", "as", "fn", "loop", "break"}
    return " ".join(w if w in keep or not re.match(r"\w", w) else "#" for w in words)


def point_2():
    groups = collections.defaultdict(list)
    for f, n, name, _, _, body in FUNCTIONS:
        if body.count("\n") >= 4:
            groups[shape(body)].append(f"{f}:{n}: {name}")
    twins = [g for g in groups.values() if len(g) > 1]
    print(f"groups of functions whose bodies differ in words alone: {len(twins)}")
    for g in twins:
        print("   ", " | ".join(g))
    types = collections.defaultdict(list)
    for f in FILES:
        for m in re.finditer(r"^(?:pub )?(?:enum|struct) (\w+)", TEXT[f], re.M):
            types[m.group(1)].append(f)
    same = [f"{k}: {' | '.join(v)}" for k, v in types.items() if len(v) > 1]
    show("names that several types have", same)


def point_3():
    counted, other = [], []
    for f in FILES:
        s = TEXT[f]
        for m in re.finditer(r"^([ \t]*)while (.*?)\{\n(.*?)^\1\}", s, re.M | re.S):
            n = s.count("\n", 0, m.start()) + 1
            names = re.findall(r"\b[a-z_]\w*\b", m.group(2))
            place = f"{f}:{n}: while {' '.join(m.group(2).split())}"
            if any(re.search(r"\b" + v + r" [+-]= 1;", m.group(3)) for v in names):
                counted.append(place)
            else:
                other.append(place)
    show("loops that count an index", counted)
    show("other loops with while", other)


def point_4():
    found = []
    for f, n, name, parameters, _, body in FUNCTIONS:
        inner = " ".join(body.split())
        if re.fullmatch(r"\{ (?:\w+ as \w+|if (\w+) <=? (\w+)(?: as \w+)? \{ .*|if (\w+) == 0 \{ return 0; \} \3 - 1) \}", inner) or re.search(
            r"^\{ if (\w+) (?:<|<=) (\w+)(?: as \w+)? \{ return [^;]*; \} [^;]* \}$", inner
        ):
            found.append(f"{f}:{n}: {name}")
        elif re.search(r"^\{ match \w+ \{ (?:[\w:]+(?:\([^)]*\))? => (?:true|false|\d+|\w+ == \w+), ?)+\} \}$", inner):
            found.append(f"{f}:{n}: {name}")
        elif name in ("same_bytes", "place", "number", "channel_of", "is_size"):
            found.append(f"{f}:{n}: {name}")
    show("functions that a derive or a method of the library may say", found)


def point_5():
    pairs = collections.defaultdict(set)
    for f, n, name, parameters, _, _ in FUNCTIONS:
        flat = re.sub(r"\([^()]*\)", "", parameters)
        names = re.findall(r"(\w+): ", flat)
        for i, a in enumerate(names):
            for b in names[i + 1 :]:
                pairs[a, b].add(f"{f}:{n}: {name}")
    together = sorted(((len(v), k) for k, v in pairs.items() if len(v) >= 8), reverse=True)
    print(f"pairs of parameters that eight functions or more share: {len(together)}")
    for k, p in together:
        print("   ", k, p)
    facts = collections.Counter()
    for _, _, _, _, clauses, _ in FUNCTIONS:
        for m in re.finditer(r"requires (?:\w+ )?\{ (.*?) \}\n", clauses):
            for fact in re.findall(r"\(([^()]*(?:\([^()]*\)[^()]*)*)\)|^([^()×]+)$", m.group(1)):
                facts[(fact[0] or fact[1]).strip()] += 1
    often = [(c, k) for k, c in facts.most_common() if c >= 3]
    show("facts that three requires or more have", often)


def point_6():
    found = []
    for f in FILES:
        for n, line in enumerate(TEXT[f].split("\n"), 1):
            if re.search(r"&mut \[\w+; (96|120|45|246)\]|&\[\w+; (96|120|45|246)\]|\[usize; 16384\]", line):
                found.append(f"{f}:{n}: {line.strip()}")
    show("lines that pass an array of parts", found)
    puts = [f"{f}:{n}: {name}" for f, n, name, p, _, _ in FUNCTIONS if re.search(r"out: &mut \[u8[^,]*, *\s*at: usize", p)]
    show("functions that take a buffer and a place in it", puts)


def point_7():
    found = []
    for f, n, name, _, _, body in FUNCTIONS:
        if re.search(r"match (?:step|p|program|turn|wrong|k|i|n) \{", body) or len(re.findall(r"if \w+ == \d+ \{\s+return", body)) >= 3:
            found.append(f"{f}:{n}: {name}")
    show("switches on a number or a program", found)


def main():
    asked = sys.argv[1:] or ["1", "2", "3", "4", "5", "6", "7"]
    for p in asked:
        print(f"== point {p}")
        globals()[f"point_{p}"]()


if __name__ == "__main__":
    main()
