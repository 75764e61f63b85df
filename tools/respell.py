#!/usr/bin/env python3
"""Brings the repository's own antt names to today's spelling: words in snake case, a dash between two names, `_` before a plain word.

usage: python3 tools/respell.py [--show]    at the top of the repository, once, after port.py; --show prints the table and writes nothing

A name counts if a file of specs/ or proofs/ (but no walk of a function) declares it, and no file imports one of that spelling from the library.
"""

import os
import re
import sys

NAME = re.compile(r"[^\W\d][\w'₀-₉-]*")
DECLARED = re.compile(r"\s*((?:(?:pub|abbrev|unfoldable|record|data|ruleset)\s+)*)([^\W\d][\w'₀-₉-]*)\s*(?:\{[^}]*\}|\([^)]*\)|\s)*:(?!=)")
# names of the library that ours are made of
LIBRARY = set("length drop take set get_or map append add sub mul div le lt eq zero suc sum count replicate cond not and or min max true false cons nil concat reverse eqb".split())

# where two names would fall together: a lemma's becomes longer, or the other stands in a module that no file names beside ours
CHOSEN = {"isLost": "is_lost", "limitTotal": "limit_total", "limit_total": "limit_total_lem", "oneMore": "one_more", "secondAt": "second_at", "lengthPart": "length_part", "outsideArea": "outside_area", "rowsLeft": "rows_left_by", "takeAll": "take_every"}


def files(top, *ends):
    for folder, dirs, names in os.walk(os.path.join(top, "crates")):
        dirs[:] = sorted(d for d in dirs if d != "out")
        for n in sorted(names):
            if n.endswith(ends):
                yield os.path.join(folder, n)


def snake(word):
    word = word.replace("getD", "get_or")
    if not word[:1].islower():
        return word
    return re.sub(r"(?<=[a-z0-9_'])([A-Z])", lambda m: "_" + m.group(1).lower(), word)


def respelled(name, known):
    parts = [snake(p) for p in name.split("-")]
    if not all(parts):
        return name
    made = parts[0]
    for before, p in zip(parts, parts[1:]):
        made += ("-" if p in known and before in known else "_") + p
    return made


def table(top):
    declared, known, library, bound = set(), set(LIBRARY), set(), set()
    for path in files(top, ".antt", ".rt"):
        with open(path, encoding="utf-8") as f:
            text = f.read()
        if path.endswith(".rt"):
            # what a clause would read as a variable: a parameter, a field, a local, a module
            bound |= set(re.findall(r"\b(\w+)\s*:(?!:)", text)) | set(re.findall(r"\b(?:let|mut|for|mod|ghost|const|static)\s+(?:mut\s+)?(\w+)\b", text)) | {n.strip() for m in re.findall(r"\|([^|\n]*)\||\(([^()\n]*)\) (?:=>|=|in)", text) for n in ",".join(m).split(",")}
        else:
            bound |= set(re.findall(r"(?:let|λ|[({,])\s*([a-z]\w*_\w*)\s*(?=[:=.)}])", text))
        for m in re.finditer(r"use Rattle\.(std|core|io|libc|bytes)\b[^{;\n]*\{([^}]*)\}", text):
            library |= {n.strip().split(" as ")[0] for n in m.group(2).split(",")}
        if path.endswith(".rt") or path.endswith("Proof.antt"):
            continue
        for line in text.split("\n"):
            if line.strip().startswith(("--", "use ")):
                continue
            m = DECLARED.match(line)
            if m:
                declared.add(m.group(2))
                if ("abbrev" in m.group(1) or "unfoldable" in m.group(1)) and "-" not in m.group(2) and len(m.group(2)) > 1:
                    known.add(snake(m.group(2)))
    names, taken = {}, {n for n in declared if respelled(n, known) == n} | library | bound
    # definitions first: a lemma that would have its definition's name gets `_lem`
    for n in sorted(declared - library, key=lambda n: ("-" in n, n)):
        to = CHOSEN.get(n) or respelled(n, known)
        if to == n:
            continue
        if to in taken and n not in CHOSEN:
            was, to = to, to + ("_lem" if "-" in n else "_")
            print(f"falls together: {n} -> {was} ({'a variable' if was in bound else 'the library' if was in library else 'a name of ours'}), so {to}", file=sys.stderr)
        taken.add(to)
        names[n] = to
    return names


def main(argv):
    top = os.getcwd()
    names = table(top)
    if "--show" in argv:
        for n in sorted(names):
            print(n, names[n])
        return 0
    for path in files(top, ".antt", ".rt"):
        with open(path, encoding="utf-8") as f:
            text = f.read()
        # a comment and a text in quotes keep their words
        to = "".join(p if i % 2 else NAME.sub(lambda m: names.get(m.group(), m.group()), p) for i, p in enumerate(re.split(r'((?:--[^\n]*|//[^\n]*|"(?:[^"\\\n]|\\.)*"))', text)))
        if to != text:
            with open(path, "w", encoding="utf-8") as f:
                f.write(to)
    return 0


if __name__ == "__main__":
    raise SystemExit(main(sys.argv[1:]))
