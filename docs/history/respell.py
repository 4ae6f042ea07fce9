#!/usr/bin/env python3
"""Spells the definitions and lemmas of this repository as the library spells its own.

usage: respell.py [--list] [FOLDER]     (FOLDER holds crates/; the repository of this script by default)

A definition, a lemma, a field or a constructor is in snake case (`row-told` becomes `row_told`), a type or a fact in upper
camel case (`Verdict-shares` becomes `VerdictShares`), and a prime is an apostrophe. The names are those that specs/ and proofs/
declare themselves; a goal that Rattle names, as `returns-in_ok`, stays, and so does each name of src/. It turns whole words: in
specs/ and proofs/ all of them, comments included; in src/ those of ghost imports, clauses and ghost members.
It stops, with nothing written, where two names would become one. A second run writes nothing. --list prints the names.
"""

import os
import re
import sys

WORD = r"[^\s(){}.;,@\"«»λ:]+"
DECLARED = re.compile(r"(?m)^ *(?:abbrev |unfoldable |opaque )*(?:pub )?(?:abbrev |unfoldable |opaque )?(?:data |record )?(" + WORD + r")(?: +[({][^:]*:[^\n]*[)}])* : (?!goal\.)")
GOAL = re.compile(r"(?m)^ *(?:abbrev )?(?:pub )?(" + WORD + r") : goal\.")
RENAMED = re.compile(r"(?<![^\s{,])(" + WORD + r") as (" + WORD + r")(?=[\s,}])")
GHOST_USE = re.compile(r"ghost\s+use\b[^;]*;")
CLAUSE = re.compile(r"(?:requires|ensures)\s*\*?\s*(?:\w+\s*)?\{|ghost\s*(?:\w+\s*(?::\s*(?:(?:owns|lends)\s*)?|=\s*))?\{|#\[tactic\(")


def new_name(name):
    name = name.replace("′", "'")
    if name[:1].isupper() and "-" in name:
        return "".join(p[:1].upper() + p[1:] for p in name.split("-"))
    return name.replace("-", "_")


def files(root):
    for folder, dirs, names in os.walk(os.path.join(root, "crates")):
        dirs[:] = sorted(d for d in dirs if d not in ("out", ".git"))
        for n in sorted(names):
            if n.endswith((".antt", ".rt")):
                yield os.path.join(folder, n)


def in_antt(path):
    return path.endswith(".antt")


def bodies(text):
    """The parts of a source file that are ghost: imports, and what stands between a clause's braces."""
    for m in GHOST_USE.finditer(text):
        yield m.start(), m.end()
    for m in CLAUSE.finditer(text):
        at, depth = m.end(), 1
        while at < len(text) and depth:
            depth += {"{": 1, "(": 1, "}": -1, ")": -1}.get(text[at], 0)
            at += 1
        yield m.start(), at


def main(argv):
    show = "--list" in argv
    argv = [a for a in argv if a != "--list"]
    root = argv[0] if argv else os.path.dirname(os.path.dirname(os.path.dirname(os.path.abspath(__file__))))
    texts = {p: open(p, encoding="utf-8").read() for p in files(root)}
    declared, goals = set(), set()
    for path, text in texts.items():
        if in_antt(path):
            goals |= set(GOAL.findall(text))
            declared |= set(DECLARED.findall(text))
        for a, b in RENAMED.findall(text):
            if in_antt(path) or "-" in b:
                declared.add(b)
    table = {n: new_name(n) for n in declared if new_name(n) != n and re.search(r"\w", n)}
    both = sorted(n for n in table if n in goals)
    meet = sorted((n, m) for n, m in table.items() if m in declared)
    seen = {}
    for n, m in sorted(table.items()):
        if m in seen:
            meet.append((n, seen[m]))
        seen[m] = n
    if show:
        for n, m in sorted(table.items()):
            print(n, m)
        print("also goals:", both)
        print("meet:", meet)
        return 0
    if meet or both:
        print("respell: names would fall together:", meet, both)
        return 1
    word = re.compile(r"(?<![\w'′-])(?:" + "|".join(sorted(map(re.escape, table), key=len, reverse=True)) + r")(?![\w'′-])") if table else None
    changed = 0
    for path, text in texts.items():
        if not word:
            break
        if in_antt(path):
            new = word.sub(lambda m: table[m.group()], text)
        else:
            new, at = "", 0
            for a, b in sorted(bodies(text)):
                if a < at:
                    continue
                new += text[at:a] + word.sub(lambda m: table[m.group()], text[a:b])
                at = b
            new += text[at:]
        if new != text:
            changed += 1
            open(path, "w", encoding="utf-8").write(new)
    print(f"respell: {len(table)} names, {changed} files")
    return 0


if __name__ == "__main__":
    sys.exit(main(sys.argv[1:]))
