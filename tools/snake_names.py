#!/usr/bin/env python3
"""Turns the repository's own names of definitions, lemmas, fields and constructors from lowerCamel to snake case.

usage: python3 tools/snake_names.py            at the top of the repository, once, after port.py
       python3 tools/snake_names.py --list     print the names and what they become, and change nothing

A name is turned where it stands in a .rt, .antt or .edit file below crates/ and in the pages, and only if a file of specs/ or proofs/ or a
clause has it. Types and modules (UpperCamel), functions of src/ and exported names (snake case already) and strings keep theirs. It stops where
two names would fall together.
"""

import os
import re
import sys

NAME = re.compile(r"[A-Za-z_\u03b1-\u03c9\u2115][\w'\u2080-\u2089\u2032\u2115\u2124-]*")
CAMEL = re.compile(r"[a-z][a-z0-9]*(?:[A-Z][a-z0-9]*)+[0-9]*")
PAGES = ["README.md", "CHANGELOG.md", "docs"]


def snake(part):
    return re.sub(r"(?<=[a-z0-9])([A-Z])", lambda m: "_" + m.group(1).lower(), part)


def turned(word):
    """Each part between dashes that is lowerCamel, in snake case; the digits of a number such as 0xFF and std's old getD are none."""
    if re.fullmatch(r"x[0-9A-FRGB]+", word):
        return word
    word = word.replace("getD-", "get_or-")
    return "-".join(snake(p) if CAMEL.fullmatch(p.strip("'_\u2032")) else p for p in word.split("-"))


def files(ends, *roots):
    for root in roots:
        if os.path.isfile(root):
            yield root
        for folder, dirs, names in os.walk(root):
            dirs[:] = sorted(d for d in dirs if d != "out")
            for n in sorted(names):
                if n.endswith(ends):
                    yield os.path.join(folder, n)


def words(path):
    with open(path, encoding="utf-8") as f:
        return NAME.findall(f.read())


def strings_apart(text):
    """The text in pieces, every second one a string literal."""
    return re.split(r"(\"(?:[^\"\\\n]|\\.)*\")", text)


def main():
    have, new = set(), {}
    for path in files((".rt", ".antt"), "crates"):
        have.update(words(path))
    for w in have:
        t = turned(w)
        if t != w:
            new[w] = t
    clash = sorted((w, t) for w, t in new.items() if t in have)
    several = {}
    for w, t in new.items():
        several.setdefault(t, []).append(w)
    clash += [(t, ws) for t, ws in sorted(several.items()) if len(ws) > 1]
    if "--list" in sys.argv:
        for w in sorted(new):
            print(w, new[w])
    for c in clash:
        print("names that fall together:", *c, file=sys.stderr)
    if "--list" in sys.argv:
        return
    for path in files((".rt", ".antt", ".edit", ".md"), "crates", *PAGES):
        with open(path, encoding="utf-8") as f:
            old = f.read()
        pieces = strings_apart(old) if path.endswith(".rt") else [old]
        text = "".join(p if k % 2 else NAME.sub(lambda m: new.get(m.group(), m.group()), p) for k, p in enumerate(pieces))
        if text != old:
            with open(path, "w", encoding="utf-8") as f:
                f.write(text)


main()
