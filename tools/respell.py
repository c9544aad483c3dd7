#!/usr/bin/env python3
"""Respells the repository's own definitions and lemmas in snake case, after the toolchain's own script has run.

usage: python3 tools/respell.py [--list]      at the top of the repository, once

A name that specs/ or proofs/ declares and that begins with a small letter and has a capital inside becomes snake case:
`wordsAt` is `words_at`, `getD-within` is `get_or-within`. Types, records and facts begin with a capital and stay, and so does
every name of src/. Texts of must-fail edits are respelled too. --list prints each name, old and new, and changes nothing.
"""

import os
import re
import sys

NAME = re.compile(r"(?<![\w'·-])[a-z][\w'-]*", re.UNICODE)
DECLARED = re.compile(r"^ *(?:unfoldable |abbrev )?(?:pub )?([a-z][^\s:(){},;.=]*)(?: [^\n=]*?)? : ", re.M)
CAPITAL = re.compile(r"(?<=[a-z0-9])([A-Z])")


def spelled(name):
    """The name in snake case; a part that is a fact or a type, behind a dash, keeps its capital."""
    parts = name.split("-")
    return "-".join(CAPITAL.sub(lambda m: "_" + m[1].lower(), "get_or" if p == "getD" else p) for p in parts)


def files(ends):
    for folder, dirs, names in os.walk("crates"):
        dirs[:] = sorted(d for d in dirs if d != "out")
        for name in sorted(names):
            if name.endswith(ends):
                yield os.path.join(folder, name)


def read(path):
    with open(path, encoding="utf-8") as f:
        return f.read()


def renames():
    declared = set()
    for path in files((".antt",)):
        declared.update(DECLARED.findall(read(path)))
    return {n: spelled(n) for n in sorted(declared) if spelled(n) != n}


def main():
    names = renames()
    if "--list" in sys.argv:
        for old, new in names.items():
            print(old, new)
        return
    for path in files((".antt", ".rt", ".edit")):
        text = read(path)
        new = NAME.sub(lambda m: names.get(m[0], m[0]), text)
        if new != text:
            with open(path, "w", encoding="utf-8") as f:
                f.write(new)


main()
