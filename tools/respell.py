#!/usr/bin/env python3
"""Writes the repository's own definitions, lemmas, fields and constructors in snake case, types in camel case.

usage: python3 tools/respell.py [--list]     at the top of the repository, once, right after the kit's port.py

A name is the repository's own if a file of specs/ or proofs/ declares it. Names that Rattle makes (the goals of
proofs/F/, of type `goal.NAME`) and names of std keep their spelling. With --list nothing is written: the names are listed.
"""

import os
import re
import sys

NAME = r"[^\W\d_][\w'-]*"
DECLARED = re.compile(rf"^\s*(?:abbrev pub |pub abbrev |abbrev |unfoldable pub |pub unfoldable |unfoldable |pub )?(?:let )?({NAME}) :(?! goal\.)", re.M)
LET = re.compile(rf"\blet ({NAME}) [:=]")
GOAL = re.compile(rf"^\s*(?:abbrev pub |pub )?({NAME}) : goal\.", re.M)
USED = re.compile(r"^(?:ghost )?use Rattle\.std\.[\w.]+\.\{([^}]*)\}", re.M)


def texts(kinds):
    for folder, dirs, files in os.walk("crates"):
        dirs[:] = sorted(d for d in dirs if d != "out")
        for f in sorted(files):
            if f.endswith(kinds):
                yield os.path.join(folder, f)


def read(path):
    with open(path, encoding="utf-8") as f:
        return f.read()


def names():
    own, others = set(), set()
    for path in texts((".antt", ".rt")):
        text = read(path)
        for listed in USED.findall(text):
            others |= {w.split(" as ")[0].strip() for w in listed.split(",")}
        if path.endswith(".antt"):
            others |= set(GOAL.findall(text))
            own |= set(DECLARED.findall(text)) | set(LET.findall(text))
    return {n for n in own - others if "-" in n}


def respelled(name):
    if name[0].isupper():
        return "".join(w[0].upper() + w[1:] for w in name.split("-"))
    return name.replace("-", "_")


def main():
    found = {n: respelled(n) for n in names()}
    if "--list" in sys.argv:
        print("\n".join(f"{a} {b}" for a, b in sorted(found.items())))
        return
    each = re.compile(r"(?<![\w'◌-])(" + "|".join(sorted(map(re.escape, found), key=len, reverse=True)) + r")(?![\w'◌-])")
    for path in texts((".antt", ".rt", ".edit")):
        old = read(path)
        new = each.sub(lambda m: found[m.group(1)], old)
        if new != old:
            with open(path, "w", encoding="utf-8") as f:
                f.write(new)


main()
