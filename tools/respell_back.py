#!/usr/bin/env python3
"""Gives words of the library back the spelling that tools/respell.py took, where a file imports them: they share a name with a lemma of this repository.

usage: python3 tools/respell_back.py OLD      OLD: a copy of the repository before tools/respell.py; at the top, once, after it
"""
import os
import re
import sys

ROOT = os.path.dirname(os.path.dirname(os.path.realpath(__file__)))
OLD = sys.argv[1]
OWN = set(os.listdir(os.path.join(ROOT, "crates")))
USE = re.compile(r"^(?:ghost )?use ([\w.\-+]+)\.\{([^}]*)\}", re.M)
WORD = re.compile(r"[^\s(){}\[\].,;«»`\"]+")


def foreign(text):
    for m in USE.finditer(text):
        path = m.group(1).split(".")
        if not (path[0] == "Rattle" and path[1] in OWN):
            yield path, [w.split(" as ")[0].strip() for w in m.group(2).split(",")]


for folder, dirs, names in os.walk(os.path.join(ROOT, "crates")):
    dirs[:] = [d for d in dirs if d != "out"]
    for n in names:
        path = os.path.join(folder, n)
        before = os.path.join(OLD, os.path.relpath(path, ROOT))
        if not n.endswith((".antt", ".rt")) or not os.path.isfile(before):
            continue
        old, new = open(before, encoding="utf-8").read(), open(path, encoding="utf-8").read()
        back = {}
        for (a, was), (b, now) in zip(sorted(foreign(old)), sorted(foreign(new))):
            if a == b and len(was) == len(now):
                back |= {y: x for x, y in zip(was, now) if x != y}
        if back:
            print(os.path.relpath(path, ROOT), back)
            new = WORD.sub(lambda m: back.get(m.group(0), m.group(0)), new)
            with open(path, "w", encoding="utf-8") as f:
                f.write(new)
