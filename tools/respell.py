#!/usr/bin/env python3
"""Brings the repository's own names to today's spelling: definitions, lemmas, fields and constructors in snake case.

usage: python3 tools/respell.py [--check]      at the top of the repository, after /opt/rattle/port/port.py

A name is turned where an .antt file of specs/ or proofs/ of this repository declares it. Words of code (src/) keep their names, and so do
types, modules and constructors in upper camel case. A dash is kept where it joins two names of functions that specs/ define.
It goes over crates/, wrong/, must-fail edits, README.md, docs/ and model/README.md. --check only prints what it would turn and what falls together.
"""
import os
import re
import sys

ROOT = os.path.dirname(os.path.dirname(os.path.realpath(__file__)))
SKIP = {"out", ".git"}
WORD = re.compile(r"[^\s(){}\[\].,;«»`\"]+")
HEAD = re.compile(r"^\s*(?:(?:abbrev|unfoldable|pub|mutual|infix\w* \d+)\s+)*((?:[^\s:(){}=\[\]]+\s+)+)(?:\{[^}]*\}\s*)*:\s")
KEYWORDS = {"let", "in", "use", "module", "where", "elim", "open", "record", "data", "--", "unfolding", "ruleset", "mod", "deriving", "|", "→", "λ", "∙"}
# names that would fall together with another one, or with a word of the library
BY_HAND = {}


def files(*tops):
    for top in tops:
        p = os.path.join(ROOT, top)
        if os.path.isfile(p):
            yield p
        for folder, dirs, names in os.walk(p):
            dirs[:] = sorted(d for d in dirs if d not in SKIP)
            for n in sorted(names):
                yield os.path.join(folder, n)


def read(p):
    with open(p, encoding="utf-8") as f:
        return f.read()


def declared(text):
    for line in text.split("\n"):
        m = HEAD.match(line)
        if m:
            words = m.group(1).split()
            if not (set(words) & KEYWORDS):
                yield from words


def snake(word):
    word = re.sub(r"([a-z0-9])([A-Z])(?=[a-z0-9'])", lambda m: m.group(1) + "_" + m.group(2).lower(), word)
    word = re.sub(r"([a-z0-9])([A-Z])$", lambda m: m.group(1) + "_" + m.group(2).lower(), word)
    return word


def turned(name, functions):
    if name in BY_HAND:
        return BY_HAND[name]
    parts = [p.lower() if len(p) > 1 and p.isupper() else p for p in name.split("-")]
    if not all(parts):
        return name
    spelled = []
    for i, p in enumerate(parts):
        spelled.append(p if p[0].isupper() else snake(p))
    out = spelled[0]
    for a, b, c in zip(spelled[1:], parts, parts[1:]):
        both = b[0].isupper() or c[0].isupper() or len(parts) == 2 and b in functions and c in functions
        out += ("-" if both else "_") + a
    return out


def main():
    check = "--check" in sys.argv
    antt = [p for p in files("crates") if p.endswith(".antt")]
    texts = {p: read(p) for p in antt}
    functions, names = set(), set()
    for p, t in texts.items():
        d = set(declared(t))
        parts = p.split(os.sep)
        where = parts[parts.index("crates") + 2]
        # the names of a function's goals are Rattle's own
        inner = where == "proofs" and len(parts) - parts.index("crates") > 4
        if where == "specs":
            functions |= d
        if not inner:
            names |= d
    table, lemmas = {}, {}
    for n in sorted(names):
        if n[0].isupper() and "-" not in n:
            continue
        t = turned(n, functions)
        if t != n:
            table[n] = t
    back = {}
    for n, t in table.items():
        back.setdefault(t, []).append(n)
    for t, ns in sorted(back.items()):
        dashed, camel = [n for n in ns if "-" in n], [n for n in ns if "-" not in n]
        taken = t in names
        if len(ns) + taken < 2:
            continue
        if len(dashed) == 1 and (camel or taken):
            table[dashed[0]] = t + "_lem"
        elif taken and camel and not dashed and t not in functions:
            lemmas[t] = t + "_lem"
        else:
            print("by hand:", ns, "->", t, "taken" if taken else "")
        print("a lemma with its function's name:", dashed or t, "->", t + "_lem")
    everywhere = {}
    for p, t in texts.items():
        for w in set(WORD.findall(t)):
            everywhere.setdefault(w, set()).add(p)
    clash = 0
    for n, t in table.items():
        both = everywhere.get(t, set()) & everywhere.get(n, set())
        if both and t not in lemmas:
            clash += 1
            print("already there:", n, "->", t, "in", sorted(os.path.relpath(p, ROOT) for p in both)[:3])
    print(f"{len(table)} names, {clash} clashes")
    if check:
        for n, t in sorted(table.items()):
            print("   ", n, "->", t)
        return
    count = 0
    for p in files("crates", "wrong", "README.md", "docs", "model/README.md"):
        if not p.endswith((".antt", ".rt", ".edit", ".md", "run")):
            continue
        old = read(p)

        def word(m):
            w = m.group(0)
            if w in table:
                return table[w]
            # a lemma that has its function's name now; a field of that name is Rattle's
            if w in lemmas and p.endswith((".antt", ".edit")) and not old[: m.start()].endswith("."):
                return lemmas[w]
            return w

        new = WORD.sub(word, old)
        if new != old:
            count += 1
            with open(p, "w", encoding="utf-8") as f:
                f.write(new)
    print(count, "files changed")


main()
