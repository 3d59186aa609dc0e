#!/usr/bin/env python3
"""Clauses name the returned value `result`, so the definition of that name in figure_lines is `result_of`, and clauses that kept their λ lose it.

usage: python3 tools/respell_results.py      at the top of the repository, once, after tools/respell.py
"""
import os
import re

ROOT = os.path.dirname(os.path.dirname(os.path.realpath(__file__)))
IMPORTS = re.compile(r"(figure_lines\.specs\.Answers\.\{[^}]*?)\bresult\b([^}]*\})")
FREE = re.compile(r"(?<![\w.\-'])result(?![\w\-'])")
LAMBDA = re.compile(r"^(\s*)ensures\*( \w+)? \{ λ (\w+)\. ⌜ (.*) ⌝ \}$")
# what the upgrade called clauses that it could not read
LABELS = {"fact": "appended", "fact_2": "few_digits", "r_bound": "upper_bound", "c_value": "counts_value"}


def antt(path, text):
    if not (IMPORTS.search(text) or path.endswith("figure_lines/specs/Answers.antt")):
        return text
    return FREE.sub("result_of", text)


def rt(text):
    cites = IMPORTS.search(text)
    lines = []
    for line in IMPORTS.sub(r"\1result_of\2", text).split("\n"):
        m = LAMBDA.match(line)
        if m:
            space, label, var, body = m.groups()
            body = FREE.sub("result_of", body) if cites else body
            body = re.sub(rf"(?<![\w.\-'«]){var}(?![\w\-'])", "result", body)
            label = f" {LABELS.get(label.strip(), label.strip())}" if label else ""
            line = f"{space}ensures{label} {{ {body} }}"
        elif cites and line.lstrip().startswith("requires"):
            line = FREE.sub("result_of", line)
        lines.append(line)
    return "\n".join(lines)


for folder, dirs, names in os.walk(os.path.join(ROOT, "crates")):
    dirs[:] = [d for d in dirs if d != "out"]
    for n in names:
        path = os.path.join(folder, n)
        if n.endswith((".antt", ".rt")):
            with open(path, encoding="utf-8") as f:
                old = f.read()
            new = antt(path, old) if n.endswith(".antt") else rt(old)
            if new != old:
                with open(path, "w", encoding="utf-8") as f:
                    f.write(new)
                print(os.path.relpath(path, ROOT))
