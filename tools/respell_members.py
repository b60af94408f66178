#!/usr/bin/env python3
"""Names the ghost members of a type parameter in the clauses of generic functions by their type: `exact` becomes `R.exact`.

usage: python3 tools/respell_members.py [FOLDER]      at the top of a checkout, after the kit's port.py and the other two scripts
"""
import os
import re
import sys

root = sys.argv[1] if len(sys.argv) > 1 else "."
MEMBERS = {"exact": "R", "value": "R", "total": "R", "group": "G"}
# the crates whose functions have a bound R: Ring (and G: Group); elsewhere the bare name is an implementation's own
CRATES = ["chains", "edges", "outlines", "inflating", "book", "small_books", "ring_jobs", "job_check", "nodes", "placer"]


def turned(clause):
    for name, letter in MEMBERS.items():
        clause = re.sub(r"(?<![\w.«'-])" + name + r"(?![\w'-])", letter + "." + name, clause)
    return clause


for crate in CRATES:
    for folder, _, files in os.walk(os.path.join(root, "crates", crate, "src")):
        for name in sorted(f for f in files if f.endswith(".rt")):
            path = os.path.join(folder, name)
            with open(path, encoding="utf-8") as f:
                text = f.read()
            out, at = "", 0
            for found in re.finditer(r"^\s*(?:ensures|requires)\*?[^{\n]*\{", text, re.M):
                end, depth = found.end(), 1
                while depth:
                    depth += {"{": 1, "}": -1}.get(text[end], 0)
                    end += 1
                out += text[at : found.end()] + turned(text[found.end() : end])
                at = end
            out += text[at:]
            if out != text:
                with open(path, "w", encoding="utf-8") as f:
                    f.write(out)
                print(os.path.relpath(path, root))
