#!/usr/bin/env python3
"""Respells this repository's own definitions and lemmas in snake case: `minus-turn` becomes `minus_turn`.

usage: python3 tools/respell.py [FOLDER]      once, at the top of a checkout, after the kit's port.py

A name is taken where a file of specs/ or proofs/ declares it with a hyphen in it, and it is no name of the kit's modules and no name
that the check makes (a goal, or what a goal's context offers). Functions of src/, strings and comments keep their words.
Where the new spelling is a ghost member of a trait already, `_lem` is put behind it. Names that fall together stop the
script, but for a function of src/, which has a module of its own.
"""
import os
import re
import sys

root = sys.argv[1] if len(sys.argv) > 1 else "."
SPLIT = r"[\s(){};,.\"«»]"
TOKEN = re.compile(r"(?:(?<=" + SPLIT + r")|^)([^\s(){};,.\"«»]*-[^\s(){};,.\"«»]+)(?=" + SPLIT + r"|$)", re.M)
DECLARED = re.compile(r"\s*(?:(?:unfoldable|abbrev|data|record|pub)\s+)*([^\s:(){}]+)(?:\s+[^:]*)?\s+:\s(.*)")
# several constructors or fields of one type
LISTED = re.compile(r"\s+(?:pub\s+)?((?:[A-Za-z][\w'-]*\s+){2,}):\s")

OWN = r"Rattle\.(" + "|".join(sorted(os.listdir(os.path.join(root, "crates")))) + r")\."


def files(*endings):
    for folder, dirs, names in os.walk(os.path.join(root, "crates")):
        dirs[:] = sorted(d for d in dirs if d != "out")
        for name in sorted(names):
            if name.endswith(endings):
                yield os.path.join(folder, name)


def read(path):
    with open(path, encoding="utf-8") as f:
        return f.read()


def code_of(line, path):
    """The line without its comment, and the comment."""
    mark = "--" if path.endswith(".antt") else "//"
    at = re.search(r"(?:^|\s)" + mark, line)
    return (line[: at.start()], line[at.start() :]) if at else (line, "")


declared, std, made, words, functions = {}, set(), set(), set(), set()
for path in files(".antt", ".rt"):
    text = read(path)
    for found in re.finditer(r"use ([^\s{]*)\.\{([^}]*)\}", text):
        if not re.match(OWN, found.group(1)):
            std |= {n.strip().split(" as ")[0] for n in found.group(2).split(",")}
    if path.endswith(".rt"):
        functions |= set(re.split(r"\W", text))
    made |= set(re.findall(r"\b(?:goal|c)\.([^\s(){};,.]+)", text))
    for line in text.split("\n"):
        code = code_of(line, path)[0]
        words |= set(re.split(SPLIT, code))
        found = DECLARED.match(code) if path.endswith(".antt") else None
        if found and "-" in found.group(1).strip("-") and not found.group(2).startswith("goal."):
            declared.setdefault(found.group(1), path)
        several = LISTED.match(code) if path.endswith(".antt") else None
        for name in several.group(1).split() if several else []:
            if "-" in name.strip("-"):
                declared.setdefault(name, path)

# two names that the check made too, of functions of src/, take that function's spelling
MEMBERS = {"sweeps_small"}
FORCED = {"half-turn": "half_turn", "length-of": "length_of"}
table = {name: new for name, new in FORCED.items() if name in declared}
for name, path in sorted(declared.items()):
    if name in FORCED or name in std or name in made or name.startswith(("invariant-", "decreases-", "returns-", "ghost-")):
        continue
    new = name.replace("-", "_")
    if new in MEMBERS:
        new += "_lem"
    if new in table.values() or (new in words and new not in functions):
        sys.exit(f"respell: {name} ({path}) falls together with another name as {new}")
    table[name] = new

count = 0
for path in files(".antt", ".rt", ".edit"):
    old = read(path)
    lines = []
    all_renamed = "AllByRecursion as All" in old
    for line in old.split("\n"):
        code, comment = code_of(line, path)
        code = TOKEN.sub(lambda m: table.get(m.group(1), m.group(1)), code)
        if all_renamed:
            # port.py gave the list's All, by recursion, the name of today's All, by index
            code = code.replace("AllByRecursion as All", "AllByRecursion")
            code = re.sub(r"(?<![\w.'-])All(?![\w'-])", "AllByRecursion", code)
        lines.append(code + comment)
    new = "\n".join(lines)
    if new != old:
        count += 1
        with open(path, "w", encoding="utf-8") as f:
            f.write(new)
for name in sorted(n for n in declared if n not in table):
    print(f"kept: {name} ({os.path.relpath(declared[name], root)})")
print(f"respell: {len(table)} names in {count} files")
print("with _lem: " + ", ".join(n for n in sorted(table) if table[n].endswith("_lem")))
