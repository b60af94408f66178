#!/usr/bin/env python3
"""Respells the names that the check makes (goals, and what a goal's context offers) in the answer files of proofs/.

usage: python3 tools/respell_goals.py [FOLDER]      at the top of a checkout, after the kit's port.py and tools/respell.py

`goal.overflow-add-x` becomes `goal.overflow_add-x`, `c.in-ok-x.was` becomes `c.in_ok-x.was`, and a name of src/ in such a
name keeps its underscores: `c.digit-run-n` becomes `c.digit_run-n`.
"""
import os
import re
import sys

root = sys.argv[1] if len(sys.argv) > 1 else "."
KIT = "as_slice as_mut_slice from_slice copy_from_slice wrapping_mul wrapping_add wrapping_sub wrapping_neg unsigned_abs is_empty as_bytes split_first split_last checked_add checked_sub is_none is_some from_residual unwrap_or as_str to_vec".split()
WORDS = [
    (r"\boverflow-(add|sub|mul|shl|shr|cast|step|neg|div|rem)\b", r"overflow_\1"),
    (r"\bnonzero-(div|rem)\b", r"nonzero_\1"),
    (r"\b(slice|offset)-bounds\b", r"\1_bounds"),
    (r"(?<![\w-])in-(ok|err|default)(?![\w])", r"in_\1"),
    (r"-in-(ok|err|default)(?![\w])", r"-in_\1"),
    (r"\btype-inv\b", "type_inv"),
    (r"\binvariant-of\b", "invariant_of"),
    (r"\byielded-by\b", "yielded_by"),
]


def read(path):
    with open(path, encoding="utf-8") as f:
        return f.read()


count = 0
for crate in sorted(os.listdir(os.path.join(root, "crates"))):
    src = os.path.join(root, "crates", crate, "src")
    names = set(KIT)
    for folder, _, files in os.walk(src):
        for name in files:
            if name.endswith(".rt"):
                names |= {n for n in re.findall(r"[A-Za-z][A-Za-z0-9]*(?:_[A-Za-z0-9]+)+", read(os.path.join(folder, name)))}
    named = sorted((n for n in names if n.islower() or n.isupper()), key=lambda n: (-len(n), n))
    turns = [(re.compile(r"(?<![\w-])" + re.escape(n.replace("_", "-")) + r"(?![\w])|(?<=-)" + re.escape(n.replace("_", "-")) + r"(?![\w])"), n) for n in named]

    def turned(name):
        for pattern, new in WORDS:
            name = re.sub(pattern, new, name)
        for pattern, new in turns:
            name = pattern.sub(new, name)
        return name

    proofs = os.path.join(root, "crates", crate, "proofs")
    for folder, dirs, files in os.walk(proofs):
        if folder == proofs:
            continue
        for name in sorted(files):
            if not name.endswith(".antt"):
                continue
            path = os.path.join(folder, name)
            old = read(path)
            lines = []
            goals = set(re.findall(r"\bgoal\.([^\s(){};,.]+)", old))
            for line in old.split("\n"):
                if re.match(r"use .*(Goals|Given)\.\{", line):
                    goals |= {n.strip() for n in re.search(r"\{(.*)\}", line).group(1).split(",")}
                    line = re.sub(r"\{(.*)\}", lambda m: "{" + turned(m.group(1)) + "}", line)
                elif not line.startswith("use "):
                    line = re.sub(r"(?<=[\w'])\.([^\s(){};,.]*-[^\s(){};,.]*)", lambda m: "." + turned(m.group(1)), line)
                lines.append(line)
            new = "\n".join(lines)
            for goal in sorted(goals):
                if turned(goal) != goal:
                    new = re.sub(r"(?<![^\s(){};,])" + re.escape(goal) + r"(?![^\s(){};,.])", turned(goal), new)
            if new != old:
                count += 1
                with open(path, "w", encoding="utf-8") as f:
                    f.write(new)
print(f"respell_goals: {count} files")
