#!/usr/bin/env python3
"""Counts places of older forms in the sources, point by point: places.py [FOLDER] [--list].

FOLDER is a copy of the repository (by default the one that this script lies in). The points are those of docs/DESIGN-PASS.md,
which says of each line that is still found why it stays. A point's number counts lines that match one of its patterns.
"""
import glob
import os
import re
import sys

POINTS = [
    ("1 own Options and Results, numbers for kinds", [
        ("a number that means nothing", r"\(\) -> u8$"),
        ("a number or an empty list for 'none'", r"^    pub (order|rank): |\.order (!=|==) 0|(outline|factor)\.len\(\) (==|>) 0"),
        ("a let-else or an arm that refuses or hands on by hand", r"(let .*(Some|Ok|Err)\(.* else \{$)|((Some|None|Ok|Err)(\([a-z_]*\))? => (return )?(false|None|Err\(|Ok\((v|job)\)|job,))"),
        ("a number for a refusal or a kind", r"(->|Result<) ?(Option<u8>|i8)|match order"),
    ]),
    ("2 twins", [
        ("a type for each size or element", r"pub struct ((Gaussian|Tenfold)(Row|Sweep)|(Label|Tile|Placed|Placement)(<|\b))"),
        ("a function for each bound", r"fn (on_plane|has_height)\b"),
        ("a function for each kind of row, loop or test", r"fn (part|step|parts|steps|put_(numbers|parts|steps|labels|subdivisions|rows|tiles)|check_(lengths|subdivisions|outlines|children)|(misfit|misread)_fault)\b"),
        ("the same function in both rings", None),
        ("a text that stands twice", r"fn (chair|penrose)\(\)"),
    ]),
    ("3 loops and look-ups by a counted index", [
        ("a loop that counts", r"^ *(while |for .* in .*\.\.|for .*\.enumerate\(\))| \+= 1\b"),
        ("a look-up after a test of the length", r"\bif [a-z_.]+ (>=|<) [a-z_.]*\.len\(\)"),
    ]),
    ("4 equality, conversion, printing by hand", [
        ("equality", r"^impl PartialEq for|fn equal\b"),
        ("casts", r"\bas (u8|u16|u32|u64|usize|i8|i64)\b"),
        ("conversion and printing", r"fn (flag|index|below|copied|digits_value|element|ring_name|tell[a-z_]*|put_(byte|digits|number|index|mark|single|factor|label|part|step|placed))\b"),
    ]),
    ("5 what always goes together", [
        ("a buffer and the place in it", r"out: &mut \[u8\], at: usize"),
        ("an allocator and a book", None),
        ("a memo's soundness, written out", r"sound [a-z.]+lower × Right"),
    ]),
    ("6 buffers with a length, parallel lists", [
        ("places", r"\[0; MOST_BYTES\]|subdivisions: Vec<Vec<|path: \[u8|fn copy_front|out: &mut \[u8\]\)"),
    ]),
    ("7 switches on which step to run", [
        ("places", r"fn (check_(lengths|subdivisions|outlines|children)|add_line)\b"),
    ]),
]


def sources(folder):
    for path in sorted(glob.glob(os.path.join(folder, "crates", "*", "src", "**", "*.rt"), recursive=True)):
        yield os.path.relpath(path, folder), open(path, encoding="utf-8").read()


def in_both_rings(files):
    names = {}
    for path, text in files:
        crate = path.split(os.sep)[1]
        if crate in ("gaussian", "tenfold"):
            names[crate] = {m.group(1): (path, text[: m.start()].count("\n") + 1) for m in re.finditer(r"^ *fn ([a-z_]+)", text, re.M)}
    both = sorted(set(names.get("gaussian", {})) & set(names.get("tenfold", {})))
    return [(*names["tenfold"][n], "fn " + n) for n in both]


def with_heap_and_book(files):
    found = []
    for path, text in files:
        for m in re.finditer(r"fn ([a-z_]+)[^{]*?\(([^)]*)\)", text):
            if "heap: Global" in m.group(2) and "book: &Book<R>" in m.group(2):
                found.append((path, text[: m.start()].count("\n") + 1, "fn " + m.group(1)))
    return found


def main():
    words = [w for w in sys.argv[1:] if w != "--list"]
    folder = words[0] if words else os.path.join(os.path.dirname(os.path.abspath(__file__)), "..")
    files = list(sources(folder))
    for title, patterns in POINTS:
        total, lines = 0, []
        for name, pattern in patterns:
            if pattern is None:
                hits = in_both_rings(files) if name.startswith("the same") else with_heap_and_book(files)
            else:
                hits = [(p, i + 1, line.strip()) for p, text in files for i, line in enumerate(text.split("\n")) if re.search(pattern, line) and not line.strip().startswith("//")]
            total += len(hits)
            lines.append(f"    {len(hits):3} {name}")
            if "--list" in sys.argv:
                lines += [f"          {p}:{i}: {line}" for p, i, line in hits]
        print(f"{total:4}  {title}")
        print("\n".join(lines))
    proofs = glob.glob(os.path.join(folder, "crates", "*", "proofs", "**", "*.antt"), recursive=True)
    print(f"{sum(open(p, encoding='utf-8').read().count(chr(10)) for p in proofs):5} 8 lines of proofs, in {len(proofs)} files")


main()
