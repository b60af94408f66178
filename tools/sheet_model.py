#!/usr/bin/env python3
"""A plain model of sheets: a job's tiles laid one by one, saved, and taken up again from a saved file.

    sheet_model.py list JOB          the cutting list of the whole job
    sheet_model.py run JOB SCRIPT    replays a script, one call a line, and prints each call's answer:
                                     descend, lay, aside, save FILE, resume FILE
    sheet_model.py judge JOB FILE    whether FILE is a lawful save of the job

A refusal is printed as `refused N P`, N its number and P its place; list and judge then end with status 1. Job texts
are taken to be well formed, and their books are not checked. A refused call leaves the sheet as it was.

An element of a ring is the tuple of its coefficients of 1, zeta, zeta^2, ..: two of them for n = 4, four for n = 10.
"""
import sys
from collections import namedtuple
from pathlib import Path

PLANE = 1_048_576                                   # the largest size of a coefficient on the plane
MOST = 4096                                         # the largest number of records
ASIDE, MIRRORED = 0x10, 0x20                        # in a record's first byte: set aside, laid mirrored
REDUCED = {2: (-1, 0), 4: (-1, 1, -1, 1)}           # zeta^d, by d

Placed = namedtuple("Placed", "tile turn mark place")
Tile = namedtuple("Tile", "outline children")       # an outline: pairs of a label and a direction


class Refused(Exception):
    """Its arguments are a number and a place."""


def need(condition, number, place=0):
    if not condition:
        raise Refused(number, place)


def plus(x, y):
    return tuple(a + b for a, b in zip(x, y))


def turned(z, k):
    """zeta^k * z"""
    for _ in range(k):
        z = plus((0, *z), (z[-1] * c for c in REDUCED[len(z)]))
    return z


def times(x, y):
    total = (0,) * len(y)
    for c in reversed(x):
        total = plus(turned(total, 1), (c * b for b in y))
    return total


def conjugate(z):
    if len(z) == 2:
        return (z[0], -z[1])
    a, b, c, d = z
    return (a + b, -b, b - d, -b - c)


def kept(z):
    """z itself, refused where it is off the plane."""
    need(max(map(abs, z)) <= PLANE, 8)
    return z


def image(base, turn, mark, z):
    """base + zeta^turn * z or, mirrored, base + zeta^turn * conj z; every value on the way stays on the plane."""
    z = kept(conjugate(z)) if mark else z
    return kept(plus(base, kept(turned(z, turn))))


class Job:
    """A job text's numbers. A node is named by its path: the seed's number, then the child numbers down from it."""

    def __init__(self, text):
        once, self.lengths, self.tiles, self.seeds = {}, [], [], []
        for letter, *words in map(str.split, text.splitlines()):
            numbers = tuple(map(int, words))
            if letter in "RID":
                once[letter] = numbers
            elif letter == "L":
                self.lengths.append(numbers[1:])
            elif letter == "T":
                self.tiles.append(Tile(list(zip(numbers[0::3], numbers[2::3])), []))
            elif letter in "CP":
                rows = self.tiles[-1].children if letter == "C" else self.seeds
                rows.append(Placed(*numbers[:3], numbers[3:]))
        (self.order,), self.factor, (self.depth,) = once["R"], once["I"], once["D"]

    def siblings(self, path):
        """The rows of a node and of those beside it: all seeds, or all children of its parent's tile."""
        rows = self.seeds
        for number in path[:-1]:
            rows = self.tiles[rows[number].tile].children
        return rows

    def child_under(self, parent, child):
        turn = parent.turn + (-child.turn if parent.mark else child.turn)
        base = kept(times(self.factor, parent.place))
        place = image(base, parent.turn, parent.mark, child.place)
        return Placed(child.tile, turn % self.order, child.mark ^ parent.mark, place)

    def keep_corners(self, placed):
        """Refuses where a value that the formulas make for a placed tile's own corners is off the plane."""
        corner = (0,) * len(self.factor)
        for label, direction in self.tiles[placed.tile].outline:
            corner = kept(plus(corner, kept(turned(self.lengths[label], direction))))
            image(placed.place, placed.turn, placed.mark, corner)

    def placement(self, path):
        """Where a node lies, refused off the plane. Of its ancestors only the places count, not the corners."""
        placed = self.seeds[path[0]]
        for number in path[1:]:
            placed = self.child_under(placed, self.tiles[placed.tile].children[number])
        self.keep_corners(placed)
        return placed


def record_bytes(descents, piece):
    """A record as it is saved: the descents before it, and the piece, None where it is set aside."""
    if piece is None:
        return bytes([descents | ASIDE])
    front = bytes([descents | (MIRRORED if piece.mark else 0), piece.turn])
    return front + b"".join(c.to_bytes(4, "big", signed=True) for c in piece.place)


class Sheet:
    """Records in the order of the nodes, and a cursor: the next node's path, empty where nothing is left."""

    def __init__(self, job, places=MOST):
        self.job, self.places = job, min(places, MOST)
        self.records, self.cursor, self.descents = [], (0,), 0      # descents: since the last record's advance

    def at_depth(self):
        return len(self.cursor) - 1 == self.job.depth

    def descend(self):
        need(self.cursor, 11)
        need(not self.at_depth(), 10)
        self.cursor += (0,)
        self.descents += 1

    def lay(self):
        need(self.cursor, 11)
        need(self.at_depth(), 10)
        need(len(self.records) < self.places, 9)
        self.record(self.job.placement(self.cursor))

    def set_aside(self):
        need(self.cursor, 11)
        need(len(self.records) < self.places, 9)
        self.record(None)

    def record(self, piece):
        """Records the cursor's node and advances: to the next node beside it, else on from its parent."""
        self.records.append((self.descents, piece))
        self.descents = 0
        path = self.cursor
        while path and path[-1] + 1 == len(self.job.siblings(path)):
            path = path[:-1]
        self.cursor = path[:-1] + (path[-1] + 1,) if path else ()

    def save(self):
        records = b"".join(record_bytes(*record) for record in self.records)
        return bytes([self.job.depth]) + len(self.records).to_bytes(2, "big") + records + bytes([self.descents])

    @classmethod
    def resume(cls, job, file, places=MOST):
        """The sheet that a file saves. The file is judged as though there were places enough, and then the places."""
        count = int.from_bytes(file[1:3], "big")
        need(len(file) >= 3 and file[0] == job.depth and count <= MOST, 12, 0)
        sheet, at = cls(job), 3
        for number in range(count + 1):
            at = sheet.judged(file, at, is_last=number == count)
        need(at == len(file), 12, at)
        need(count <= places, 9)
        sheet.places = min(places, MOST)
        return sheet

    def judged(self, file, at, is_last):
        """Judges the record, or the last byte, at an offset, and answers where it ends."""
        need(at < len(file), 12, at)
        try:
            written = self.spelled(file[at], is_last)
        except Refused:
            raise Refused(12, at) from None
        need(file.startswith(written, at), 12, at)
        return at + len(written)

    def spelled(self, byte, is_last):
        """Makes the calls that a record's first byte, or the last byte, spells; answers what is saved for them."""
        for _ in range(byte if is_last else byte & 0x0F):
            self.descend()
        if is_last:
            return bytes([self.descents])
        self.set_aside() if byte & ASIDE else self.lay()
        return record_bytes(*self.records[-1])

    def finish(self):
        """The pieces of a sheet with nothing left, None for each that was set aside."""
        need(not self.cursor, 14)
        return [piece for _, piece in self.records]

    def cutting_list(self):
        return "".join(" ".join(map(str, p[:3] + p.place)) + "\n" if p else "-\n" for p in self.finish())


def whole_list(job):
    sheet = Sheet(job)
    while sheet.cursor:
        sheet.lay() if sheet.at_depth() else sheet.descend()
    return sheet.cutting_list()


def run(job, script):
    sheet = Sheet(job)
    for name, *file in (line.split(" ", 1) for line in script.splitlines()):
        try:
            if name == "resume":
                sheet = Sheet.resume(job, Path(*file).read_bytes())
            elif name == "save":
                Path(*file).write_bytes(sheet.save())
            else:
                {"descend": sheet.descend, "lay": sheet.lay, "aside": sheet.set_aside}[name]()
            print("ok")
        except Refused as refused:
            print("refused", *refused.args)


def main(command, job_name, name=None):
    job = Job(Path(job_name).read_text())
    try:
        if command == "list":
            sys.stdout.write(whole_list(job))
        elif command == "run":
            run(job, Path(name).read_text())
        else:
            Sheet.resume(job, Path(name).read_bytes())
            print("lawful")
    except Refused as refused:
        print("refused", *refused.args)
        sys.exit(1)


if __name__ == "__main__":
    if {"list": 3, "run": 4, "judge": 4}.get("".join(sys.argv[1:2])) != len(sys.argv):
        sys.exit(__doc__)
    main(*sys.argv[1:])
