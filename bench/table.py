#!/usr/bin/env python3
"""Prints tables of the lines of bench.c, run once for each layout: the library beside plain C and Rust; rows beside single
entries, and records beside plain lists; beside an earlier library, where one was timed; and the forms of a product from halves
beside each other.

    table.py PROGRAM..

A function's time also hangs on where it lies in memory, by as much as a fifth: so each program has the same code laid out in
another order, and what counts is the middle over all of them.
"""
import statistics
import subprocess
import sys


SIDES = ("library", "C", "Rust", "before", "division", "joined", "added", "whole", "crossed", "columns", "single",
         "lists")
WANTED = ("C", "Rust", "single", "lists")


def measured(program):
    """The lines of one run: name, unit, nanoseconds of each side, and the ratios that are wanted."""
    lines = subprocess.run([program], check=True, capture_output=True, text=True).stdout.splitlines()
    return [line.split("|") for line in lines]


class Subject:
    """A subject's lines of all runs: the middle time of each side, 0 where it wasn't timed."""

    def __init__(self, rows):
        self.name, self.unit = rows[0][:2]
        times = zip(*((float(word) for word in row[2 : 2 + len(SIDES)]) for row in rows))
        self.times = dict(zip(SIDES, map(statistics.median, times)))
        self.wanted = dict(zip(WANTED, (float(word) for word in rows[0][2 + len(SIDES) :])))

    def line(self, sides):
        times = " ".join(f"{self.times[side]:9.2f}" if self.times[side] else f"{'-':>9}" for side in sides)
        return f"{self.name:20} {self.unit:6} {times}"

    def ratio(self, side):
        """The library's time divided by this side's, or None."""
        return round(self.times["library"] / self.times[side], 2) if self.times[side] else None

    def missed(self, sides=WANTED):
        """Whether a ratio that is wanted is missed."""
        return any(self.wanted[side] and self.ratio(side) > self.wanted[side] for side in sides)

    def column(self, side):
        """The column of a ratio, with what is wanted where anything is."""
        ratio, wanted = self.ratio(side), self.wanted.get(side)
        if ratio is None:
            return f"{'-':>6}{'':9}"
        return f"{ratio:6.2f} ({wanted:4.2f}) " if wanted else f"{ratio:6.2f}{'':9}"


def head(sides, rest=""):
    print(f"{'':20} {'ns per':6} {' '.join(f'{side:>9}' for side in sides)}{rest}")


def beside_plain(subjects):
    sides = ("library", "C", "Rust")
    head(sides, "   of C (wanted)   of Rust (wanted)")
    for subject in subjects:
        missed = " missed" if subject.missed(("C", "Rust")) else ""
        print(f"{subject.line(sides)}  {subject.column('C')} {subject.column('Rust')}{missed}".rstrip())


def rows(subjects):
    sides = ("library", "single", "lists")
    print()
    head(sides, "   of single       of lists")
    for subject in subjects:
        if subject.times["single"] or subject.times["lists"]:
            missed = " missed" if subject.missed(("single", "lists")) else ""
            print(f"{subject.line(sides)}  {subject.column('single')} {subject.column('lists')}{missed}".rstrip())


def beside_before(subjects):
    sides = ("library", "before", "division")
    print()
    head(sides, "   of before       of division")
    for subject in subjects:
        if subject.times["before"]:
            print(f"{subject.line(sides)}  {subject.column('before')} {subject.column('division')}".rstrip())


def forms(subjects):
    sides = SIDES[SIDES.index("joined") : SIDES.index("single")]
    print()
    head(sides)
    for subject in subjects:
        if subject.times["joined"]:
            print(subject.line(sides))


def main():
    runs = [measured(program) for program in sys.argv[1:]]
    subjects = [Subject(rows) for rows in zip(*runs)]
    beside_plain(subjects)
    rows(subjects)
    print(f"{len(runs)} layouts, {sum(subject.missed() for subject in subjects)} missed")
    if any(subject.times["before"] for subject in subjects):
        beside_before(subjects)
    forms(subjects)


if __name__ == "__main__":
    main()
