#!/usr/bin/env python3
"""Writes cases that a host can call, in the form of docs/REPLAY.md, and the model's lines for them.

    tests/second/hosts.py FILE [--seed N]      fresh cases: all at the boundaries, and random ones among them
    tests/second/hosts.py FILE --recorded      those of crates/replay/stdin, with their lines of crates/replay/stdout

The cases go to FILE, the lines to FILE.expected. A host has an entry for rows 1 to 4, 7 and 9 to 12, for row 5 at 64
bits where both operands fit, and for row 6 at 64 bits. The seed comes from the clock and is printed; with it the same
cases come again.
"""
import argparse
import sys
import time
from pathlib import Path

import cases
import fresh
import model
import record
import rows

# How many random cases of each row; none of row 8, which no host can call.
RANDOM = (1500, 800, 800, 150, 1500, 800, 600, 0, 300, 800, 800, 400)


def for_hosts(case):
    """Whether a host has an entry for the case."""
    if isinstance(case, rows.Operation):
        return case.width == 64 and model.OVERFLOWED not in (case.left, case.right)
    if isinstance(case, rows.Signed):
        return case.width == 64
    return not isinstance(case, rows.Plain)


def some_of(dice, maker, count):
    """So many random cases of one row that a host has an entry for."""
    while count:
        case = maker(dice)
        if for_hosts(case):
            count -= 1
            yield case


def fresh_cases(dice):
    random_ones = [case for maker, count in zip(cases.SOME, RANDOM) for case in some_of(dice, maker, count)]
    return dice.shuffled([*random_ones, *filter(for_hosts, fresh.boundaries(dice))])


def recorded_cases():
    """Each recorded case for hosts, with its recorded line."""
    given, lines = (record.HERE / "stdin").read_bytes(), (record.HERE / "stdout").read_text().splitlines()
    some = record.recorded()
    if rows.encode(some) != given or len(some) != len(lines):
        sys.exit("hosts: crates/replay has other cases than tests/second/record.py writes")
    return zip(*((case, line) for case, line in zip(some, lines) if for_hosts(case)))


def main():
    parser = argparse.ArgumentParser(description="cases for the hosts' tests")
    parser.add_argument("file", type=Path)
    which = parser.add_mutually_exclusive_group()
    which.add_argument("--seed", type=int, default=time.time_ns() % 2**32)
    which.add_argument("--recorded", action="store_true")
    options = parser.parse_args()
    if options.recorded:
        some, lines = recorded_cases()
    else:
        some = fresh_cases(cases.Dice(options.seed))
        lines = rows.lines(some)
    options.file.write_bytes(rows.encode(some))
    options.file.with_name(options.file.name + ".expected").write_text("".join(line + "\n" for line in lines))
    origin = "recorded" if options.recorded else f"seed {options.seed}"
    print(f"hosts: {origin}, {len(some)} cases ({rows.counts(some)})")


if __name__ == "__main__":
    main()
