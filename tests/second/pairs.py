#!/usr/bin/env python3
"""Writes pairs of numbers and what each C entry gives for them, for the hosts' tests in tests/host.

    tests/second/pairs.py FILE [--seed N]

The first line is the count. Then a line for each pair: the entry (1 sum, 2 product, 3 quotient, 4 remainder, 5 power,
6 logarithm), left and right, the returned number, and the number and mark that are written, both 0 where nothing is.
Left, right and the number written have sixteen hexadecimal digits, the returned number two decimal ones.
"""
import argparse
import time
from pathlib import Path

import cases
import model
import rows

RANDOM = 6000


def pairs_of(dice, kind):
    """Pairs of edges, and random ones."""
    yield from (rows.Operation(64, kind, left, right) for left in cases.edges(64) for right in cases.edges(64))
    yield from (case for case in cases.product_edges() if case.kind == kind)
    for _ in range(RANDOM):
        yield cases.some_operation_of(dice, 64, kind, cases.some_number)


def line(case):
    code, value = model.operation(cases.MOST, case.kind, case.left, case.right)
    mark, number = rows.pair(value)
    return f"{case.kind} {case.left:016x} {case.right:016x} {code:02} {number:016x} {mark}\n"


def main():
    parser = argparse.ArgumentParser(description="pairs of numbers for the hosts' tests")
    parser.add_argument("file", type=Path)
    parser.add_argument("--seed", type=int, default=time.time_ns() % 2**32)
    options = parser.parse_args()
    dice = cases.Dice(options.seed)
    kinds = range(model.SUM, model.LOGARITHM + 1)
    lines = [line(case) for case in dice.shuffled([case for kind in kinds for case in pairs_of(dice, kind)])]
    options.file.write_text(f"{len(lines)}\n{''.join(lines)}")
    print(f"pairs: seed {options.seed}, {len(lines)} pairs")


if __name__ == "__main__":
    main()
