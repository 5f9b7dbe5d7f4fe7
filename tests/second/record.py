#!/usr/bin/env python3
"""Writes the recorded cases, crates/replay/stdin, and the model's lines for them, crates/replay/stdout.

With --check nothing is written: the two files must be what would be written. The same cases come each time.
"""
import sys
from functools import partial
from itertools import chain
from pathlib import Path

import cases
import model
import rows

HERE = Path(__file__).resolve().parents[2] / "crates" / "replay"
SEED = 20261115
# How many random cases of each of the first eight rows there are beside those at the boundaries.
RANDOM = (700, 300, 250, 60, 300, 150, 150, 40)
# A row that came later has dice of its own and stands behind, so that the cases before it stay as they are.
WRITE_SEED, RANDOM_WRITES = 20261116, 12
LEVEL_SEED, RANDOM_LEVEL_SCANS, RANDOM_TURNS = 20261117, 80, 60
ROW_SEED, RANDOM_ROWS = 20261118, 5
# The random recipes of the first row were made when an overflowed operand had no known answer, and are made so still.
FIRST_RUN = partial(cases.some_run, known=False)


def tables():
    """The tables of small runs, of signed numbers, of packing widths and of block checks, at the head of the list."""
    yield from chain.from_iterable(cases.every_allowance(8, words) for words in cases.SMALL_RUNS)
    for a, b in ((-7, 2), (7, -2), (-128, -1)):
        yield rows.Signed(8, 0, a, b)
        yield rows.Signed(8, 1, a, b)
    for wide in (0, 1, 255, 256):
        yield rows.Scan((0, wide), bytes(2))
    yield from cases.block_tables()


def few_edges(width):
    most = model.limit(width)
    return (0, 1, 2, most - 1, most)


def few_signed_edges(width):
    low = -(2 ** (width - 1))
    return (low, low + 1, -2, -1, 0, 1, 2, -low - 1)


def boundaries(dice):
    yield from cases.operation_edges(numbers=few_edges)
    yield from cases.every_signed_edge(few_signed_edges)
    yield from cases.fit_edges()
    yield from cases.plain_edges()
    yield from chain.from_iterable(cases.every_allowance(*rich) for rich in cases.RICH_RUNS)
    yield from cases.longest_runs()
    yield from cases.deep_hands()
    yield from cases.long_recipes()
    yield from cases.known_widths()
    yield from every(3, cases.shape_faults())
    yield from every(5, cases.range_edges())
    yield from every(3, cases.constant_fields())
    yield from every(3, cases.place_faults())
    yield from cases.field_lengths()
    yield from every(2, cases.longest_fields())
    yield from every(2, cases.block_damages(dice))
    yield from every(3, cases.block_counts())
    yield from cases.block_lengths()
    yield from every(2, cases.block_rooms())
    yield from every(2, cases.found_places(dice))
    yield from cases.bad_before_or_after(dice)
    yield from cases.run_lengths(dice)
    yield from cases.longest_searches(dice)


def every(n, things):
    """Each n-th of them, so that the files stay small (`rt try` takes lines of 1,048,576 bytes in all); the fresh cases
    have them all."""
    return list(things)[::n]


def writes(dice):
    yield from cases.written_tables()
    yield from every(2, cases.written_rooms())
    yield from every(6, cases.written_numbers())
    yield from every(3, cases.written_overflows())
    yield from every(3, cases.written_faults())
    yield from every(2, cases.written_lists())
    yield from every(6, cases.longest_writings())
    yield from (cases.some_write(dice) for _ in range(RANDOM_WRITES))


def levels(dice):
    yield from cases.single_readings()
    yield from every(2, cases.reading_pairs())
    yield from cases.zeros_in_a_row()
    yield from every(3, cases.level_place_faults())
    yield from every(5, cases.turn_place_faults())
    yield from every(7, cases.level_lists())
    yield from every(3, cases.turn_rooms())
    yield from every(8, cases.part_extents())
    yield from every(5, cases.part_faults())
    yield from cases.few_part_turns()
    yield from every(2, cases.plateaus())
    yield from every(4, cases.longest_levels())
    yield from (cases.some_level_scan(dice) for _ in range(RANDOM_LEVEL_SCANS))
    yield from (cases.some_turn(dice) for _ in range(RANDOM_TURNS))


def known():
    """What is known with an overflowed operand: with one step less than it takes, and with enough."""
    for words in cases.KNOWN_RUNS:
        recipe = cases.recipe(words)
        steps = cases.total_steps(8, *recipe)
        yield from (rows.Run(8, allowance, *recipe) for allowance in (steps - 1, steps))


def rows_of_operations(dice):
    """Few rows, and short ones, since there is little room left for their lines; the fresh cases have them all."""
    yield from every(50, cases.single_rows(few_edges))
    yield from cases.rows_of_one_kind(few_edges)
    yield cases.row_of(cases.TELLING)
    yield cases.every_kind()
    yield from every(23, cases.refused_places())
    for more in ((-1, 0, 0), (0, -1, 0), (0, 0, -1), (1, 2, 3)):
        yield cases.row_of(cases.mixed_operations(2), more)
    for counts in ((1, 2, 2), (2, 1, 2), (0, 0, 1), (0, 0, 0)):
        yield cases.row_with_counts(counts, (0, 1, 2))
    yield from (cases.some_row(dice, lambda some: some.between(1, 40)) for _ in range(RANDOM_ROWS))


def recorded():
    dice = cases.Dice(SEED)
    makers = (FIRST_RUN, *cases.SOME[1:])
    random_ones = [maker(dice) for maker, count in zip(makers, RANDOM) for _ in range(count)]
    first_rows = [*tables(), *boundaries(dice), *dice.shuffled(random_ones)]
    later_rows = [*writes(cases.Dice(WRITE_SEED)), *levels(cases.Dice(LEVEL_SEED)), *known()]
    return [*first_rows, *later_rows, *rows_of_operations(cases.Dice(ROW_SEED))]


def main():
    some = recorded()
    files = {
        HERE / "stdin": rows.encode(some),
        HERE / "stdout": ("\n".join(rows.lines(some)) + "\n").encode(),
    }
    if sys.argv[1:] == ["--check"]:
        wrong = [path.name for path, content in files.items() if not path.exists() or path.read_bytes() != content]
        if wrong:
            sys.exit(f"record: crates/replay/{wrong[0]} isn't what tests/second/record.py writes")
    else:
        HERE.mkdir(parents=True, exist_ok=True)
        for path, content in files.items():
            path.write_bytes(content)
    sizes = " and ".join(f"{len(content)} bytes of {path.name}" for path, content in files.items())
    print(f"record: {len(some)} cases ({rows.counts(some)}), {sizes}")


if __name__ == "__main__":
    main()
