#!/usr/bin/env python3
"""Makes fresh cases, gives them to the program `replay`, and compares each line with the model's.

    tests/second/fresh.py [--seed N] [--program PROGRAM]

The seed comes from the clock and is printed; with it the same cases come again. PROGRAM is tools/program of the tree
whose `replay` is wanted, this one's by default.
"""
import argparse
import subprocess
import sys
import time
from concurrent.futures import ThreadPoolExecutor
from itertools import chain
from pathlib import Path

import cases
import rows

ROOT = Path(__file__).resolve().parents[2]
# Where the bytes of a case that differs are kept.
KEPT = ROOT / "target" / "fresh-case"
# How many random cases of each row.
RANDOM = (8000, 4000, 4000, 1200, 6000, 3000, 3000, 1000, 2500, 6000, 6000, 1000)


def boundaries(dice):
    """All cases at the boundaries, and a few recipes at every allowance."""
    small = (cases.every_allowance(8, words) for words in cases.SMALL_RUNS)
    known = (cases.every_allowance(8, words) for words in cases.KNOWN_RUNS)
    rich = (cases.every_allowance(*rich) for rich in cases.RICH_RUNS)
    yield from chain(*small, *known, *rich, *(all_allowances(dice) for _ in range(6)))
    yield from chain(cases.longest_runs(), cases.deep_hands(), cases.long_recipes(), cases.known_widths())
    yield from chain(cases.shape_faults(), cases.every_end())
    yield from chain(cases.operation_edges(), cases.every_signed_edge(), cases.fit_edges(), cases.plain_edges())
    yield from cases.product_edges()
    yield from chain(cases.range_edges(), cases.constant_fields(), cases.place_faults())
    yield from chain(cases.field_lengths(), cases.longest_fields())
    yield from chain(cases.block_tables(), cases.block_damages(dice), cases.block_counts(), cases.block_lengths())
    yield from chain(cases.block_rooms(), cases.found_places(dice), cases.bad_before_or_after(dice))
    yield from chain(cases.run_lengths(dice), cases.longest_searches(dice))
    yield from chain(cases.written_tables(), cases.written_rooms(), cases.written_numbers(), cases.written_overflows())
    yield from chain(cases.written_faults(), cases.written_lists(), cases.longest_writings())
    yield from chain(cases.single_readings(), cases.reading_pairs(), cases.zeros_in_a_row(), cases.level_place_faults())
    yield from chain(cases.turn_place_faults(), cases.level_lists(), cases.turn_rooms(), cases.part_extents())
    yield from chain(cases.part_faults(), cases.part_turns(), cases.plateaus(), cases.longest_levels())
    yield from cases.longest_rooms()
    yield from chain(cases.single_rows(), cases.rows_of_one_kind(), cases.mixed_rows(), cases.refused_places())
    yield from chain(cases.row_rooms(), cases.row_lists(), cases.long_row_lists(), cases.longest_rows())


def all_allowances(dice):
    """A random recipe at every allowance up to one past its steps."""
    width = dice.pick(cases.WIDTHS)
    kinds, numbers = cases.some_recipe(dice, width, 2 * dice.between(3, 12) + 1)
    for allowance in range(cases.total_steps(width, kinds, numbers) + 2):
        yield rows.Run(width, allowance, kinds, numbers)


def made(dice):
    """Random cases and those at the boundaries, mixed; then all of 8 bits."""
    random_ones = (maker(dice) for maker, count in zip(cases.SOME, RANDOM) for _ in range(count))
    mixed = dice.shuffled([*random_ones, *boundaries(dice)])
    return mixed, [*cases.every_operation_at_8(), *cases.every_recipe_at_8(), *cases.every_signed_at_8()]


def replayed(program, given):
    """What the program writes for an input."""
    ended = subprocess.run([program, "replay"], input=given, capture_output=True, check=False)
    if ended.returncode:
        sys.exit(f"fresh: the program ended with {ended.returncode}: {ended.stderr.decode(errors='replace')}")
    return ended.stdout.decode(errors="replace")


def in_pieces(program, given, dice):
    """The same with an input that arrives in small pieces."""
    with subprocess.Popen([program, "replay"], stdin=subprocess.PIPE, stdout=subprocess.PIPE, bufsize=0) as child:
        with ThreadPoolExecutor(1) as reader:
            output = reader.submit(child.stdout.read)
            at = 0
            while at < len(given):
                size = dice.between(1, 40)
                child.stdin.write(given[at : at + size])
                at += size
            child.stdin.close()
            return output.result().decode(errors="replace")


def compare(some, output, seed):
    """Ends with 1 at the first line that differs."""
    expected, given = rows.lines(some), output.split("\n")
    if given.pop() == "" and given == expected:
        return
    pairs = enumerate(zip(expected, given))
    place = next((i for i, (want, have) in pairs if want != have), min(len(expected), len(given)))
    print(f"fresh: seed {seed}, case {place + 1} of {len(expected)} differs ({len(given)} lines given)")
    want, have = (lines[place] if place < len(lines) else "nothing" for lines in (expected, given))
    if place < len(some):
        KEPT.parent.mkdir(exist_ok=True)
        KEPT.write_bytes(some[place].encode())
        print(f"case:     {some[place].words()}\nits bytes are in {KEPT.relative_to(ROOT)}")
    print(f"expected: {want}\ngiven:    {have}\n{first_number(want.split(), have.split())}")
    sys.exit(1)


def first_number(want, have):
    """Where two lines part."""
    place = next((i for i, (w, h) in enumerate(zip(want, have)) if w != h), min(len(want), len(have)))
    return f"they part at number {place + 1} of the line: {' '.join(want[place:][:3])} | {' '.join(have[place:][:3])}"


def compare_malformed(program, seed):
    """Each input that is no list of cases in a run of its own; and an empty one, which has no line."""
    expected = cases.SOUND.line() + "\nmalformed\n"
    inputs = [*cases.malformed()]
    with ThreadPoolExecutor(8) as pool:
        outputs = pool.map(lambda each: replayed(program, each[1]), inputs)
    for (words, given), output in zip(inputs, outputs):
        if output != expected:
            print(f"fresh: seed {seed}, malformed input: {words}\nbytes:    {given[:80].hex()}")
            print(f"expected: {expected!r}\ngiven:    {output[:400]!r}")
            sys.exit(1)
    if replayed(program, b""):
        sys.exit("fresh: an empty input has a line")
    return len(inputs)


def arguments():
    parser = argparse.ArgumentParser(description="fresh cases against the program `replay`")
    parser.add_argument("--seed", type=int, default=time.time_ns() % 2**32)
    parser.add_argument("--program", default=str(ROOT / "tools" / "program"))
    return parser.parse_args()


def main():
    options = arguments()
    print(f"fresh: seed {options.seed}", flush=True)
    dice = cases.Dice(options.seed)
    mixed, at_8 = made(dice)
    for some in (mixed, at_8):
        compare(some, replayed(options.program, rows.encode(some)), options.seed)
    some = [case for case in mixed[:1000] if case.name != "search"]
    compare(some, in_pieces(options.program, rows.encode(some), dice), options.seed)
    malformed = compare_malformed(options.program, options.seed)
    print(f"fresh: {len(mixed)} cases agree ({rows.counts(mixed)}), all {len(at_8)} at 8 bits, {malformed} malformed inputs")


if __name__ == "__main__":
    main()
