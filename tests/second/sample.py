#!/usr/bin/env python3
"""Writes the sample runs of blocks, examples/mountain.blocks and examples/damaged.blocks.

With --check nothing is written: the two files must be what would be written.
"""
import sys
from pathlib import Path

import model

HERE = Path(__file__).resolve().parents[2] / "examples"
ROWS, COLUMNS = 38, 57
# The top of the mountain, by row and column; the level runs into the ground where the distance squared is below SLOPE.
TOP, SLOPE = (20, 31), 64


def wave(step, period):
    """A smooth wave of the height 1000, by parabolas, so that no rounding depends on the machine."""
    half = period // 2
    at = step % period
    hump = 4000 * (at % half) * (half - at % half) // half**2
    return hump if at < half else -hump


def distance(row, column):
    """The distance to the mountain's top, squared; the mountain is longer from west to east."""
    return 2 * (row - TOP[0]) ** 2 + (column - TOP[1]) ** 2


def temperature(row, column):
    """Thousandths of a kelvin at 700 hPa: colder northwards, a wave in the wind, warmer beside the mountain."""
    if distance(row, column) < SLOPE:
        return model.OVERFLOWED
    beside = 240000 // (60 + distance(row, column))
    return 266400 + 260 * row + 2 * wave(column + row // 2, 48) + beside


def mountain():
    """The whole field, row by row, in blocks of 55 values, the last one shorter."""
    field = [temperature(row, column) for row in range(ROWS) for column in range(COLUMNS)]
    starts = range(0, len(field), model.VALUES)
    return [model.make_block(position, field[start : start + model.VALUES]) for position, start in enumerate(starts)]


def damaged(blocks):
    """Five blocks of the field: the second has a byte changed on the way, the fourth an edition that isn't known."""
    changed = blocks[1][:100] + bytes([blocks[1][100] ^ 4]) + blocks[1][101:]
    edition = model.with_check(blocks[3][:5] + bytes([2]) + blocks[3][6:])
    return [blocks[0], changed, blocks[2], edition, blocks[20]]


def main():
    blocks = mountain()
    files = {"mountain.blocks": b"".join(blocks), "damaged.blocks": b"".join(damaged(blocks))}
    for name, content in files.items():
        path = HERE / name
        if sys.argv[1:] == ["--check"]:
            if not path.exists() or path.read_bytes() != content:
                sys.exit(f"sample: examples/{name} isn't what tests/second/sample.py writes")
        else:
            HERE.mkdir(exist_ok=True)
            path.write_bytes(content)
        print(f"sample: examples/{name}, {len(content) // model.BLOCK} blocks: {told(content)}")


def told(run):
    """What a search over the run says."""
    code, place, found = model.search(run)
    if code:
        return f"refusal {code} at block {place}"
    return f"overflowed at block {found[0]}, place {found[1]}" if found else "none overflowed"


if __name__ == "__main__":
    main()
