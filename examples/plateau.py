#!/usr/bin/env python3
"""Draws the field of examples/mountain.blocks, with the plateau of overflowed values hatched, and writes it as a PNG.

    examples/plateau.py [FILE]      FILE is docs/plateau.png where none is given
"""
import sys
from pathlib import Path

ROOT = Path(__file__).resolve().parents[1]
sys.path.insert(0, str(ROOT / "python"))
import razovinto

ROWS, COLUMNS = 38, 57  # north to south, west to east


def picture(field, pyplot, patches):
    """The field in kelvins. An overflowed place has no colour, since its value isn't known; it is hatched."""
    figure, axes = pyplot.subplots(figsize=(10, 6.2), dpi=100, constrained_layout=True)
    known = razovinto.scan(field.compressed())
    drawn = axes.imshow(field / 1000, cmap="RdYlBu_r", vmin=known.least / 1000, vmax=known.greatest / 1000)
    for row, column in zip(*field.mask.nonzero()):
        corner = column - 0.5, row - 0.5
        axes.add_patch(patches.Rectangle(corner, 1, 1, facecolor="none", edgecolor="black", hatch="////", linewidth=0))

    hatched = patches.Patch(facecolor="white", edgecolor="black", hatch="////", linewidth=0.5)
    axes.legend([hatched], [f"overflowed: {field.mask.sum()} of {field.size} places"], loc="lower left", framealpha=1)
    axes.set_title("Temperature at 700 hPa, and the mountain that reaches above that level")
    axes.set_xlabel("column, west to east")
    axes.set_ylabel("row, north to south")
    figure.colorbar(drawn, ax=axes, label="temperature (K)", shrink=0.9)
    return figure


def main():
    if len(sys.argv) > 2:
        sys.exit("usage: examples/plateau.py [FILE]")
    to = Path(sys.argv[1]) if sys.argv[1:] else ROOT / "docs" / "plateau.png"
    try:
        import matplotlib
    except ImportError:
        sys.exit("plateau: matplotlib isn't here, so no picture is drawn")
    matplotlib.use("Agg")
    from matplotlib import patches, pyplot

    run = (ROOT / "examples" / "mountain.blocks").read_bytes()
    field = razovinto.read_run(run).reshape(ROWS, COLUMNS)
    # The version of matplotlib is left out, so that the picture changes only where the field or this script does.
    picture(field, pyplot, patches).savefig(to, metadata={"Software": None})
    print(f"plateau: {to}, {field.mask.sum()} of {field.size} places are overflowed")


if __name__ == "__main__":
    main()
