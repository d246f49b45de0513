#!/usr/bin/env python3
"""Loads a board from memory, picks the item at a point, plots a tile after a move of it, takes the move back, and
compares.

    examples/python/page.py [LIBRARY]     libcamplot.so, which is found if none is named
"""

import sys
from pathlib import Path

# (pip install ./python, or ./install, makes the package one that Python finds by itself)
sys.path.insert(0, str(Path(__file__).resolve().parents[2] / "python"))

import camplot  # noqa: E402

BOARD = b"%FSLAX46Y46*%\n%MOMM*%\n%ADD10C,0.5*%\nD10*\nX5000000Y5000000D03*\nX1000000Y1000000D03*\nM02*\n"


def say(line: str, *answer: object) -> None:
    """Prints the line or the question that a method stands for, and what it answered."""
    print(f"{line:32}", *answer)


def drawn(station: camplot.Station) -> camplot.Tile:
    """The first tile, which has to be dirty and is drawn again."""
    assert station.tile("top", 0) is None
    assert station.redraw(1) == 1
    tile = station.tile("top", 0)
    assert tile is not None
    return tile


def main() -> int:
    with camplot.Station(library=sys.argv[1] if len(sys.argv) > 1 else None) as station:
        say("load top gerber board.gbr", "ok", station.load_gerber("top", BOARD))
        station.set_window(0, 0, 31_250, 64, 64)
        say("window 0 0 31250 64 64", "ok")
        before = drawn(station)
        place = station.item_at("top", 1_000_000, 1_000_000)
        say("at top 1000000 1000000", place)
        assert place is not None
        station.move("top", place, 400_000, 0)
        say(f"move top {place} 400000 0", "ok")
        moved = drawn(station)
        station.undo()
        say("undo", "ok")
        after = drawn(station)
        text = station.text("top")
        say("write top board.gbr", "ok", len(text))
    # what a station answered stays when it is closed
    print(f"the tile has {before.count()}, then {moved.count()}, then {after.count()} black pixels")
    print(f"after the move it is {'the same' if moved == before else 'another'}, and taken back", end=" ")
    print("the same" if after == before else "another")
    print(f"its text has {len(text)} bytes")
    return 0 if moved != before and after == before else 1


if __name__ == "__main__":
    sys.exit(main())
