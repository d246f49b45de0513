"""Layers and edits whose instructions `speed/hard --bounds` counts, each under a bound: a proof says what is drawn, and not
how much work that is. Each bug in speed/planted is of cost alone, which no proof refuses, and goes over one of the bounds."""
import re
import shutil
import subprocess
from dataclasses import dataclass

import hard_layers as made
from hard_layers import SIDE

# Windows: at 1000 dpi a strip of the board, what lies about a dot, and the whole board; at 250 dpi the whole board; one row of
# 512 tiles; and one beside the board, where no edit touches a tile.
STRIP = "0 87000000 25400 4096 256"
NEAR = "7500000 87500000 25400 192 192"
BOARD = "-2000000 -2000000 25400 4096 4096"
COARSE = "0 0 101600 1024 1024"
LINE = "0 50000000 3052 32768 64"
BESIDE = "500000000 500000000 25400 64 64"
# What is put on top of a layer, and the apertures of that.
SIZES = ("%ADD95C,16*%", "%ADD97R,6X4*%", "%ADD98C,4*%", "%ADD99C,0.5*%")
DOT = "flash 99 10000000 90000000 r0 dark"
RIGHT = "flash 99 90000000 90000000 r0 dark"
LOW = "flash 99 98000000 2000000 r0 dark"
COVER = "flash 98 10000000 90000000 r0 dark"
LEDGE = "flash 97 0 93953000 r0 dark"
LARGE = "flash 95 10000000 10000000 r0 dark"
LONG = "draw 99 2000000 90000000 98000000 90000000 r0 dark"
HOLE = "hit 4 90000000 90000000"
HOLE_DOT = "hit 4 10000000 90000000"
# Pairs of edits, of which the second takes the first one back.
TO_AND_FRO = ("move top {top} 40000 0", "move top {top} -40000 0")
ACROSS = ("move top {top} 80000000 80000000", "move top {top} -80000000 -80000000")
INSERTION = ("insert top {middle} " + DOT, "delete top {middle}")
REORDERS = ("reorder top 10 11", "reorder top 11 10")
POLARITIES = ("polarity top 0 clear", "polarity top 0 dark")
DIAMETERS = ("diameter top 3 60000", "diameter top 3 50000")


@dataclass
class Plot:
    """A layer of so many parts that is loaded and plotted, in a window of so many pixels a side that begins so far up and
    right."""

    lines: object
    count: int
    reader: str = "gerber"
    corner: int = 0
    side: int = 2048
    over: str = ""

    def layer(self):
        lines = self.lines(self.count)
        return lines if self.reader == "drill" else made.gerber([*SIZES, *lines])

    def window(self):
        return self.over or f"{self.corner} {self.corner} {SIDE // self.side + 49} {self.side} {self.side}"

    def script(self, layer, picture):
        return [f"load top {self.reader} {layer}", f"window {self.window()}", f"plot top {picture}"]


@dataclass
class Tiles(Plot):
    """The same, but so many of its tiles are drawn, at most so many at a time, and plotted if those are all."""

    tiles: int = 1024
    at_most: int = 1

    def script(self, layer, picture):
        *before, plot = super().script(layer, picture)
        are_all = self.tiles * 64**2 >= self.side**2
        return [*before, *[f"redraw {self.at_most}"] * -(-self.tiles // self.at_most), *[plot] * are_all]


@dataclass
class Redraws(Plot):
    """A layer that is plotted, with one item more on top of so many, edits of it with a redraw each, and a plot again."""

    items: int = 1
    top: str = DOT
    edits: tuple = TO_AND_FRO
    times: int = 100
    over: str = STRIP

    def script(self, layer, picture):
        load, window, plot = super().script(layer, picture)
        words = {"top": self.items, "middle": self.items // 2}
        edits = [f"{it.format(**words)}\nredraw 1000000" for it in self.edits]
        return [load, f"insert top {self.items} {self.top}", window, plot, *edits * self.times, plot]


# The far arcs stand at a corner of the board.
CORNERS = {"far": 890_000_000}
# Of each kind: what is done, and how many million instructions that may take. A bound lies an eighth above what is taken, and
# 6 % above it for tiles and specks.
PLOTS = {
    "outline": (Plot(made.outline, 200), 39),
    "discs": (Plot(made.discs, 500), 12.7),
    "placed": (Plot(made.placed, 2000), 21.5),
    "wide": (Plot(lambda n: made.arcs(n, "wide"), 100), 40),
    "far": (Plot(lambda n: made.arcs(n, "far"), 100, corner=CORNERS["far"]), 51),
    "nested": (Plot(made.nested, 10), 159),
    "shuffled": (Plot(made.shuffled, 4000), 30),
    "repeat": (Plot(made.repeat, 4000), 24.5),
    "piled": (Plot(made.piled, 300), 30),
    "piled, a line": (Plot(made.piled, 300, over=LINE), 5.3),
    "uprights": (Plot(made.uprights, 1000), 27),
    "zigzag": (Plot(made.zigzag, 1000), 32),
    "rings": (Plot(made.rings, 200), 30),
    "ring": (Plot(made.one_ring, 4000), 28.5),
    "buried": (Plot(made.buried, 4000), 14.2),
    "buried rings": (Plot(made.buried_rings, 1000), 17.6),
    "draws": (Plot(made.short_draws, 2000), 24.5),
    "apertures": (Plot(made.apertures, 4000), 27),
    "holes": (Plot(made.holes, 4000, "drill"), 22.5),
    "tiles": (Tiles(made.ordered, 50), 19.5),
}
REDRAWS = {
    "crowd": (Redraws(made.crowd, 5000, items=5000, times=10), 74),
    "beneath": (Redraws(made.beneath, 1000, items=1000, top=COVER, times=10), 22),
    "low": (Redraws(made.low, 2000, items=2000, top=LEDGE, times=10), 78),
    "tall": (Redraws(made.tall, 2000, items=2000, top=LEDGE, times=10), 34),
    "specks": (Redraws(made.specks, 2000, items=2000, times=40), 46),
    "speck sizes": (Redraws(lambda n: made.specks(n, 40), 2000, items=2000, times=40), 58.5),
    "slanted": (Redraws(made.slanted, 1000, items=1000, times=20), 39.5),
    "repeat": (Redraws(made.repeat, 4000, times=40), 10.4),
    "copies": (Redraws(made.copies, 300, over=NEAR, times=40), 4.8),
    "shuffled": (Redraws(made.shuffled, 4000, times=40), 16.1),
    "piled": (Redraws(made.piled, 1000, items=1000, times=20), 13.4),
    "ordered": (Redraws(made.ordered, 5000, items=5000, top=RIGHT, times=100), 23),
    "few": (Redraws(made.ordered, 100, items=100, top=LOW, over=BOARD, times=400), 66),
    "far moves": (Redraws(made.elsewhere, 3000, items=3000, top=LARGE, over=COARSE, times=10, edits=ACROSS), 30.5),
    "one row": (Redraws(made.ordered, 5000, items=5000, top=LONG, times=10), 27.5),
    "holes": (Redraws(made.holes, 5000, "drill", items=5000, top=HOLE, times=100), 22.6),
    "speck holes": (Redraws(made.speck_holes, 2000, "drill", items=2000, top=HOLE_DOT, times=40), 39.5),
}
# Edits beside the window.
EDITS = {
    "moves": (Redraws(made.ordered, 3000, items=3000, over=BESIDE), 6.4),
    "insertions": (Redraws(made.ordered, 3000, items=3000, over=BESIDE, edits=INSERTION), 11.8),
    "reorders": (Redraws(made.ordered, 3000, items=3000, over=BESIDE, edits=REORDERS, times=400), 10.4),
    "polarities": (Redraws(made.one_ring, 3000, over=BESIDE, edits=POLARITIES, times=40), 16.6),
    "diameters": (Redraws(made.holes, 5000, "drill", items=5000, top=HOLE, over=BESIDE, edits=DIAMETERS), 13.4),
}
KINDS = {**PLOTS, **{f"{name}, redrawn": it for name, it in REDRAWS.items()}, **EDITS}


def counted(words, env=None):
    """How many million instructions a call takes."""
    words = ["valgrind", "--tool=callgrind", "--callgrind-out-file=/dev/null", *words]
    said = subprocess.run(words, capture_output=True, text=True, check=True, env=env).stderr
    return int(re.search(r"Collected : (\d+)", said)[1]) / 1e6


def lay(room, plot):
    """Writes the files of a plot or of edits, and gives the script's path."""
    made.write(f"{room}/layer", plot.layer())
    made.write(f"{room}/script", plot.script(f"{room}/layer", f"{room}/plot.pbm"))
    return f"{room}/script"


def bounded(room, program, kinds):
    """Counts kinds, and prints each with its bound; 1 if one of them is over it."""
    if not shutil.which("valgrind"):
        print("work: the instructions of hard layers: left out: Debian's package valgrind has what counts them")
        print("work: 0 passed, 0 failed, 1 skipped")
        return 0
    failed = 0
    for kind in kinds:
        plot, bound = KINDS[kind]
        found = counted([program, lay(room, plot)])
        print(f"{kind:22} {plot.count:8} {found:10.1f} of {bound}", flush=True)
        if found > bound:
            print(f"work: {kind}: {found:.0f} million instructions, and at most {bound} are wanted")
            failed += 1
    print(f"work: {len(kinds) - failed} passed, {failed} failed")
    return 1 if failed else 0
