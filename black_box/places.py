#!/usr/bin/env python3
"""The items that lie at places of a layer, by questions and by pictures: .ci/library runs it.

  black_box/places.py LIBRARY [--side N] [FILE..]

The places are the centres of N by N pixels over a layer's box (32 by 32 by default). By pictures, each item is plotted
alone: where it is black, its last leaf that covers the place is dark. It is plotted alone over a black region too: where
that is white, this leaf is clear. Elsewhere nothing of the item covers the place. At each place the question `at`, asked
again and again with the place in the list that it answered, must find exactly these items, the last one first; and the
picture of the whole layer must be black exactly where the last leaf of the topmost item is dark. FILEs are Gerber files;
by default they are those of `examples` and a layer with blocks in blocks.

Then arcs of all kinds are plotted, each alone in a layer. The question `in` must find the arc in the box of its black
pixels, widened by a pixel to each side, and not in this box without its outermost pixels on one side. It prints what
differs, and ends with 1.
"""

import argparse
import random
import sys
from math import cos, pi, sin
from pathlib import Path

TOP = Path(__file__).resolve().parents[1]
sys.path.insert(0, str(TOP / "python"))

from camplot.library import load  # noqa: E402
from camplot.session import Session  # noqa: E402

# (each item takes a deletion of all others)
MOST_ITEMS = 150

# Blocks in blocks with dark and clear leaves, turned and mirrored, a repeat of one, and draws, arcs and regions among them.
BLOCKS = b"""%FSLAX46Y46*%
%MOMM*%
%ADD10C,2.5X0.8*%
%ADD11R,3.0X1.2*%
%ADD12O,2.0X0.9X0.3*%
%AMM*1,1,1.6,0,0*1,0,0.7,0.3,0*21,1,2.4,0.4,0,0,0*%
%ADD13M*%
%ADD14C,0.6*%
%ABD20*%
D10*
X0Y0D03*
%LPC*%
D14*
X-600000Y0D02*
G01*
X600000Y300000D01*
%LPD*%
D13*
X1500000Y700000D03*
%AB*%
%ABD21*%
D20*
X0Y0D03*
%LPC*%
%LR90*%
X1200000Y400000D03*
%LPD*%
%LMX*%
X-2000000Y-900000D03*
%LMN*%
%LR0*%
%AB*%
D11*
X5000000Y5000000D03*
D20*
X6000000Y5500000D03*
%LPC*%
D21*
X7000000Y6000000D03*
%LPD*%
%LR180*%
X4000000Y7000000D03*
%LR0*%
D12*
X4500000Y5200000D03*
D14*
G75*
X3000000Y3000000D02*
G03*
X8000000Y4000000I2500000J500000D01*
G36*
X2000000Y2000000D02*
G01*
X6000000Y2500000D01*
X3000000Y6000000D01*
X2000000Y2000000D01*
G37*
%LPC*%
D10*
X3500000Y3500000D03*
%SRX3Y2I1.7J1.1*%
%LPD*%
D20*
X2000000Y6000000D03*
%LPC*%
D14*
X2600000Y6300000D03*
%LPD*%
%SR*%
M02*
"""


class Layer(Session):
    """A station with one layer, `a`."""

    def __init__(self, library, source):
        super().__init__(library)
        self.is_read = not self.apply(b"load a gerber file", source)

    def done(self, line):
        if self.apply(line.encode()):
            raise SystemExit(f"{line}: {self.reply.decode()}")

    def answer(self, question):
        if super().ask(question.encode()):
            raise SystemExit(f"{question}: {self.reply.decode()}")
        return self.file.decode().splitlines()

    def count(self):
        return int(self.answer("layers")[0].split(" ")[2])

    def picture(self):
        """The rows of the layer's picture from the top, a truth value a pixel."""
        self.done("plot a picture")
        _, sides, bits = self.file.split(b"\n", 2)
        width, height = map(int, sides.split())
        row = (width + 7) // 8
        return [[bool(bits[y * row + x // 8] >> (7 - x % 8) & 1) for x in range(width)] for y in range(height)]


class Window:
    """So many pixels a side over a box, with the place at each one's centre."""

    def __init__(self, box, side):
        low_x, low_y, high_x, high_y = (int(float(it)) for it in box.split(" "))
        # (an even pitch, so that centres lie at whole nm)
        self.pitch = max(high_x - low_x, high_y - low_y, 1000) // side // 2 * 2 + 2
        self.side = side
        self.x = low_x - random.randrange(self.pitch)
        self.y = low_y - random.randrange(self.pitch)

    def line(self):
        return f"window {self.x} {self.y} {self.pitch} {self.side} {self.side}"

    def place(self, column, row):
        """The centre of a pixel of a row from the top."""
        half = self.pitch // 2
        return self.x + column * self.pitch + half, self.y + (self.side - 1 - row) * self.pitch + half

    def square(self):
        """A dark region that holds every pixel."""
        x0, y0, x1, y1 = self.x - 1, self.y - 1, self.x + self.side * self.pitch + 1, self.y + self.side * self.pitch + 1
        return f"region dark {x0} {y0} l {x1} {y0} l {x1} {y1} l {x0} {y1} l {x0} {y0}"


def alone(layer, k, count, below=None):
    """The picture of an item alone, or over one more item below it; none if the layer takes no more."""
    layer.done("begin")
    for other in reversed(range(count)):
        if other != k:
            layer.done(f"delete a {other}")
    # (a layer that is full of leaves takes no more)
    is_full = below and layer.apply(f"insert a 0 {below}".encode())
    seen = None if is_full else layer.picture()
    layer.done("abort")
    return seen


def walked(layer, x, y):
    """The items at a place by the question, from the topmost one down."""
    found = layer.answer(f"at a {x} {y}")
    while found and (below := layer.answer(f"at a {x} {y} {found[-1]}")):
        found += below
    return [int(it) for it in found]


def compared(library, label, source, side):
    """How many places of a layer were compared, and how many differ; none if the layer has too many items."""
    with_layer = Layer(library, source)
    try:
        boxes = with_layer.answer("box a") if with_layer.is_read else []
        count = with_layer.count() if boxes else 0
        if not 0 < count <= MOST_ITEMS:
            return 0, 0
        window = Window(boxes[0], side)
        # (the window of a layer as large as the board would not fit on it)
        if with_layer.apply(window.line().encode()):
            return 0, 0
        whole = with_layer.picture()
        dark = [alone(with_layer, k, count) for k in range(count)]
        over = [alone(with_layer, k, count, window.square()) for k in range(count)]
        if None in over:
            return 0, 0
        wrong = 0
        for row in range(side):
            for column in range(side):
                x, y = window.place(column, row)
                wanted = [k for k in reversed(range(count)) if dark[k][row][column] or not over[k][row][column]]
                is_black = bool(wanted) and dark[wanted[0]][row][column]
                told = walked(with_layer, x, y)
                if told != wanted or whole[row][column] != is_black:
                    wrong += 1
                    print(f"{label}: at {x} {y}: {told}, and by pictures {wanted}; black: {whole[row][column]}, {is_black}")
        return side * side, wrong
    finally:
        with_layer.close()


# One arc a layer, by a pen of 0.3 mm about (0, 0): the end where it starts, where it ends, and its direction.
ARC = """%FSLAX46Y46*%
%MOMM*%
%ADD10C,0.3*%
D10*
G75*
X{from_x}Y{from_y}D02*
{way}*
X{to_x}Y{to_y}I{i}J{j}D01*
M02*
"""
ARCS = 200
# Sides of a picture of an arc, and its pitch in nm: the circles have a radius of 2 to 4 mm.
ARC_SIDE = 96
ARC_PITCH = 100_000


def arc_sources(count):
    """So many arcs, from any direction to any other; a few end where they start."""
    for k in range(count):
        radius = random.randrange(2_000_000, 4_000_000)
        start = random.uniform(0, 2 * pi)
        end = start if k % 16 == 0 else random.uniform(0, 2 * pi)
        from_x, from_y, to_x, to_y = (round(radius * it) for it in (cos(start), sin(start), cos(end), sin(end)))
        way = random.choice(("G02", "G03"))
        yield ARC.format(from_x=from_x, from_y=from_y, to_x=to_x, to_y=to_y, i=-from_x, j=-from_y, way=way).encode()


def black_centres(rows):
    """The least and the greatest coordinates of the centres of black pixels, along x and along y."""
    half = ARC_PITCH // 2
    low = -ARC_SIDE * half
    across = [low + i * ARC_PITCH + half for row in rows for i, is_black in enumerate(row) if is_black]
    up = [low + (ARC_SIDE - 1 - j) * ARC_PITCH + half for j, row in enumerate(rows) if any(row)]
    return min(across), min(up), max(across), max(up)


def arc_differs(layer):
    """Which boxes find the arc of a layer and should not, or the other way round."""
    low = -ARC_SIDE * ARC_PITCH // 2
    layer.done(f"window {low} {low} {ARC_PITCH} {ARC_SIDE} {ARC_SIDE}")
    left, bottom, right, top = black_centres(layer.picture())
    reach = 3 * ARC_PITCH // 2
    boxes = [
        (left - reach, bottom - reach, right + reach, top + reach),
        (left + 1, bottom - reach, right + reach, top + reach),
        (left - reach, bottom + 1, right + reach, top + reach),
        (left - reach, bottom - reach, right - 1, top + reach),
        (left - reach, bottom - reach, right + reach, top - 1),
    ]
    told = [layer.answer(f"in a {' '.join(map(str, box))}") for box in boxes]
    return [(box, found) for k, (box, found) in enumerate(zip(boxes, told)) if found != (["0"] if k == 0 else [])]


def arcs_compared(library, count):
    """How many of so many arcs are not found as their pictures show them."""
    wrong = 0
    for source in arc_sources(count):
        layer = Layer(library, source)
        try:
            differing = arc_differs(layer)
        finally:
            layer.close()
        if differing:
            wrong += 1
            print(f"{source.decode()}: {differing}")
    return wrong


def main():
    words = argparse.ArgumentParser(description=__doc__, formatter_class=argparse.RawDescriptionHelpFormatter)
    words.add_argument("library")
    words.add_argument("files", nargs="*", type=Path)
    words.add_argument("--side", type=int, default=32)
    said = words.parse_intermixed_args()
    random.seed(7)
    library = load(said.library)
    files = said.files or sorted((TOP / "examples").rglob("*.gbr"))
    layers = [("blocks", BLOCKS)] + [(path.name, path.read_bytes()) for path in files]
    found = [compared(library, *layer, said.side) for layer in layers]
    places, wrong = (sum(it) for it in zip(*found))
    print(f"{places} places of {sum(it[0] > 0 for it in found)} layers, {wrong} differ")
    wrong_arcs = arcs_compared(library, ARCS)
    print(f"{ARCS} arcs in boxes, {wrong_arcs} differ")
    return 1 if wrong or wrong_arcs or not places else 0


if __name__ == "__main__":
    sys.exit(main())
