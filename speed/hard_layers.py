"""Layers that are small as files and much work to draw: what speed/hard times and counts. Each gives the lines of a file
but for the first and the last ones."""
import math
import os
import random
import sys
from importlib.machinery import SourceFileLoader

HERE = os.path.dirname(os.path.realpath(__file__))
sys.dont_write_bytecode = True
LAYERS = SourceFileLoader("layers", f"{HERE}/layers").load_module()  # a script without an ending
SIDE = LAYERS.SIDE  # nm


def ring(count, reach, seed=3):
    """The corners of a ragged ring about (0, 0)."""
    chance = random.Random(seed)
    turns = ((2 * math.pi * k / count, reach * chance.uniform(0.6, 1)) for k in range(count))
    return [(int(far * math.cos(turn)), int(far * math.sin(turn))) for turn, far in turns]


def filled(corners, x=SIDE // 2, y=SIDE // 2):
    """A region of these corners about a point."""
    moved = [(x + right, y + up) for right, up in corners]
    yield from ("G36*", "X%dY%dD02*" % moved[0])
    for corner in moved[1:] + moved[:1]:
        yield "X%dY%dD01*" % corner
    yield "G37*"


def scattered(count, reach=SIDE - 1_000_000, seed=4):
    chance = random.Random(seed)
    return [(chance.randrange(reach), chance.randrange(reach)) for _ in range(count)]


def flashed(points, number=10):
    yield f"D{number}*"
    for x, y in points:
        yield f"X{x}Y{y}D03*"


def macro(parts, points):
    yield from ("%AMPARTS*", *parts[:-1], f"{parts[-1]}%", "%ADD10PARTS*%")
    yield from flashed(points)


def outline(count):
    corners = ring(count, 49_000_000)
    text = ",".join(f"{x / 1e6:.6f},{y / 1e6:.6f}" for x, y in corners + corners[:1])
    yield from macro([f"4,1,{count},{text},0*"], [(SIDE // 2 + 1000 * k, SIDE // 2) for k in range(10)])


def rings(count):
    """Ten ragged rings over each other, of so many segments each."""
    for k in range(10):
        yield from filled(ring(count, 49_000_000), SIDE // 2 + 1000 * k)


def one_ring(count):
    yield from filled(ring(count, 49_000_000))


def discs(count):
    yield from macro([f"1,1,0.05,{x / 1e6:.6f},{y / 1e6:.6f}*" for x, y in scattered(count)], [(0, 0)])


def circles(count):
    yield "%ADD10C,0.05*%"
    yield from flashed(scattered(count))


def placed(count):
    """A ring in a block."""
    yield from block(one_ring(count))


def block(lines, number=11):
    """A block of these lines, flashed once."""
    yield from (f"%ABD{number}*%", *lines, "%AB*%", f"D{number}*", "X0Y0D03*")


def arcs(count, kind):
    """Arcs across the board of 0.9 m radius, or of one whose square 64 bits do not hold, or small ones."""
    chance = random.Random(7)
    yield from ("%ADD10C,0.1*%", "D10*")
    for _ in range(count):
        if kind == "small":
            x, y = chance.randrange(SIDE), chance.randrange(SIDE)
            first, last, middle = (x + 1_000_000, y), (x, y + 1_000_000), (x, y)
        elif kind == "wide":
            first, middle = (chance.randrange(SIDE), 0), (-800_000_000, 0)
            last = (middle[0] + math.isqrt((first[0] - middle[0]) ** 2 - SIDE**2), SIDE)
        else:
            middle = (-999_999_999, -999_999_999)
            first = (999_999_999 - chance.randrange(80_000_000), 890_000_000)
            square = (first[0] - middle[0]) ** 2 + (first[1] - middle[1]) ** 2
            last = (math.isqrt(square - (990_000_000 - middle[1]) ** 2) + middle[0], 990_000_000)
        away = (middle[0] - first[0], middle[1] - first[1])
        yield from ("X%dY%dD02*" % first, "G03*", "X%dY%dI%dJ%dD01*" % (*last, *away))


def nested(count):
    """Blocks in blocks, four deep, each of eight flashes of the one in it; the innermost has so many circles."""
    chance = random.Random(5)
    yield from ("%ADD10C,0.02*%", "%ABD11*%", *flashed(scattered(count)), "%AB*%")
    for number in range(12, 16):
        near = [(chance.randrange(999_999), chance.randrange(999_999)) for _ in range(8)]
        yield from (f"%ABD{number}*%", *flashed(near, number - 1), "%AB*%")
    yield from flashed([(0, 0)], 15)


def on_grid(count, side=SIDE):
    pitch, points = LAYERS.grid(count, side)
    points = list(points)
    random.Random(6).shuffle(points)
    return f"%ADD10C,{pitch * 0.7e-6:.6f}*%", points


def shuffled(count):
    aperture, points = on_grid(count)
    yield aperture
    yield from block(flashed(points))


def repeat(count):
    aperture, points = on_grid(count // 4, SIDE // 2)
    yield from (aperture, "%SRX2Y2I50.0J50.0*%", *flashed(points), "%SR*%")


def ordered(count):
    aperture, points = on_grid(count)
    yield aperture
    yield from flashed(sorted(points))


def piled(count):
    """Rectangles nearly as large as the board, dark and clear in turn."""
    yield from ("%ADD10R,99.0X99.0*%", "D10*")
    for k in range(count):
        yield "%LPC*%" if k % 2 else "%LPD*%"
        yield f"X{SIDE // 2 + k % 997}Y{SIDE // 2 + k % 991}D03*"


def uprights(count, height=SIDE):
    yield from ("%ADD10C,0.001*%", "D10*")
    for k in range(count):
        x, y = k * SIDE // count, k * 7919 * 1000 % (SIDE - 1_000_000) if height < SIDE else 0
        yield from (f"X{x}Y{y}D02*", f"X{x + 1}Y{y + height}D01*")


def zigzag(count):
    yield from filled([(k * SIDE // count, SIDE * (k % 2)) for k in range(count)] + [(SIDE, -1000), (0, -1000)], 0, 0)


def slanted(count):
    """Thin draws from the left of the bottom edge to the right of the top edge."""
    chance = random.Random(9)
    yield from ("%ADD10C,0.001*%", "D10*")
    for _ in range(count):
        yield from ("X%dY0D02*" % chance.randrange(3_000_000), "X%dY%dD01*" % (SIDE - chance.randrange(3_000_000), SIDE))


def crowd(count):
    """Small circles over each other, where the circle on top is moved."""
    yield "%ADD10C,0.05*%"
    yield from flashed([(8_400_000 + x, 88_400_000 + y) for x, y in scattered(count, 3_250_000)])


def beneath(count):
    """Small circles about a point, which a circle there covers."""
    yield "%ADD10C,0.05*%"
    yield from flashed(about_dot(count))


def about_dot(count):
    """Places within a square of 1 mm, in the strip of the board that edits show."""
    return [(9_500_000 + x, 89_500_000 + y) for x, y in scattered(count, 1_000_000)]


def elsewhere(count):
    """Circles in the lower right corner of the board."""
    yield "%ADD10C,0.05*%"
    yield from flashed([(79_000_000 + x, y) for x, y in scattered(count, 20_000_000)])


def speck_points(count):
    """The same, each between two rows of pixels."""
    return [(x, y - (y - 87_000_000) % 25_400) for x, y in about_dot(count)]


def specks(count, sizes=1):
    """Circles that show in no pixel, of so many sizes in turn."""
    yield from in_turn(speck_points(count), 0.001, sizes)


def low(count):
    """Circles in the lowest rows of a tile, which cover no middle of a pixel though their boxes hold one."""
    yield "%ADD10C,0.02*%"
    yield from flashed([(12_700 + 25_400 * (k % 60) + 9_000, 91_876_800 + 12_700 + 9_000) for k in range(count)])


def tall(count):
    """Upright draws in all rows of the same tile but the lowest ones."""
    yield from ("%ADD10C,0.02*%", "D10*")
    for k in range(count):
        x = 12_700 + 25_400 * (k % 60)
        yield from (f"X{x}Y92000000D02*", f"X{x}Y93400000D01*")


def buried(count):
    """Circles under a rectangle that covers the board."""
    yield from ordered(count)
    yield from ("%ADD96R,120X120*%", *flashed([(SIDE // 2, SIDE // 2)], 96))


def buried_rings(count):
    """Ten rings of so many segments each under a rectangle that covers them, but not the board."""
    for k in range(10):
        yield from filled(ring(count, 20_000_000), SIDE // 2 + 1000 * k)
    yield from ("%ADD96R,60X60*%", *flashed([(SIDE // 2 + 5000, SIDE // 2)], 96))


def copies(side):
    """A repeat of so many circles a side, 0.3 mm apart."""
    yield from ("%ADD10C,0.05*%", f"%SRX{side}Y{side}I0.3J0.3*%", *flashed([(50_000, 50_000)]), "%SR*%")


def apertures(count):
    """Circles of forty sizes in turn."""
    yield from in_turn(LAYERS.grid(count)[1], 0.5)


def in_turn(points, least, sizes=40):
    """Circles of so many sizes in turn, in mm from the least one on."""
    for k in range(sizes):
        yield f"%ADD{10 + k}C,{least + k / 10000:.6f}*%"
    for k, point in enumerate(points):
        yield from flashed([point], 10 + k % sizes)


def short_draws(count):
    yield from LAYERS.draws(count, "C,0.2")


def drilled(points, size):
    """A drill layer: hits of two tools in turn, a hundred of each, and the last one of a third tool; a fourth tool has 0.5 mm."""
    yield from ("M48", "METRIC", f"T1C{size}", f"T2C{size * 1.2:.6f}", f"T3C{size}", "T4C0.5", "%")
    for k, (x, y) in enumerate(points):
        if k == len(points) - 1:
            yield "T3"
        elif k % 100 == 0:
            yield f"T{1 + k // 100 % 2}"
        yield f"X{LAYERS.mm(x)}Y{LAYERS.mm(y)}"
    yield "M30"


def holes(count):
    yield from drilled(list(LAYERS.grid(count)[1]), 0.3)


def speck_holes(count):
    """Holes that show in no pixel."""
    yield from drilled(speck_points(count), 0.005)


def gerber(lines):
    yield from ("%FSLAX46Y46*%", "%MOMM*%", "G75*", "G01*", *lines, "M02*")


def write(path, lines):
    with open(path, "w", encoding="ascii") as file:
        file.writelines(f"{it}\n" for it in lines)
