#!/usr/bin/env python3
"""What the C library answers to questions: .ci/library runs it.

  black_box/asked.py LIBRARY

Each item of a layer is taken out and inserted again by the words that it is told in; the layer's text has to be the one
before, and the words the same. And answers on a board of a few items are compared with those that were worked out by
hand. It says what differs, and ends with 1.
"""

import sys
from pathlib import Path

TOP = Path(__file__).resolve().parents[1]
sys.path.insert(0, str(TOP / "python"))

from camplot import Refused  # noqa: E402
from camplot.library import load  # noqa: E402
from camplot.session import Session  # noqa: E402

# Each kind of object, turn, polarity and direction; a macro, a block and a repeat, an attribute.
GERBER = b"""%FSLAX46Y46*%
%MOMM*%
%TF.Part,Single*%
%ADD10C,0.5*%
%ADD11R,0.4X0.2*%
%AMTRI*4,1,3,0,0,1,0,0,1,0,0,0*%
%ADD12TRI*%
%ABD13*%
D10*
X0Y0D03*
%AB*%
D10*
X1000000Y2000000D03*
%LPC*%
D11*
%LR90*%
X1000000Y2000000D03*
%LR180*%
X3000000Y0D03*
%LR270*%
X4000000Y0D03*
%LMX*%
X5000000Y0D03*
%LR0*%
D12*
X6000000Y0D03*
%LR90*%
X7000000Y0D03*
%LR180*%
X-8000000Y-1D03*
%LMN*%
%LR0*%
%LPD*%
D10*
G01*
X0Y0D02*
X3000000Y1000000D01*
G75*
G02*
X5000000Y3000000I2000000J0D01*
G03*
X3000000Y5000000I-2000000J0D01*
X3000000Y5000000I-1000000J0D01*
G36*
X0Y0D02*
G01*
X4000000Y0D01*
G03*
X0Y4000000I-4000000J0D01*
G02*
X0Y0I0J-2000000D01*
G37*
%LPC*%
G36*
X100Y200D02*
G01*
X300Y-400D01*
X500Y600D01*
G37*
%LPD*%
D13*
X9000000Y9000000D03*
%SRX3Y2I1.0J0.5*%
D10*
X0Y0D03*
%SR*%
M02*
"""

DRILL = b"""M48
METRIC
T1C0.800000
T2C1.000000
%
G05
T1
X1.000000Y2.500000
T2
X-3.000000Y0.000000
G00X3.000000Y2.500000
M15
G01X3.000000Y4.000000
G01X5.000000Y4.000000
M16
M30
"""

# Questions to a station with both as its layers, and their answers.
ANSWERS = (
    ("layers", ["top gerber 16 4", "holes drill 3 2"]),
    ("at top 1000000 2000000", ["1"]),
    ("at top 1000000 2000000 1", ["0"]),
    ("at top 1000000 2000000 0", []),
    ("at top -90000000 0", []),
    ("at top 4000000000 0", []),
    ("in top 1900000 -600000 6000000 600000", ["2", "3", "4"]),
    ("in top 6000000 600000 1900000 -600000", ["2", "3", "4"]),
    # (a quarter of a circle clockwise and one the other way, each in the box of what it paints, and a whole circle)
    ("in top 2750000 750000 5250000 3250000", ["9"]),
    ("in top 2750001 750000 5250000 3250000", []),
    ("in top 2750000 750001 5250000 3250000", []),
    ("in top 2750000 750000 5249999 3250000", []),
    ("in top 2750000 750000 5250000 3249999", []),
    ("in top 2750000 2750000 5250000 5250000", ["10"]),
    ("in top 750000 3750000 3250000 6250000", ["11"]),
    ("in top 750000 3750000 3250000 6249999", []),
    ("item top 0", ["flash 10 1000000 2000000 r0 dark"]),
    ("item top 1", ["flash 11 1000000 2000000 r90 clear"]),
    ("items top 4 2", ["flash 11 5000000 0 m270 clear", "flash 12 6000000 0 m0 clear"]),
    ("item top 15", ["repeat 3 2 1000000 500000 1", "  flash 10 0 0 r0 dark"]),
    ("items top 16 9", []),
    ("items holes 0 4294967295", ["hit 1 1000000 2500000", "hit 2 -3000000 0",
                                  "rout 2 3000000 2500000 3000000 4000000 5000000 4000000"]),
    ("box top 0", ["750000 1750000 1250000 2250000"]),
    ("box holes", ["-3500000 -500000 5500000 4500000"]),
    ("entry top 0", ["aperture 10", "%ADD10C,0.500000*%"]),
    ("entry top 3", ["block 13 1", "  flash 10 0 0 r0 dark"]),
    ("entries holes", ["tool 1", "T1C0.800000", "tool 2", "T2C1.000000"]),
    ("attributes top", [".Part,Single"]),
    ("attributes holes", []),
    ("history", ["0 0"]),
)

# Arcs of a pen of 0.2 mm whose outermost points are not their ends: one over the top of (0, 0), from 30 to 150 degrees,
# the rest of this circle, and one on the right of (10, 0), whose ends lie 1 nm off one circle. And a flash that reaches
# over the edge of the board.
ARCS = b"""%FSLAX46Y46*%
%MOMM*%
%ADD10C,0.2*%
%ADD11C,42*%
D10*
G75*
X3464102Y2000000D02*
G03*
X-3464102Y2000000I-3464102J-2000000D01*
G03*
X3464102Y2000000I3464102J-2000000D01*
X12000000Y-1000000D02*
G03*
X12000001Y1000000I-2000000J1000000D01*
D11*
X999000000Y0D03*
M02*
"""

# (the first radius is 4000000.33 nm, no whole number of half nm, so that these boxes are half a nm larger on each side)
ON_ARCS = (
    ("in arcs -3564103 1899999 3564103 4100001", ["0"]),
    ("in arcs -3564103 1899999 3564103 4100000", []),
    # (a box around its ends alone)
    ("in arcs -3564103 1899999 3564103 2100001", []),
    ("in arcs -4100001 -4100001 4100001 2100001", ["1"]),
    ("in arcs -4100001 -4100001 4100001 4100001", ["0", "1"]),
    ("in arcs -4100000 -4100001 4100001 2100001", []),
    ("in arcs -4100001 -4100001 4100000 2100001", []),
    ("in arcs -4100001 -4100000 4100001 2100001", []),
    ("in arcs 11899998 -1100002 12336068 1100002", ["2"]),
    ("in arcs 11899999 -1100002 12336068 1100002", []),
    ("in arcs 11899998 -1100002 12336067 1100002", []),
    ("at arcs 999999999 0", ["3"]),
    ("at arcs 1000000000 0", []),
    ("at arcs 1019000000 0", []),
    ("box arcs 3", ["978000000 -21000000 1020000000 21000000"]),
    ("in arcs 978000000 -21000000 1020000000 21000000", ["3"]),
    ("items arcs 4 1", []),
)

REFUSALS = (
    ("layers now", 80), ("", 80), ("list", 80), ("at top 1", 80), ("at top 1 x", 80), ("item top -1", 80),
    ("item bottom 0", 60), ("box bottom", 60), ("item top 16", 61), ("items top 17 1", 61), ("box holes 3", 61),
    ("entry holes 2", 61), ("layers" + " " * 65536, 81),
)

wrong = 0


class Station(Session):
    """A station whose questions answer lines."""

    def __enter__(self):
        return self

    def __exit__(self, *_):
        self.close()

    def apply(self, line, file=None):
        return super().apply(line.encode(), file)

    def ask(self, question):
        code = super().ask(question.encode())
        if code:
            raise Refused(code)
        return self.file.decode().splitlines()


def wants(what, told, wanted):
    global wrong
    if told != wanted:
        print(f"{what}: {told}, and not {wanted}")
        wrong += 1


def accepted(station, line, file=None):
    code = station.apply(line, file)
    if code:
        raise SystemExit(f"{line[:80]}: refused {code}")


def text_of(station, name):
    accepted(station, f"write {name} text")
    return station.file


def refusal_of(station, question):
    try:
        station.ask(question)
    except Refused as refused:
        return refused.number
    return 0


def item_lines(station, name, items):
    """The lines of each item."""
    found = []
    for line in station.ask(f"items {name} 0 {items}"):
        if line.startswith("  "):
            found[-1].append(line)
        else:
            found.append([line])
    return found


def put_back(library, label, kind, source, most=200):
    """Takes items of a layer out and inserts them again by their words, a text after each, and counts them."""
    with Station(library) as station:
        accepted(station, f"load a {kind} file", source)
        before = text_of(station, "a")
        items = int(station.ask("layers")[0].split(" ")[2])
        lines = item_lines(station, "a", items)
        wants(f"{label}: items told", len(lines), items)
        done = 0
        for k in list(range(items))[:: max(1, items // most)]:
            if lines[k][0].startswith("repeat "):
                continue
            wants(f"{label}: item {k}", station.ask(f"item a {k}"), lines[k])
            if len(lines[k][0]) + 60 > 65536:
                continue
            accepted(station, f"delete a {k}")
            accepted(station, f"insert a {k} {lines[k][0]}")
            wants(f"{label}: the text after item {k}", text_of(station, "a") == before, True)
            done += 1
        wants(f"{label}: items told after", item_lines(station, "a", items), lines)
        wants(f"{label}: the history", station.ask("history"), [f"{min(2 * done, 100)} 0"])
        return done


def ask_by_hand(library):
    with Station(library) as station:
        wants("no layers", station.ask("layers"), [])
        wants("an empty history", station.ask("history"), ["0 0"])
        accepted(station, "load top gerber file", GERBER)
        accepted(station, "load holes drill file", DRILL)
        for question, answer in ANSWERS:
            wants(question, station.ask(question), answer)
            wants(f"the reply to {question}", station.reply, b"ok\n")
        for question, code in REFUSALS:
            wants(question[:40], refusal_of(station, question), code)
            wants(f"the reply to {question[:40]}", station.reply, f"refused {code}\n".encode())
            wants(f"the text of {question[:40]}", station.file, b"")
        accepted(station, "begin")
        accepted(station, "delete top 0")
        wants("an open group", station.ask("history"), ["0 0 1"])
        accepted(station, "end")
        wants("a closed one", station.ask("history"), ["1 0"])
        accepted(station, "undo")
        wants("one taken back", station.ask("history"), ["0 1"])
    with Station(library) as station:
        accepted(station, "load arcs gerber file", ARCS)
        for question, answer in ON_ARCS:
            wants(question, station.ask(question), answer)


def main():
    library = load(sys.argv[1])
    ask_by_hand(library)
    done = put_back(library, "each kind", "gerber", GERBER) + put_back(library, "holes", "drill", DRILL)
    for path in sorted((TOP / "examples").rglob("*.gbr")):
        # (pads at odd angles are refused)
        if path.parent.name == "kicad_angles" and "Edge_Cuts" not in path.name:
            continue
        done += put_back(library, path.name, "gerber", path.read_bytes(), 40)
    for path in sorted((TOP / "examples").rglob("*.drl")):
        done += put_back(library, path.name, "drill", path.read_bytes(), 40)
    print(f"{done} items put back by their words")
    return 1 if wrong else 0


if __name__ == "__main__":
    sys.exit(main())
