"""Inputs that are made to take much time or memory. Each is a function of a length in bytes, and gives its kind, its
text and the lines of a script that follow its load; a script without a file has no kind."""

HEAD = b"%FSLAX46Y46*%\n%MOMM*%\n"
END = b"M02*\n"
DISC = b"%ADD10C,0.1*%\nD10*\n"
DRILL = b"M48\nMETRIC\nT1C0.1\n%\nT1\n"
WIDE = "window -163840000 -163840000 10000 32768 32768\nplot top p\n"


def gerber(*parts, lines=""):
    return "gerber", HEAD + b"".join(parts) + END, lines


def drill(*parts, lines=""):
    return "drill", DRILL + b"".join(parts) + b"M30\n", lines


def rows(count, row):
    return b"".join(row(k) for k in range(count))


def grid(k):
    return k % 1000 * 200000, k // 1000 * 200000


def flashes(count):
    return rows(count, lambda k: b"X%dY%dD03*\n" % grid(k))


def hits(count):
    return rows(count, lambda k: b"X%.3fY%.3f\n" % tuple(at / 1e6 for at in grid(k)))


def macro(name, parts):
    return b"%%AM%s*\n%s%%\n" % (name, b"".join(part + b"*\n" for part in parts))


def used_macro(discs, definitions, parameter=False):
    parts = (b"1,1,0.1,%d.%d,0" % (k % 99, k % 7) for k in range(discs))
    told = (lambda k: b",%d" % k) if parameter else lambda k: b""
    return macro(b"A", parts) + rows(definitions, lambda k: b"%%ADD%dA%s*%%\n" % (k + 10, told(k)))


def unused_macro(part, size):
    return macro(b"A", [part] * (size // (len(part) + 2)))


def apertures(count):
    definitions = rows(count, lambda k: b"%%ADD%dC,0.1*%%\n" % (k + 10))
    return definitions + rows(count, lambda k: b"D%d*\nX%dD03*\n" % (k + 10, k))


def operators(size):
    part = b"1,1," + b"1+1-" * 249 + b"1,0,0"
    return macro(b"A", [part] * (size // len(part))) + b"%ADD10A*%\n"


def parts(size):
    return macro(b"A", [b"$%d=$%d+1" % (k % 9999 + 1, (k + 1) % 9999 + 1) for k in range(size // 14)]) + b"%ADD10A*%\n"


def last_variable(size):
    return macro(b"A", [b"$9999=1", b"1,1,0.1,0,0"]) + rows(size // 12, lambda k: b"%%ADD%dA*%%\n" % (k + 10))


def many_parameters(size):
    return macro(b"A", [b"1,1,0.1,0,0"]) + b"%ADD10A," + b"X".join([b"1"] * (size // 2)) + b"*%\n"


def nested():
    """Blocks in blocks to the greatest depth, the deepest flashed once, each of them many times in the next."""
    text = DISC + b"%ABD11*%\nX0Y0D03*\n%AB*%\n"
    for k in range(12, 19):
        times = (4, 4, 4, 4, 4, 50, 33)[k - 12]
        text += b"%%ABD%d*%%\nD%d*\n%s%%AB*%%\n" % (k, k - 1, rows(times, lambda n: b"X%dD03*\n" % (n * 100)))
    return text + b"D18*\nX0Y0D03*\n"


def blocks(size):
    return DISC + rows(size // 45, lambda k: b"%%ABD%d*%%\nD%d*\nX1D03*\n%%AB*%%\n" % (k + 11, 10))


def repeats(size):
    return DISC + rows(size // 45, lambda k: b"%%SRX5Y4I0.01J0.01*%%\nX%dY%dD03*\n%%SR*%%\n" % grid(k))


def contours(size):
    return b"G36*\n" + rows(size // 26, lambda k: b"X%dY%dD02*\nX9D01*\n" % grid(k)) + b"G37*\n"


def wide_arcs(size):
    return DISC + b"G75*\nG03*\n" + rows(
        size // 48, lambda k: b"X%dY1D02*\nX%dY2I-%dJ0D01*\n" % (k, k, 999999000 + k % 999)
    )


def one_contour(size):
    def segment(k):
        return b"X%dY%dD01*\n" % (k * 7919 % 100000000, k * 104729 % 100000000)

    return b"G36*\nX0Y0D02*\n" + rows(min(1000000, size // 16), segment) + b"G37*\n"


def combs(size):
    """Contours whose edges all cross each row of pixels."""
    def tooth(k):
        return b"X%dY99999999D01*\nX%dY0D01*\n" % (k * 200, k * 200 + 100)

    return b"G36*\nX0Y0D02*\n" + rows(min(500000, size // 24), tooth) + b"G37*\n"


def tools(count):
    text = b"M48\nMETRIC\n" + rows(9999, lambda k: b"T%dC1\n" % (k + 1)) + b"%\n"
    return text + rows(count, lambda k: b"T%d\nX0.\n" % (k * 7 % 9999 + 1)) + b"M30\n"


def moves(count):
    return "".join(f"move top {k % 1000} 1 1\n" for k in range(count))


def long_region(_):
    return "insert top 0 region dark 0 0 " + "l 1 1 " * 10900 + "\n"


ORDINARY = {
    "ordinary gerber": lambda size: gerber(DISC, flashes(min(size // 17, 999999))),
    "ordinary drill": lambda size: drill(hits(min(size // 16, 999999))),
}

INPUTS = {
    # of a length of their own
    "a macro of 20,000 discs, 1,000 AD": lambda size: gerber(used_macro(20000, 1000)),
    "a macro of 20,000 discs, 1,000 other AD": lambda size: gerber(used_macro(20000, 1000, True)),
    "a macro of 20,000 discs, flashed": lambda size: gerber(
        used_macro(20000, 1), b"D10*\n", flashes(1000), lines="window 0 0 100000 1000 1000\nplot top p\n"
    ),
    "40,000 AM": lambda size: gerber(rows(40000, lambda k: macro(b"A%d" % k, [b"1,1,1,0,0"]))),
    "100,000 apertures in turn": lambda size: gerber(apertures(100000)),
    "nested blocks, 3,941,884 leaves": lambda size: gerber(nested()),
    "nested blocks, plotted": lambda size: gerber(
        nested(), lines="window -1000000 -1000000 2000 1000 1000\nplot top p\n"
    ),
    "a repeat of 4,000,000 copies": lambda size: gerber(DISC, b"%SRX2000Y2000I0.01J0.01*%\nX0Y0D03*\n%SR*%\n"),
    "4,000,000 copies, plotted": lambda size: gerber(
        DISC, b"%SRX2000Y2000I0.01J0.01*%\nX0Y0D03*\n%SR*%\n",
        lines="window 0 0 10000 2000 2000\nplot top p\n",
    ),
    "4,000,000 copies at one place": lambda size: gerber(
        DISC, b"%SRX2000Y2000I0J0*%\nX0Y0D03*\n%SR*%\n",
        lines="window -100000 -100000 1000 200 200\nplot top p\n",
    ),
    # as long as is wished
    "a macro of 20 discs, many AD": lambda size: gerber(used_macro(20, size // 12)),
    "a macro of 20 discs, many other AD": lambda size: gerber(used_macro(20, size // 20, True)),
    "a macro of discs alone": lambda size: gerber(unused_macro(b"1,1,1,0,0", size)),
    "a macro of codes alone": lambda size: gerber(unused_macro(b"1", size)),
    "a macro of settings alone": lambda size: gerber(unused_macro(b"$1=1", size)),
    "a macro of outlines alone": lambda size: gerber(unused_macro(b"4,1,99" + b",0" * 200, size)),
    "macros without a part": lambda size: gerber(rows(size // 13, lambda k: b"%%AMA%d*%%\n" % k)),
    "macros alone": lambda size: gerber(rows(size // 28, lambda k: macro(b"A%d" % k, [b"1,1,1,0,0"]))),
    "apertures in turn": lambda size: gerber(apertures(size // 34)),
    "macros of 1,000 operators": lambda size: gerber(operators(size)),
    "a macro of many variables": lambda size: gerber(parts(size)),
    "$9999 and many AD": lambda size: gerber(last_variable(size)),
    "an AD of many parameters": lambda size: gerber(many_parameters(size)),
    "one number": lambda size: gerber(DISC, b"X" + b"0" * size + b"1D03*\n"),
    "one word of an unknown form": lambda size: gerber(b"Q" * size + b"*\n"),
    "one word without an end": lambda size: gerber(b"X" * size),
    "one comment": lambda size: gerber(b"G04" + b"%" * size + b"*\n"),
    "empty words": lambda size: gerber(b"*" * size),
    "blanks": lambda size: gerber(b" " * size),
    "attributes of one name": lambda size: gerber(b"%TF.A,1*%\n" * (size // 10)),
    "attributes of objects": lambda size: gerber(b"%TO.N,a*%\n" * (size // 10)),
    "attributes of many names": lambda size: gerber(rows(size // 13, lambda k: b"%%TF.A%d*%%\n" % k)),
    "polarities": lambda size: gerber(b"%LPC*%\n%LPD*%\n" * (size // 14)),
    "blocks": lambda size: gerber(blocks(size)),
    "repeats": lambda size: gerber(repeats(size)),
    "contours": lambda size: gerber(contours(size)),
    "one contour": lambda size: gerber(one_contour(size)),
    "flashes by D03 alone": lambda size: gerber(DISC, b"D03*" * min(1000000, size // 4)),
    "segments by D01 alone": lambda size: gerber(b"G36*\n", b"D01*" * min(1000000, size // 4), b"G37*\n"),
    "moves by D02 alone": lambda size: gerber(b"D02*" * (size // 4)),
    "arcs of the greatest radius": lambda size: gerber(wide_arcs(size)),
    "drill: tools in turn": lambda size: drill(b"T1\nT0\n" * (size // 6)),
    "drill: 9,999 tools": lambda size: ("drill", tools(min(999999, size // 9)), ""),
    "drill: hits by X0. alone": lambda size: drill(b"X0.\n" * min(1000000, size // 4)),
    "drill: routs of a point": lambda size: drill(b"G00X0.\n", b"M15\nM16\n" * min(999999, size // 8)),
    "drill: one rout": lambda size: drill(b"G00X0.\nM15\n", b"G01X0.\n" * min(999999, size // 7), b"M16\n"),
    "drill: empty lines": lambda size: drill(b"\n" * size),
    "drill: a comment": lambda size: drill(b";" * size, b"\n"),
    "drill: blanks": lambda size: drill(b" " * size, b"\n"),
    "drill: one number": lambda size: drill(b"X" + b"0" * size + b".\n"),
    # pictures of 32,768 by 32,768 pixels
    "flashes, widest picture": lambda size: gerber(DISC, flashes(100000), lines=WIDE),
    "arcs, widest picture": lambda size: gerber(wide_arcs(48000), lines=WIDE),
    "one contour, widest picture": lambda size: gerber(one_contour(1600000), lines=WIDE),
    "a comb, widest picture": lambda size: gerber(combs(240000), lines=WIDE),
    "4,000,000 copies, widest picture": lambda size: gerber(
        DISC, b"%SRX2000Y2000I0.1J0.1*%\nX0Y0D03*\n%SR*%\n", lines=WIDE
    ),
    "nested blocks, widest picture": lambda size: gerber(nested(), lines=WIDE),
    "drill: hits, widest picture": lambda size: drill(hits(100000), lines=WIDE),
    "empty, widest picture": lambda size: gerber(lines=WIDE),
    # scripts
    "a group of 100,000 moves": lambda size: gerber(
        DISC, flashes(1000), lines="begin\n" + moves(100000) + "end\nundo\nredo\n"
    ),
    "an aborted group of 100,000": lambda size: gerber(
        DISC, flashes(1000), lines="begin\n" + moves(100000) + "abort\n"
    ),
    "1,000 groups of 100 moves": lambda size: gerber(
        DISC, flashes(1000),
        lines="".join("begin\n" + moves(100) + "end\n" for _ in range(1000)) + "undo\n" * 1000,
    ),
    "1,000 inserts of long regions": lambda size: gerber(
        DISC, lines="".join(map(long_region, range(min(1000, size // 65000))))
    ),
    "1,000 inserts beside 1,000,000": lambda size: gerber(
        DISC, flashes(998000), lines="insert top 0 flash 10 0 0 r0 dark\n" * 1000
    ),
    "1,000 deletes and undos of 1,000,000": lambda size: gerber(
        DISC, flashes(1000000), lines="delete top 0\n" * 1000 + "undo\n" * 1000
    ),
    "1,000 redraws beside 1,000,000": lambda size: gerber(
        DISC, flashes(1000000),
        lines="window 0 0 100000 2000 2000\nplot top p\n" + "move top 500000 1 1\nredraw 9\n" * 1000,
    ),
    "drill: 100 diameters of 1,000,000": lambda size: drill(
        hits(1000000), lines="".join(f"diameter top 1 {k}\n" for k in range(1, 101))
    ),
    "100,000 lines that are refused": lambda size: (None, b"", "frob\n" * 100000),
    "comments of a script": lambda size: (None, b"", "#\n" * (size // 2)),
    "empty lines of a script": lambda size: (None, b"", "\n" * size),
    "a script of one line": lambda size: (None, b"", "a" * size),
}
