"""Checks over mutated files: first many are loaded, then those that were read are edited."""

import re

from program import Wrong

MANY = 48
FEW = 8
COPIES = 2000


def has_many_copies(text):
    """Whether a repeat of a written text has many copies, each of which may have to be painted."""
    found = re.findall(rb"^%SRX([0-9]+)Y([0-9]+)", text, re.MULTILINE)
    return any(int(columns) * int(rows) > COPIES for columns, rows in found)


class Probe:
    """Loads files of both kinds, and keeps those that are read, and the fronts of those that are not."""

    def __init__(self, chance, program, makers):
        self.chance = chance
        self.program = program
        self.makers = makers
        self.fronts = []
        self.read = []

    def inputs(self):
        """Kinds and files, and what is to be said of each where that is known."""
        found = self.fronts[:MANY]
        self.fronts = self.fronts[MANY:]
        while len(found) < MANY:
            kind = self.chance.choice(("gerber", "gerber", "drill"))
            found.append((kind, self.makers[kind].text(), None))
        return found

    def once(self):
        """Loads some files; how many were tried."""
        found = self.inputs()
        files = {f"in{k}": text for k, (_, text, _) in enumerate(found)}
        script = "".join(f"load n{k} {kind} in{k}\nwrite n{k} out{k}\n" for k, (kind, _, _) in enumerate(found))
        _, replies = self.program.run(files, script.encode())
        tried = 0
        for k, (kind, text, wanted) in enumerate(found):
            loaded, wrote = replies[2 * k : 2 * k + 2]
            if loaded == b"refused 85":
                if wanted is not None:
                    self.fronts.append((kind, text, wanted))
                continue
            tried += 1
            if wanted is not None and loaded not in wanted:
                raise Wrong(f"in{k}: the front of a file is answered {loaded!r}, and not {wanted[0]!r}")
            if loaded.startswith(b"ok"):
                out = self.program.held(f"out{k}")
                if wrote != b"ok %d" % len(out):
                    raise Wrong(f"in{k}: its text of {len(out)} bytes is answered {wrote!r}")
                if not has_many_copies(out):
                    self.read.append((kind, text, loaded, out))
                    self.makers[kind].grow(text)
            elif wrote != b"refused 60":
                raise Wrong(f"in{k}: a layer that is not there is written: {wrote!r}")
            elif wanted is None and self.chance.random() < 0.5:
                self.keep_front(kind, text, int(loaded.split()[2]))
        return tried

    def keep_front(self, kind, text, at):
        """What stands before a fault has none, and lacks its end."""
        ends = [b"refused 26 %d" % at] if kind == "gerber" else [b"refused 48 %d" % at, b"refused 40 %d" % at]
        self.fronts.append((kind, text[:at], ends))


class Editing:
    """Edits layers, takes the edits back and makes them again."""

    def __init__(self, chance, program):
        self.chance = chance
        self.program = program

    def once(self, read):
        """Edits the layers of some files."""
        files = {f"in{k}": it[1] for k, it in enumerate(read)}
        parts = [self.part(k, kind, loaded, out) for k, (kind, _, loaded, out) in enumerate(read)]
        lines, replies = self.program.run(files, "".join(parts).encode())
        start = 0
        for k, ((_, _, loaded, out), part) in enumerate(zip(read, parts)):
            end = start + part.count("\n")
            self.check(k, loaded, out, lines[start:end], replies[start:end])
            start = end
        return len(read)

    def part(self, k, kind, loaded, out):
        """The lines for one file."""
        edits = self.edits(f"a{k}", kind, int(loaded.split()[1]), out)
        group = self.chance.random() < 0.5
        closing = self.chance.choice(("end", "end", "abort"))
        times = 1 if group else len(edits)
        rows = [
            f"load a{k} {kind} in{k}",
            self.window(kind, out),
            f"plot a{k} first{k}",
            f"write a{k} text{k}",
            f"load b{k} {kind} text{k}",
            f"write b{k} again{k}",
            f"plot b{k} same{k}",
            *(["begin"] if group else []),
            *edits,
            *([closing] if group else []),
            f"redraw {self.chance.choice((0, 1, 2, 9))}",
            f"write a{k} edited{k}",
            f"plot a{k} shown{k}",
            *["undo"] * times,
            f"redraw {self.chance.choice((0, 1, 2, 9))}",
            f"write a{k} back{k}",
            f"plot a{k} before{k}",
            *["redo"] * times,
            f"write a{k} redone{k}",
            f"plot a{k} after{k}",
            f"load c{k} {kind} redone{k}",
            f"write c{k} fresh{k}",
            f"plot c{k} anew{k}",
        ]
        return "".join(row + "\n" for row in rows)

    def window(self, kind, out):
        """A window about some place of the layer."""
        places = [(0, 0)]
        if kind == "gerber":
            places += [(int(x), int(y)) for x, y in re.findall(rb"X(-?[0-9]+)Y(-?[0-9]+)(?:D|I)", out)]
        else:
            places += [
                (round(float(x) * 1e6), round(float(y) * 1e6))
                for x, y in re.findall(rb"X(-?[0-9.]+)Y(-?[0-9.]+)", out)
            ]
        x, y = self.chance.choice(places)
        pitch = int(10 ** self.chance.uniform(0, 6.5))
        sides = [self.chance.choice((1, 2, 7, 63, 64, 65, 70, 130)) for _ in range(2)]
        corner = [
            max(-999999999, min(999999999 - side * pitch, at - side * pitch // 2)) for at, side in zip((x, y), sides)
        ]
        return f"window {corner[0]} {corner[1]} {pitch} {sides[0]} {sides[1]}"

    def length(self):
        return self.chance.choice((0, 1, -1, 100000, -500000, 1000000, 2500000, int(10 ** self.chance.uniform(0, 9.1))))

    def edits(self, name, kind, count, out):
        """Some edits, most of which are accepted."""
        if kind == "gerber":
            known = [int(n) for n in re.findall(rb"^%(?:ADD|ABD)([0-9]+)", out, re.MULTILINE)] or [10]
        else:
            known = [int(n) for n in re.findall(rb"^T([0-9]+)C", out, re.MULTILINE)] or [1]
        make = self.gerber_edit if kind == "gerber" else self.drill_edit
        return [make(name, count, known) for _ in range(self.chance.choice((1, 1, 2, 4)))]

    def gerber_edit(self, name, count, known):
        at = self.chance.randrange(count + 1)
        number = self.chance.choice(known)
        polarity = self.chance.choice(("dark", "clear"))
        turn = self.chance.choice(("r0", "r90", "r180", "r270", "m0", "m90", "m180", "m270"))
        x, y, u, v = (self.length() for _ in range(4))
        return self.chance.choice(
            (
                f"insert {name} {at} flash {number} {x} {y} {turn} {polarity}",
                f"insert {name} {at} draw {number} {x} {y} {u} {v} {turn} {polarity}",
                f"insert {name} {at} arc {number} {x} {y} {u} {v} {u} {y} cw {polarity}",
                f"insert {name} {at} region {polarity} {x} {y} l {u} {y} ccw {u} {v} {x} {v}",
                f"delete {name} {at}",
                f"delete {name} {at}",
                f"move {name} {at} {x} {y}",
                f"move {name} {at} {x} {y}",
                f"reorder {name} {at} {self.chance.randrange(count + 1)}",
                f"aperture {name} {at} {number}",
                f"polarity {name} {at} {polarity}",
                f"setattr {name} .Part Single",
            )
        )

    def drill_edit(self, name, count, known):
        at = self.chance.randrange(count + 1)
        number = self.chance.choice(known)
        x, y, u, v = (self.length() for _ in range(4))
        return self.chance.choice(
            (
                f"insert {name} {at} hit {number} {x} {y}",
                f"insert {name} {at} rout {number} {x} {y} {u} {v} {x} {v}",
                f"delete {name} {at}",
                f"move {name} {at} {x} {y}",
                f"reorder {name} {at} {self.chance.randrange(count + 1)}",
                f"tool {name} {at} {number}",
                f"diameter {name} {number} {abs(x) % 300000000}",
            )
        )

    def check(self, k, loaded, out, lines, replies):
        """What came of one file's lines."""
        held = lambda name: self.program.held(f"{name}{k}")
        said = lambda head: [reply for words, reply in zip(lines, replies) if words[0] == head]
        if any(reply != loaded for reply in said(b"load")[:2]):
            raise Wrong(f"in{k}: loads of the same layer are answered {said(b'load')!r}")
        if any(reply.startswith(b"refused") for reply in said(b"window") + said(b"plot") + said(b"write")):
            raise Wrong(f"in{k}: a window, plot or write is refused: {replies!r}")
        changed = [
            words for words, reply in zip(lines, replies)
            if words[1:2] == [b"a%d" % k] and words[0] not in (b"load", b"plot", b"write") and reply == b"ok"
        ]
        kept = 0 if said(b"abort") else min(1, len(changed)) if said(b"end") else len(changed)
        for head, refused in ((b"undo", b"refused 70"), (b"redo", b"refused 71")):
            wanted = [b"ok"] * kept + [refused] * (len(said(head)) - kept)
            if said(head) != wanted:
                raise Wrong(f"in{k}: {head.decode()} is answered {said(head)!r}, and not {wanted!r}")
        same = [("text", "again"), ("first", "same"), ("text", "back"), ("first", "before"), ("edited", "redone"),
                ("shown", "after"), ("redone", "fresh"), ("after", "anew")]
        if not kept:
            same += [("text", "edited"), ("first", "shown")]
        if held("text") != out:
            raise Wrong(f"in{k}: its text is another one")
        for one, other in same:
            if held(one) != held(other):
                raise Wrong(f"in{k}: {one}{k} and {other}{k} differ")
