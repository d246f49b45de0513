#!/usr/bin/env python3
"""Compares a module for memories of 64 bits with the one that lower/ made of it for those of 32, function by function.

  web/module/compare.py WIDE.wasm NARROW.wasm

Both are run next to one another over names in place of numbers: each value is named by the instruction that made it and
the names that this one took. Both must do the same in the same order: load, store, call, branch, whatever may stop or
changes something. Each must take the same values, the same must lie on the stack and in the locals wherever the code
branches, and the sections must be the same. What may differ is this, and nothing else (lower/code.js gives the reasons):

  addresses   what a load, a store, a copy or a fill takes for a place or a length is the lower half of what it was
  tables      so is the number of a function in a table, if the table had 64 bits
  sizes       memory.size, and the answer of memory.grow, are made as long as they were; grow takes the lower half of the
              pages, or -1, which no memory grants, where they have more than 32 bits
  locals      a function may have more of them at its end, which hold a value on its way between two instructions
  sections    one memory and one table lose their mark of 64 bits, places of segments are i32, `target_features` goes

Its last line counts what it compared. For the first difference it prints the function and the instruction, and ends with 1.
It shares no code with lower/, and needs only Python.
"""
import sys
from collections import Counter

WRAP, EXTEND_S, EXTEND_U, SELECT, I32, I64, EQZ, SHIFT = 0xA7, 0xAC, 0xAD, 0x1B, 0x41, 0x42, 0x50, 0x88
LOCALS, CALL, CALL_BY_TABLE, SIZE, GROW, COPY, FILL = (0x20, 0x21, 0x22), 0x10, 0x11, 0x3F, 0x40, 0xFC0A, 0xFC0B
BLOCK, LOOP, IF, ELSE, END, BR, BR_IF, BR_TABLE, RETURN, STOP = 2, 3, 4, 5, 0x0B, 0x0C, 0x0D, 0x0E, 0x0F, 0
# By the first and the last number of instructions: what stands after them, and how many values they take and give. Those
# in MADE only make a value; the others do something, or may stop the machine, so their order counts.
MADE = """
41:i:0 42:i:0 43:4:0 44:8:0 45::1 46-4f::2 50::1 51-66::2 67-69::1 6a-6c::2 71-78::2 79-7b::1 7c-7e::2 83-8a::2 8b-91::1
92-98::2 99-9f::1 a0-a6::2 a7::1 ac-ad::1 b2-c4::1 1b::3 fc00-fc07::1 fd0c:16:0 fd0d:16:2 fd0e::2 fd0f-fd14::1
fd15-fd16:1:1 fd17:1:2 fd18-fd19:1:1 fd1a:1:2 fd1b:1:1 fd1c:1:2 fd1d:1:1 fd1e:1:2 fd1f:1:1 fd20:1:2 fd21:1:1 fd22:1:2
fd23-fd4c::2 fd4d::1 fd4e-fd51::2 fd52::3 fd53::1 fd5e-fd64::1 fd65-fd66::2 fd67-fd6a::1 fd6b-fd73::2 fd74-fd75::1
fd76-fd79::2 fd7a::1 fd7b::2 fd7c-fd81::1 fd82::2 fd83-fd84::1 fd85-fd86::2 fd87-fd8a::1 fd8b-fd93::2 fd94::1 fd95-fd99::2
fd9b-fd9f::2 fda0-fda1::1 fda3-fda4::1 fda7-fdaa::1 fdab-fdae::2 fdb1::2 fdb5-fdba::2 fdbc-fdbf::2 fdc0-fdc1::1
fdc3-fdc4::1 fdc7-fdca::1 fdcb-fdce::2 fdd1::2 fdd5-fddf::2 fde0-fde1::1 fde3::1 fde4-fdeb::2 fdec-fded::1 fdef::1
fdf0-fdf7::2 fdf8-fdff::1"""
DONE = """
01::0:0 1a::1:0 23:u:0:1 24:u:1:0 28-35:uu:1:1 36-3e:uu:2:0 3f:u:0:1 40:u:1:1 6d-70::2:1 7f-82::2:1 a8-ab::1:1 ae-b1::1:1
fc0a:uu:3:0 fc0b:u:3:0 fd00-fd0a:uu:1:1 fd0b:uu:2:0 fd54-fd57:uu1:2:1 fd58-fd5b:uu1:2:0 fd5c-fd5d:uu:1:1
20-22:u:0:0 10:u:0:0 11:uu:0:0 00::0:0 02-04:i:0:0 05::0:0 0b::0:0 0c-0d:u:0:0 0f::0:0"""


class Differs(Exception):
    """What is not the same, or not known here."""


def table(text, gives):
    """By the number of an instruction what stands after it, how many values it takes and, where it does more, gives."""
    rows = (row.split(":") for row in text.split())
    return {
        number: (after, int(takes), *map(int, given or [gives]))
        for span, after, takes, *given in rows
        for number in range(int(span.split("-")[0], 16), int(span.split("-")[-1], 16) + 1)
    }


MAKES, DOES = table(MADE, 1), table(DONE, None)
# Which of the values that an instruction takes are places or lengths.
PLACES = {number: (0,) for number, (after, *_) in DOES.items() if after in ("uu", "uu1") and number != CALL_BY_TABLE}
PLACES |= {COPY: (0, 1, 2), FILL: (0, 2)}


class Reader:
    def __init__(self, data):
        self.data, self.at = data, 0

    def take(self, count):
        self.at += count
        if self.at > len(self.data):
            raise Differs("a part ends too early")
        return self.data[self.at - count : self.at]

    def number(self, is_signed=False):
        value = width = 0
        while True:
            byte = self.take(1)[0]
            value |= (byte & 0x7F) << width
            width += 7
            if byte < 0x80:
                return value - (1 << width) if is_signed and byte & 0x40 else value

    def part(self):
        return Reader(self.take(self.number()))

    def list(self, each):
        found = [each(self) for _ in range(self.number())]
        if self.at != len(self.data):
            raise Differs("bytes after a list")
        return found

    def instruction(self):
        """The number of the next instruction, and what stands after it."""
        number = self.take(1)[0]
        if number in (0xFC, 0xFD):
            number = number << 8 | self.number()
        if number == BR_TABLE:
            return number, tuple(self.number() for _ in range(self.number() + 1))
        after = (MAKES.get(number) or DOES.get(number) or [None])[0]
        if after is None:
            raise Differs(f"the instruction {number:#x} is not known")
        if after.isdigit():
            return number, (self.take(int(after)),)
        return number, tuple(self.take(1) if it == "1" else self.number(it == "i") for it in after)


class Module:
    """The sections of a module, each as lists of what stands in it."""

    def __init__(self, data):
        reader, self.sections = Reader(data), []
        self.head, self.bits, self.limits, self.bodies = reader.take(8), {}, {}, []
        self.types, self.functions, self.segments = [], [], {}
        while reader.at < len(data):
            number, part = reader.take(1)[0], reader.part()
            if number == 1:
                self.types = part.list(lambda it: (it.take(1), it.part().data, it.part().data))
            elif number == 3:
                self.functions = part.list(Reader.number)
            elif number in (4, 5):
                self.limits[number] = part.list(lambda it: self.limit(it, number))
            elif number in (9, 11):
                self.segments[number] = part.list(lambda it: self.segment(it, number))
            elif number == 10:
                self.bodies = part.list(Reader.part)
            elif number in (6, 7, 8, 12) or number == 0 and part.data[1:16] != b"target_features":
                self.sections.append((number, part.data))
            elif number != 0:
                raise Differs(f"a section {number} is not known")

    def limit(self, it, number):
        kind, flags = it.take(1) if number == 4 else b"", it.take(1)[0]
        if number in self.bits or flags & ~5:
            raise Differs("a second memory or table, or one of another kind")
        self.bits[number] = 64 if flags & 4 else 32
        most = 2**16 if number == 5 else 2**32 - 1
        return kind, it.number(), min(it.number(), most) if flags & 1 else None

    def segment(self, it, number):
        kind, place = it.number(), it.instruction()
        bits = 64 if place[0] == I64 else 32
        if kind or place[0] not in (I32, I64) or bits != self.bits.get(5 if number == 11 else 4) or it.take(1)[0] != END:
            raise Differs("a segment of another kind")
        held = it.part().data if number == 11 else [it.number() for _ in range(it.number())]
        return place[1][0] % 2**bits, held


class Side:
    """One of two functions: what lies on its stack and in its locals."""

    def __init__(self, module, number, values):
        self.reader, self.values = module.bodies[number], values
        _, given, self.answers = module.types[module.functions[number]]
        self.types = given + b"".join(Reader.number(self.reader) * self.reader.take(1) for _ in range(self.reader.number()))
        self.stack, self.known, self.floor, self.is_dead, self.at = [], {}, 0, False, -1

    def pop(self, count=1):
        lacks = self.floor + count - len(self.stack)
        if lacks > 0:
            if not self.is_dead:
                raise Differs("a value is missing on the stack")
            self.stack[self.floor : self.floor] = [self.values("none")] * lacks
        first = len(self.stack) - count
        taken = self.stack[first:]
        del self.stack[first:]
        return taken

    def next(self, count, label):
        """Goes to the next instruction that does something, over those that only make or move a value: its number, what
        stands after it. Locals from `count` on hold nothing but what was set since the last branch."""
        while True:
            self.at += 1
            number, after = self.reader.instruction()
            if number in MAKES:
                self.stack.append(self.values(number, after, *self.pop(MAKES[number][1])))
            elif number in LOCALS:
                local = after[0]
                if number != 0x20:
                    self.known[local] = self.pop()[0]
                if number != 0x21:
                    if local >= count and local not in self.known:
                        raise Differs(f"local {local} holds nothing yet")
                    self.stack.append(self.known.get(local, self.values("local", label, local)))
            else:
                return number, after

    def held(self, count):
        return {local: value for local, value in self.known.items() if local < count}


class Pair:
    """A function of both modules, from its first instruction to its last."""

    def __init__(self, wide, narrow, number):
        self.names, self.changes, self.event, self.module = {}, Counter(), 0, wide
        self.sides = [Side(module, number, self.value) for module in (wide, narrow)]
        self.count = len(self.sides[0].types)
        # Of each open block how many values it takes and gives, and what held outside of it: no code comes here, the floor.
        self.blocks = [(0, len(self.sides[0].answers), False, 0)]
        if self.sides[1].types[: self.count] != self.sides[0].types:
            raise Differs("its locals")
        self.changes["locals"] = len(self.sides[1].types) - self.count

    def value(self, *made):
        return self.names.setdefault(made, len(self.names))

    def wrapped(self, value):
        return self.value(WRAP, (), value)

    def taken(self, number, after):
        """How many values an instruction takes and gives."""
        if number not in (CALL, CALL_BY_TABLE):
            return DOES[number][1:]
        _, given, answers = self.module.types[after[0] if number == CALL_BY_TABLE else self.module.functions[after[0]]]
        return len(given) + (number == CALL_BY_TABLE), len(answers)

    def does(self, number, after):
        """An instruction that does something: both must take the same, but for what may differ."""
        takes, gives = self.taken(number, after)
        wide, narrow = (side.pop(takes) for side in self.sides)
        places = PLACES.get(number, ())
        if number == CALL_BY_TABLE and self.module.bits[4] == 64:
            places = (takes - 1,)
        wanted = [self.wrapped(it) if at in places else it for at, it in enumerate(wide)]
        self.changes["tables" if number == CALL_BY_TABLE else "addresses"] += len(places)
        if number == GROW:
            is_short = self.value(EQZ, (), self.value(SHIFT, (), wide[0], self.value(I64, (32,))))
            wanted = [self.value(SELECT, (), self.wrapped(wide[0]), self.value(I32, (-1,)), is_short)]
        if narrow != wanted:
            raise Differs("it takes other values")
        made = [self.value("made", self.event, at) for at in range(gives)]
        self.sides[0].stack += made
        if number in (SIZE, GROW):
            half = self.value("half", self.event)
            self.names[EXTEND_U if number == SIZE else EXTEND_S, (), half] = made[0]
            self.changes["sizes"] += 1
            made = [half]
        self.sides[1].stack += made

    def shape(self, kind):
        """How many values a block of this type takes and gives."""
        if kind >= 0:
            return tuple(map(len, self.module.types[kind][1:]))
        return 0, int(kind != -0x40)

    def branches(self, number, after):
        """Where the code branches all must be the same; then nothing is known of the locals but that they are."""
        wide, narrow = self.sides
        taken = [side.pop(number in (IF, BR_IF, BR_TABLE)) for side in self.sides]
        if taken[0] != taken[1] or wide.stack != narrow.stack or wide.held(self.count) != narrow.held(self.count):
            raise Differs("something else lies on the stack or in the locals")
        for side in self.sides:
            side.known = {}
        if number in (BLOCK, LOOP, IF):
            takes, gives = self.shape(after[0])
            self.blocks.append((takes, gives, wide.is_dead, wide.floor))
            height = len(wide.stack) - takes
            self.go_on(height, takes, False, height)
        elif number == ELSE:
            self.go_on(wide.floor, self.blocks[-1][0], False, wide.floor)
        elif number == END:
            _, gives, is_dead, floor = self.blocks.pop()
            self.go_on(wide.floor, gives, is_dead, floor)
        elif number != BR_IF:
            self.go_on(wide.floor, 0, True, wide.floor)

    def go_on(self, height, more, is_dead, floor):
        """Both stacks from here on: what lay below a height, and so many values more."""
        for side in self.sides:
            side.stack[height:] = [self.value("there", self.event, at) for at in range(more)]
            side.floor, side.is_dead = floor, is_dead

    def compare(self):
        label = 0
        while self.blocks:
            self.event += 1
            (wide, after), (narrow, other) = (side.next(self.count, label) for side in self.sides)
            if (wide, after) != (narrow, other):
                raise Differs(f"{narrow:#x} {other} in place of {wide:#x} {after}")
            if wide in (STOP, BLOCK, LOOP, IF, ELSE, END, BR, BR_IF, BR_TABLE, RETURN):
                label = self.event
                self.branches(wide, after)
            else:
                self.does(wide, after)
        if any(side.reader.at != len(side.reader.data) for side in self.sides):
            raise Differs("more after its end")
        return self.event


def compare(wide, narrow):
    """What was compared: functions, instructions, changes of each kind. Raises Differs at the first difference."""
    wide, narrow = Module(wide), Module(narrow)
    if wide.bits.get(5) != 64 or set(narrow.bits.values()) != {32}:
        raise Differs("the memory of the first has to have 64 bits, and all of the second 32")
    for name in ("head", "types", "functions", "sections", "limits", "segments"):
        if getattr(wide, name) != getattr(narrow, name):
            raise Differs(f"the module's {name}")
    if not len(wide.functions) == len(wide.bodies) == len(narrow.bodies):
        raise Differs("the number of functions")
    changes, instructions = Counter(), 0
    for number in range(len(wide.bodies)):
        pair = None
        try:
            pair = Pair(wide, narrow, number)
            instructions += pair.compare()
        except Differs as why:
            at = pair.sides[1].at if pair else 0
            raise Differs(f"function {number}, instruction {at}: {why}") from None
        changes += pair.changes
    return len(wide.bodies), instructions, changes


def main():
    if len(sys.argv) != 3:
        sys.exit(__doc__)
    held = []
    for path in sys.argv[1:]:
        with open(path, "rb") as file:
            held.append(file.read())
    try:
        functions, instructions, changes = compare(*held)
    except Differs as why:
        sys.exit(f"{sys.argv[2]} is not what {sys.argv[1]} is: {why}")
    told = ", ".join(f"{changes[kind]} {kind}" for kind in ("addresses", "tables", "sizes", "locals"))
    print(f"{sys.argv[2]}: {functions} functions do what they do in {sys.argv[1]}, compared at {instructions} places; changed: {told}")


if __name__ == "__main__":
    main()
