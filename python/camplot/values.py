"""What the station answers of layers, as values."""

from __future__ import annotations

import re
from dataclasses import dataclass
from typing import Literal, NamedTuple, cast

from camplot.items import Item

Kind = Literal["gerber", "drill"]


@dataclass(frozen=True)
class Layer:
    """A layer: its name, `gerber` or `drill`, how many items it has, and how many apertures and blocks, or tools."""

    name: str
    kind: Kind
    items: int
    entries: int


class Box(NamedTuple):
    """A box with its edges, in nm. An edge may lie half-way between two nanometres."""

    left: float
    low: float
    right: float
    high: float


@dataclass(frozen=True)
class Aperture:
    """An aperture: its number, and its definition in the lines of the canonical text, after that of its macro if it is
    made of one."""

    number: int
    definition: str

    @property
    def template(self) -> str:
        """`C` for a circle, `R` for a rectangle, `O` for an obround, else the name of a macro."""
        return self._parts()[0]

    @property
    def sizes(self) -> tuple[int, ...]:
        """Its diameter or its sides in nm, and the diameter of its hole if it has one; none if it is made of a macro."""
        return tuple(nanometres(it) for it in self._parts()[1:])

    def _parts(self) -> list[str]:
        last = self.definition.rstrip("\n").rpartition("\n")[2]
        template, _, sizes = re.sub(r"^%ADD\d+|\*%$", "", last).partition(",")
        return [template, *(sizes.split("X") if sizes else [])]


@dataclass(frozen=True)
class Block:
    """A block aperture: its number and its objects."""

    number: int
    objects: tuple[Item, ...]


@dataclass(frozen=True)
class Tool:
    """A tool of a drill layer: its number, and its diameter in nm."""

    number: int
    diameter: int


Entry = Aperture | Block | Tool


@dataclass(frozen=True)
class Attribute:
    """A file attribute: its name and its fields. Bytes that are no UTF-8 are kept as `surrogateescape` has them."""

    name: str
    fields: tuple[str, ...] = ()


class History(NamedTuple):
    """How many edits and groups can be taken back and made again, and how many edits the open group has, if one is open."""

    undo: int
    redo: int
    group: int | None = None


class Window(NamedTuple):
    """What plots show: the lower left corner and the pitch in nm, the sides in pixels."""

    x: int
    y: int
    pitch: int
    width: int
    height: int

    @property
    def tiles(self) -> tuple[int, int]:
        """How many tiles lie side by side, and how many below one another. They are counted row by row from the top."""
        return (self.width + 63) // 64, (self.height + 63) // 64


def nanometres(text: str) -> int:
    """A length in mm with six decimals, as canonical texts have it, in nm."""
    return int(text.replace(".", ""))


def layer_of(line: str) -> Layer:
    """The layer of a line of an answer."""
    name, kind, items, entries = line.split()
    return Layer(name, cast(Kind, kind), int(items), int(entries))


def items_of(text: str) -> list[Item]:
    """The items of an answer: the objects of a repeat stand below it, after two spaces each."""
    return [Item.of(lines) for lines in re.split(r"\n(?! )", text.removesuffix("\n"))] if text else []


def box_of(text: str) -> Box | None:
    """The box of an answer; None if that has no line."""
    return Box(*(float(it) for it in text.split())) if text else None


def entries_of(text: str) -> list[Entry]:
    """The entries of an answer: a first line begins with a small letter, and what follows it is the definition."""
    return [_entry(*lines.split("\n")) for lines in re.split(r"\n(?=[a-z])", text.removesuffix("\n"))] if text else []


def _entry(head: str, *below: str) -> Entry:
    kind, number = head.split()[0], int(head.split()[1])
    if kind == "block":
        return Block(number, tuple(Item.of(it) for it in below))
    if kind == "tool":
        return Tool(number, nanometres(below[0].partition("C")[2]))
    return Aperture(number, "".join(f"{it}\n" for it in below))


def attribute_of(line: str) -> Attribute:
    """The attribute of a line of an answer."""
    name, *fields = line.split(",")
    return Attribute(name, tuple(fields))


def history_of(text: str) -> History:
    """The counts of an answer."""
    return History(*(int(it) for it in text.split()))
