"""Items of layers as values. Each can be made from the words of a script line, and told in them."""

from __future__ import annotations

from collections.abc import Callable, Iterable
from dataclasses import dataclass
from typing import NamedTuple


class Point(NamedTuple):
    """A point in nm."""

    x: int
    y: int


class Turn(NamedTuple):
    """How an aperture is placed: mirrored first, which negates x, and then turned by 0, 90, 180 or 270 degrees
    counterclockwise."""

    degrees: int = 0
    mirrored: bool = False

    @property
    def word(self) -> str:
        """As a script line has it: `r90`, `m0`."""
        return f"{'m' if self.mirrored else 'r'}{self.degrees}"


class LineTo(NamedTuple):
    """A straight segment of a contour, to a point."""

    to: Point


class ArcTo(NamedTuple):
    """A segment of a contour along an arc, to a point about a centre."""

    to: Point
    centre: Point
    clockwise: bool


@dataclass(frozen=True)
class Item:
    """An item of a layer: one of `Flash`, `Draw`, `Arc`, `Region`, `Repeat`, `Hit` and `Rout`."""

    @property
    def words(self) -> str:
        """The words of a line that inserts it. A repeat, which no line inserts, is told without its objects."""
        raise NotImplementedError

    @property
    def kind(self) -> str:
        """The first of its words: flash, draw, arc, region, repeat, hit or rout."""
        return type(self).__name__.lower()

    @staticmethod
    def of(words: str) -> Item:
        """The item that words tell, those of a repeat with its objects in lines below. ValueError if they tell none."""
        first, *below = words.split("\n")
        kind, *rest = first.split() or [""]
        try:
            if kind == "repeat":
                columns, rows, dx, dy, _ = map(int, rest)
                return Repeat(columns, rows, dx, dy, tuple(map(Item.of, below)))
            item = _READERS[kind](*rest)
        except (KeyError, TypeError, StopIteration, ValueError):
            raise ValueError(f"no words of an item: {words[:80]!r}") from None
        if below:
            raise ValueError(f"more than the words of an item: {words[:80]!r}")
        return item


@dataclass(frozen=True)
class Flash(Item):
    """An aperture or a block at a point."""

    aperture: int
    at: Point
    turn: Turn = Turn()
    dark: bool = True

    @property
    def words(self) -> str:
        return _told("flash", self.aperture, *self.at, self.turn.word, _polarity(self.dark))


@dataclass(frozen=True)
class Draw(Item):
    """A straight stroke with an aperture."""

    aperture: int
    start: Point
    end: Point
    turn: Turn = Turn()
    dark: bool = True

    @property
    def words(self) -> str:
        return _told("draw", self.aperture, *self.start, *self.end, self.turn.word, _polarity(self.dark))


@dataclass(frozen=True)
class Arc(Item):
    """A stroke along an arc, a full circle where it ends at its start."""

    aperture: int
    start: Point
    end: Point
    centre: Point
    clockwise: bool = False
    dark: bool = True

    @property
    def words(self) -> str:
        points = *self.start, *self.end, *self.centre
        return _told("arc", self.aperture, *points, _direction(self.clockwise), _polarity(self.dark))


@dataclass(frozen=True)
class Region(Item):
    """The inside of a contour."""

    start: Point
    segments: tuple[LineTo | ArcTo, ...]
    dark: bool = True

    @property
    def words(self) -> str:
        told: list[object] = ["region", _polarity(self.dark), *self.start]
        for it in self.segments:
            told += ["l", *it.to] if isinstance(it, LineTo) else [_direction(it.clockwise), *it.to, *it.centre]
        return _told(*told)


@dataclass(frozen=True)
class Repeat(Item):
    """Objects in columns and rows, at steps in nm."""

    columns: int
    rows: int
    dx: int
    dy: int
    objects: tuple[Item, ...] = ()

    @property
    def words(self) -> str:
        return _told("repeat", self.columns, self.rows, self.dx, self.dy, len(self.objects))


@dataclass(frozen=True)
class Hit(Item):
    """A hole of a tool."""

    tool: int
    at: Point

    @property
    def words(self) -> str:
        return _told("hit", self.tool, *self.at)


@dataclass(frozen=True)
class Rout(Item):
    """A slot of a tool, from each point to the next."""

    tool: int
    points: tuple[Point, ...]

    @property
    def words(self) -> str:
        return _told("rout", self.tool, *(each for point in self.points for each in point))


def _told(*words: object) -> str:
    return " ".join(map(str, words))


def _polarity(dark: bool) -> str:
    return "dark" if dark else "clear"


def _direction(clockwise: bool) -> str:
    return "cw" if clockwise else "ccw"


# The readers: each takes the words after the kind.
_TURNS = {turn.word: turn for mirrored in (False, True) for turn in (Turn(it, mirrored) for it in (0, 90, 180, 270))}
_IS_DARK = {"dark": True, "clear": False}
_IS_CLOCKWISE = {"cw": True, "ccw": False}


def _points(numbers: Iterable[str]) -> list[Point]:
    each = map(int, numbers)
    return [Point(x, y) for x, y in zip(each, each, strict=True)]


def _flash(aperture: str, x: str, y: str, turn: str, polarity: str) -> Item:
    return Flash(int(aperture), Point(int(x), int(y)), _TURNS[turn], _IS_DARK[polarity])


def _draw(aperture: str, x1: str, y1: str, x2: str, y2: str, turn: str, polarity: str) -> Item:
    return Draw(int(aperture), Point(int(x1), int(y1)), Point(int(x2), int(y2)), _TURNS[turn], _IS_DARK[polarity])


def _arc(aperture: str, *rest: str) -> Item:
    *numbers, direction, polarity = rest
    start, end, centre = _points(numbers)
    return Arc(int(aperture), start, end, centre, _IS_CLOCKWISE[direction], _IS_DARK[polarity])


def _region(polarity: str, x: str, y: str, *rest: str) -> Item:
    segments: list[LineTo | ArcTo] = []
    words = iter(rest)
    for kind in words:
        to = Point(int(next(words)), int(next(words)))
        if kind == "l":
            segments.append(LineTo(to))
        else:
            segments.append(ArcTo(to, Point(int(next(words)), int(next(words))), _IS_CLOCKWISE[kind]))
    return Region(Point(int(x), int(y)), tuple(segments), _IS_DARK[polarity])


def _hit(tool: str, x: str, y: str) -> Item:
    return Hit(int(tool), Point(int(x), int(y)))


def _rout(tool: str, *numbers: str) -> Item:
    return Rout(int(tool), tuple(_points(numbers)))


_READERS: dict[str, Callable[..., Item]] = {
    "flash": _flash,
    "draw": _draw,
    "arc": _arc,
    "region": _region,
    "hit": _hit,
    "rout": _rout,
}
