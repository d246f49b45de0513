"""The station."""

from __future__ import annotations

import os
from types import TracebackType
from typing import NoReturn

from camplot import values
from camplot.arguments import Line, line_of
from camplot.errors import Error, Refused
from camplot.items import Item
from camplot.library import load
from camplot.pictures import Picture, Tile
from camplot.session import LARGEST, Session
from camplot.values import Attribute, Box, Entry, History, Layer, Window

_NO_LAYER = 60
_BAD_LINE = 80
_FILE_FAULT = 82
_ACCEPTED = 0


def _bytes(line: str | bytes) -> bytes:
    return line.encode(errors="surrogateescape") if isinstance(line, str) else line


class Group:
    """A group of edits, which is taken back as one: `with station.group(): ..`. An exception in it takes its edits back."""

    def __init__(self, station: Station):
        self._station = station

    def __enter__(self) -> Group:
        self._station.apply("begin")
        return self

    def __exit__(self, kind: type[BaseException] | None, fault: BaseException | None, trace: TracebackType | None) -> None:
        if kind is None:
            self._station.apply("end")
            return
        try:
            self._station.apply("abort")
        except Error:
            pass  # (it was closed in the block, or its group was: the exception of the block tells more)


class Station:
    """A board of named layers, with a history of up to `depth` edits and groups that can be taken back.

    Close it, or use it in a `with` statement. `library` is the path of libcamplot.so, which is found if none is given.

    A call that the station refuses raises `Refused`. A station stays in one thread: a call from another than the one that
    opened it raises `WrongThread`, and a call after its end `Closed`. Two stations are two, and each may have its thread.
    """

    def __init__(self, depth: int = 100, library: str | os.PathLike[str] | None = None):
        self._session = Session(load(library), depth)
        # the places of layers in the order of their loads: no layer ever goes, and none changes its name
        self._order: dict[str, int] = {}

    def __enter__(self) -> Station:
        return self

    def __exit__(self, *_: object) -> None:
        self.close()

    def __repr__(self) -> str:
        return f"<camplot.Station{', closed' if self.closed else ''}>"

    def __reduce__(self) -> NoReturn:
        raise TypeError("a station can be neither copied nor pickled")

    @property
    def closed(self) -> bool:
        """Whether the station was closed."""
        return self._session.closed

    def close(self) -> None:
        """Ends the station and gives its memory back. What it answered stays. Once it is closed, this does nothing."""
        self._session.close()

    # ---- lines and questions in their own words

    def apply(self, line: str | bytes, file: bytes | bytearray | memoryview | None = None) -> tuple[int, ...]:
        """Applies a line of a script, with the bytes of the file that a load reads. Answers the numbers of its reply."""
        words = _bytes(line)
        data = file if file is None or isinstance(file, bytes) else bytes(memoryview(file))
        code = self._session.apply(words, data)
        reply = self._session.reply.split()
        if code == _BAD_LINE and isinstance(line, Line):
            raise line.refused()
        if code == _FILE_FAULT and data is None:
            # no path is read here: it is the bytes that are missing
            raise TypeError("this load needs `file`, the bytes of the file that it reads")
        if code != _ACCEPTED:
            at = int(reply[2]) if len(reply) > 2 else None
            raise Refused(code, at, words[:80].decode(errors="replace"))
        return tuple(int(it) for it in reply[1:])

    def ask(self, question: str | bytes) -> str:
        """Asks a question of docs/questions.md. Answers its text."""
        words = _bytes(question)
        code = self._session.ask(words)
        if code == _BAD_LINE and isinstance(question, Line):
            raise question.refused()
        if code != _ACCEPTED:
            raise Refused(code, call=words[:80].decode(errors="replace"))
        return self._session.file.decode(errors="surrogateescape")

    # ---- layers

    def load_gerber(self, name: str, data: bytes | bytearray | memoryview) -> int:
        """Reads the bytes of a Gerber file as a new layer. Answers how many items it has."""
        return self._load("gerber", name, data)

    def load_drill(self, name: str, data: bytes | bytearray | memoryview) -> int:
        """Reads the bytes of a drill file (XNC) as a new layer. Answers how many items it has."""
        return self._load("drill", name, data)

    def _load(self, kind: str, name: str, data: bytes | bytearray | memoryview) -> int:
        if not isinstance(data, (bytes, bytearray, memoryview)):
            raise TypeError(f"`data` is the bytes of the file, as Path(..).read_bytes() gives them, not {type(data).__name__}")
        return self.apply(line_of(f"load {{name}} {kind} file", name=name), data)[0]

    def text(self, name: str) -> bytes:
        """The canonical text of a layer, Gerber or XNC."""
        self.apply(line_of("write {name} file", name=name))
        return self._session.file

    # ---- pictures

    def set_window(self, x: int, y: int, pitch: int, width: int, height: int) -> Window:
        """Sets what plots show: the lower left corner and the pitch in nm, the sides in pixels."""
        self.apply(line_of("window {x} {y} {pitch} {width} {height}", x=x, y=y, pitch=pitch, width=width, height=height))
        return Window(x, y, pitch, width, height)

    def redraw(self, at_most: int) -> int:
        """Draws at most so many dirty tiles, by layer and then by number. Answers how many it drew."""
        return self.apply(line_of("redraw {at_most}", at_most=at_most))[0]

    def plot(self, name: str) -> Picture:
        """Draws the dirty tiles of a layer. Answers its picture in the window."""
        self.apply(line_of("plot {name} file", name=name))
        return Picture.from_pbm(self._session.file)

    def tile(self, name: str, number: int) -> Tile | None:
        """A tile of 64 by 64 pixels of a layer. They are counted from 0, row by row from the top left of the window. None if
        it is dirty, or the window has no such tile."""
        octets = self._session.tile(self._place_of(name), number)
        return None if octets is None else Tile(octets)

    def _place_of(self, name: str) -> int:
        if name not in self._order:
            self._order = {layer.name: place for place, layer in enumerate(self.layers())}
        if name not in self._order:
            raise Refused(_NO_LAYER, call=f"tile {name}")
        return self._order[name]

    # ---- edits

    def insert(self, name: str, place: int, item: Item | str) -> None:
        """Inserts an item at a place, which is at most one past the last. It may be in the words of a script line."""
        self.apply(line_of("insert {name} {place}", item.words if isinstance(item, Item) else item, name=name, place=place))

    def delete(self, name: str, place: int) -> None:
        """Deletes an item."""
        self.apply(line_of("delete {name} {place}", name=name, place=place))

    def move(self, name: str, place: int, dx: int, dy: int) -> None:
        """Moves an item, by nm."""
        self.apply(line_of("move {name} {place} {dx} {dy}", name=name, place=place, dx=dx, dy=dy))

    def reorder(self, name: str, place: int, to: int) -> None:
        """Takes an item out, and sets it at a place of the list without it."""
        self.apply(line_of("reorder {name} {place} {to}", name=name, place=place, to=to))

    def set_aperture(self, name: str, place: int, number: int) -> None:
        """Gives an item another aperture, by its number."""
        self.apply(line_of("aperture {name} {place} {number}", name=name, place=place, number=number))

    def set_polarity(self, name: str, place: int, dark: bool) -> None:
        """Makes an item dark or clear."""
        polarity = "dark" if dark else "clear"
        self.apply(line_of(f"polarity {{name}} {{place}} {polarity}", name=name, place=place))

    def set_tool(self, name: str, place: int, tool: int) -> None:
        """Gives an item of a drill layer another tool, by its number."""
        self.apply(line_of("tool {name} {place} {tool}", name=name, place=place, tool=tool))

    def set_diameter(self, name: str, tool: int, diameter: int) -> None:
        """Gives a tool another diameter, in nm."""
        self.apply(line_of("diameter {name} {tool} {diameter}", name=name, tool=tool, diameter=diameter))

    def set_attribute(self, name: str, key: str, *fields: str) -> None:
        """Sets a file attribute to its fields, or to none: `set_attribute("top", ".FileFunction", "Copper", "L1", "Top")`."""
        if not fields:
            self.apply(line_of("setattr {name} {key}", name=name, key=key))
            return
        self.apply(line_of("setattr {name} {key} {fields}", name=name, key=key, fields=",".join(fields)))

    def drop_attribute(self, name: str, key: str) -> None:
        """Drops a file attribute."""
        self.apply(line_of("dropattr {name} {key}", name=name, key=key))

    def group(self) -> Group:
        """A group of edits, for a `with` statement: they are taken back as one."""
        return Group(self)

    def undo(self) -> None:
        """Takes the last edit or group back."""
        self.apply("undo")

    def redo(self) -> None:
        """Makes the edit or group that was taken back last again."""
        self.apply("redo")

    # ---- questions, which change nothing

    def layers(self) -> list[Layer]:
        """The layers, in the order of their loads."""
        return [values.layer_of(line) for line in self.ask("layers").splitlines()]

    def layer(self, name: str) -> Layer:
        """The layer of a name."""
        found = next((layer for layer in self.layers() if layer.name == name), None)
        if found is None:
            raise Refused(_NO_LAYER, call=f"layer {name}")
        return found

    def item_at(self, name: str, x: int, y: int, before: int | None = None) -> int | None:
        """The place of the topmost item at a point, of those before a place if one is given; None if there is none, and
        off the board. Asked again with `before` set to the answer, it gives the item below."""
        asked = line_of("at {name} {x} {y}", name=name, x=x, y=y)
        if before is not None:
            asked = line_of("at {name} {x} {y} {before}", name=name, x=x, y=y, before=before)
        found = self.ask(asked)
        return int(found) if found else None

    def items_at(self, name: str, x: int, y: int) -> list[int]:
        """The places of all items at a point of the board, the topmost first."""
        found: list[int] = []
        place = self.item_at(name, x, y)
        while place is not None:
            found.append(place)
            place = self.item_at(name, x, y, place)
        return found

    def items_in(self, name: str, x0: int, y0: int, x1: int, y1: int) -> list[int]:
        """The places of the items that lie in the box between two points: those whose boxes do, and arcs of which the
        box of the stroke does."""
        question = line_of("in {name} {x0} {y0} {x1} {y1}", name=name, x0=x0, y0=y0, x1=x1, y1=y1)
        return [int(line) for line in self.ask(question).splitlines()]

    def item(self, name: str, place: int) -> Item:
        """The item at a place."""
        return values.items_of(self.ask(line_of("item {name} {place}", name=name, place=place)))[0]

    def items(self, name: str, start: int = 0, count: int = LARGEST) -> list[Item]:
        """The items from a place on, `count` at most; none if the place is right after the last."""
        return values.items_of(self.ask(line_of("items {name} {start} {count}", name=name, start=start, count=count)))

    def box(self, name: str, place: int | None = None) -> Box | None:
        """The box of a layer, or of the item at a place; None if it paints nothing."""
        if place is None:
            return values.box_of(self.ask(line_of("box {name}", name=name)))
        return values.box_of(self.ask(line_of("box {name} {place}", name=name, place=place)))

    def entry(self, name: str, place: int) -> Entry:
        """The aperture, block or tool at a place of their order."""
        return values.entries_of(self.ask(line_of("entry {name} {place}", name=name, place=place)))[0]

    def entries(self, name: str) -> list[Entry]:
        """The apertures and blocks, or the tools, in order."""
        return values.entries_of(self.ask(line_of("entries {name}", name=name)))

    def attributes(self, name: str) -> list[Attribute]:
        """The file attributes, in order. A line end in a field, which no standard field has, begins another attribute."""
        return [values.attribute_of(line) for line in self.ask(line_of("attributes {name}", name=name)).split("\n")[:-1]]

    def history(self) -> History:
        """How many edits and groups can be taken back and made again."""
        return values.history_of(self.ask("history"))
