"""Pictures and tiles: bits that `memoryview` shows, and arrays if numpy is installed. They are copies, so they stay as they
are when the station draws again, and when it is closed."""

from __future__ import annotations

from dataclasses import dataclass
from typing import Any


def _numpy() -> Any:
    try:
        import numpy
    except ImportError:
        raise ImportError("array() needs numpy; without it read `data`") from None
    return numpy


@dataclass(frozen=True)
class Picture:
    """A plot: `height` rows of `width` pixels from the top. `pbm` is the whole PBM file."""

    width: int
    height: int
    pbm: bytes

    def __repr__(self) -> str:
        return f"<camplot.Picture of {self.width} by {self.height} pixels>"

    @classmethod
    def from_pbm(cls, pbm: bytes) -> Picture:
        """The picture of a PBM file as plots write it: P4, and the sides in a line of their own."""
        magic, sides, _ = pbm.split(b"\n", 2)
        width, height = map(int, sides.split())
        picture = cls(width, height, pbm)
        if magic != b"P4" or len(pbm) != len(magic) + len(sides) + 2 + picture.stride * height:
            raise ValueError("this is no PBM file of a plot")
        return picture

    @property
    def stride(self) -> int:
        """The bytes of a row."""
        return (self.width + 7) // 8

    @property
    def data(self) -> memoryview:
        """The rows alone, one after another, each of `stride` bytes: eight pixels a byte, the leftmost in the highest bit;
        1 is black. Read-only."""
        return memoryview(self.pbm)[len(self.pbm) - self.stride * self.height :]

    def pixel(self, column: int, row: int) -> bool:
        """Whether a pixel is black. Columns count from the left and rows from the top, from 0."""
        if not (0 <= column < self.width and 0 <= row < self.height):
            raise IndexError(f"({column}, {row}) is no pixel of {self.width} by {self.height}")
        return bool(self.data[row * self.stride + column // 8] >> (7 - column % 8) & 1)

    def array(self) -> Any:
        """The pixels as a numpy array of bool, rows first."""
        numpy = _numpy()
        rows = numpy.frombuffer(self.data, dtype=numpy.uint8).reshape(self.height, self.stride)
        return numpy.unpackbits(rows, axis=1)[:, : self.width].astype(bool)


@dataclass(frozen=True)
class Tile:
    """A clean tile: 64 rows of 64 pixels from the top. `octets` are its 512 bytes."""

    octets: bytes

    def __repr__(self) -> str:
        return f"<camplot.Tile of 64 by 64 pixels, {self.count()} of them black>"

    @property
    def data(self) -> memoryview:
        """The rows as 64 words of 64 bits: bit i is column i, 1 is black. Read-only."""
        return memoryview(self.octets).cast("Q")

    def pixel(self, column: int, row: int) -> bool:
        """Whether a pixel is black. Columns count from the left and rows from the top, from 0."""
        if not (0 <= column < 64 and 0 <= row < 64):
            raise IndexError(f"({column}, {row}) is no pixel of a tile")
        return bool(self.data[row] >> column & 1)

    def count(self) -> int:
        """How many pixels are black."""
        return sum(row.bit_count() for row in self.data)

    def array(self) -> Any:
        """The pixels as a numpy array of bool, rows first."""
        numpy = _numpy()
        rows = numpy.frombuffer(self.octets, dtype=numpy.uint8).reshape(64, 8)
        return numpy.unpackbits(rows, axis=1, bitorder="little").astype(bool)
