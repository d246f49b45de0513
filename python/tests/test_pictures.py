"""Pictures and tiles: their bits, their views, and arrays where numpy is installed."""

from __future__ import annotations

import importlib.util
import pickle
import subprocess
import tempfile
import unittest
from pathlib import Path
from unittest import mock

import camplot
from camplot import Picture, Tile
from support import PROGRAM, TOP, WithStation, needs_library, needs_program

needs_numpy = unittest.skipUnless(importlib.util.find_spec("numpy"), "numpy is not installed")

# 10 by 2 pixels: the first and the last of row 0, the second of row 1
SMALL = b"P4\n10 2\n\x80\x40\x40\x00"


class Bits(unittest.TestCase):
    def test_a_picture(self) -> None:
        picture = Picture.from_pbm(SMALL)
        self.assertEqual((picture.width, picture.height, picture.stride), (10, 2, 2))
        self.assertEqual(bytes(picture.data), SMALL[-4:])
        black = [(column, row) for row in range(2) for column in range(10) if picture.pixel(column, row)]
        self.assertEqual(black, [(0, 0), (9, 0), (1, 1)])
        for column, row in ((10, 0), (0, 2), (-1, 0), (0, -1)):
            with self.assertRaises(IndexError):
                picture.pixel(column, row)

    def test_rows_that_look_like_line_ends(self) -> None:
        picture = Picture.from_pbm(b"P4\n8 3\n\n\n\n")
        self.assertEqual(bytes(picture.data), b"\n\n\n")

    def test_no_picture(self) -> None:
        for pbm in (b"", b"P4\n8 3\n..", b"P5\n8 3\n...", b"P4\n8 3\n....", b"P4\n8\n"):
            with self.assertRaises(ValueError):
                Picture.from_pbm(pbm)

    def test_views_are_read_only(self) -> None:
        for data in (Picture.from_pbm(SMALL).data, Tile(bytes(512)).data):
            self.assertIsInstance(data, memoryview)
            self.assertTrue(data.readonly)

    def test_a_tile(self) -> None:
        tile = Tile(b"\x01" + bytes(7) + bytes(7) + b"\x80" + bytes(496))
        self.assertEqual((len(tile.data), tile.data.itemsize), (64, 8))
        self.assertEqual((tile.data[0], tile.data[1]), (1, 1 << 63))
        self.assertTrue(tile.pixel(0, 0) and tile.pixel(63, 1))
        self.assertFalse(tile.pixel(1, 0))
        self.assertEqual(tile.count(), 2)
        with self.assertRaises(IndexError):
            tile.pixel(64, 0)

    def test_printed_by_their_sides(self) -> None:
        self.assertEqual(repr(Picture.from_pbm(SMALL)), "<camplot.Picture of 10 by 2 pixels>")
        self.assertEqual(repr(Tile(b"\x03" + bytes(511))), "<camplot.Tile of 64 by 64 pixels, 2 of them black>")

    def test_kept_compared_and_pickled(self) -> None:
        for value in (Picture.from_pbm(SMALL), Tile(bytes(512))):
            self.assertEqual(pickle.loads(pickle.dumps(value)), value)
            self.assertEqual(len({value, pickle.loads(pickle.dumps(value))}), 1)

    def test_without_numpy(self) -> None:
        with mock.patch.dict("sys.modules", {"numpy": None}), self.assertRaisesRegex(ImportError, "needs numpy"):
            Picture.from_pbm(SMALL).array()

    @needs_numpy
    def test_arrays(self) -> None:
        picture = Picture.from_pbm(SMALL)
        array = picture.array()
        self.assertEqual((array.shape, array.dtype.name), ((2, 10), "bool"))
        tile = Tile(bytes(range(256)) * 2)
        rows = tile.array()
        self.assertEqual((rows.shape, rows.dtype.name), ((64, 64), "bool"))
        for row in range(64):
            for column in range(64):
                self.assertEqual(bool(rows[row, column]), tile.pixel(column, row))
                if row < 2 and column < 10:
                    self.assertEqual(bool(array[row, column]), picture.pixel(column, row))


@needs_library
class Plots(WithStation):
    def test_tiles_are_those_of_the_picture(self) -> None:
        window = self.station.set_window(-500_000, -500_000, 100_000, 100, 70)
        self.assertEqual(window.tiles, (2, 2))
        self.assertIsNone(self.station.tile("top", 0))
        self.assertEqual(self.station.redraw(1), 1)
        self.assertIsNotNone(self.station.tile("top", 0))
        self.assertIsNone(self.station.tile("top", 1))
        picture = self.station.plot("top")
        self.assertEqual((picture.width, picture.height), (100, 70))
        black = 0
        for number in range(4):
            tile = self.station.tile("top", number)
            assert tile is not None
            for row in range(64):
                for column in range(64):
                    x, y = number % 2 * 64 + column, number // 2 * 64 + row
                    inside = x < 100 and y < 70
                    self.assertEqual(tile.pixel(column, row), inside and picture.pixel(x, y))
            black += tile.count()
        self.assertEqual(black, sum(it.bit_count() for it in picture.data))
        for number in (4, -1, 2**32):
            self.assertIsNone(self.station.tile("top", number))
        # the second layer
        self.assertIsNone(self.station.tile("holes", 0))
        self.station.plot("holes")
        self.assertNotEqual(self.station.tile("holes", 0), self.station.tile("top", 0))

    def test_views_outlive_the_station(self) -> None:
        self.station.set_window(0, 0, 100_000, 64, 64)
        picture, tile = self.station.plot("top"), self.station.tile("top", 0)
        assert tile is not None
        views = picture.data, tile.data
        before = [bytes(it) for it in views]
        self.station.delete("top", 5)
        self.assertNotEqual(self.station.plot("top"), picture)
        self.station.close()
        self.assertEqual([bytes(it) for it in views], before)

    def test_taken_back_bit_for_bit(self) -> None:
        self.station.set_window(0, 0, 50_000, 200, 200)
        before = self.station.plot("top")
        self.station.move("top", 5, 1_000_000, 0)
        moved = self.station.plot("top")
        self.station.undo()
        self.assertNotEqual(before, moved)
        self.assertEqual(before, self.station.plot("top"))

    @needs_program
    def test_pictures_are_those_of_the_program(self) -> None:
        boards = sorted((TOP / "examples" / "kicad").glob("*.gbr"))
        with tempfile.TemporaryDirectory() as folder, camplot.Station() as station:
            script = ["window 100000000 -100000000 50000 600 500"]
            for number, board in enumerate(boards):
                (Path(folder) / f"{number}.gbr").write_bytes(board.read_bytes())
                script += [f"load b{number} gerber {number}.gbr", f"plot b{number} {number}.pbm", f"write b{number} {number}.txt"]
            (Path(folder) / "script").write_text("\n".join(script))
            subprocess.run([PROGRAM, "script"], cwd=folder, check=True, stdout=subprocess.DEVNULL)
            station.set_window(100_000_000, -100_000_000, 50_000, 600, 500)
            for number, board in enumerate(boards):
                station.load_gerber(f"b{number}", board.read_bytes())
                self.assertEqual(station.plot(f"b{number}").pbm, (Path(folder) / f"{number}.pbm").read_bytes())
                self.assertEqual(station.text(f"b{number}"), (Path(folder) / f"{number}.txt").read_bytes())


if __name__ == "__main__":
    unittest.main()
