"""Items in words and as values, and the answers of questions."""

from __future__ import annotations

import dataclasses
import unittest

from camplot import Aperture, Arc, ArcTo, Block, Box, Draw, Flash, History, Hit, Item, LineTo, Point, Region, Repeat, Rout
from camplot import Tool, Turn, Window, values

WORDS = {
    "flash 10 -1000 2000 r90 dark": Flash(10, Point(-1000, 2000), Turn(90)),
    "flash 12 0 0 m270 clear": Flash(12, Point(0, 0), Turn(270, mirrored=True), dark=False),
    "draw 10 0 0 5 -5 r0 dark": Draw(10, Point(0, 0), Point(5, -5)),
    "arc 10 1 2 3 4 5 6 cw dark": Arc(10, Point(1, 2), Point(3, 4), Point(5, 6), clockwise=True),
    "arc 10 1 2 1 2 5 6 ccw clear": Arc(10, Point(1, 2), Point(1, 2), Point(5, 6), dark=False),
    "region clear 0 0 l 1 2 cw 3 4 5 6 ccw 0 0 7 8": Region(
        Point(0, 0),
        (LineTo(Point(1, 2)), ArcTo(Point(3, 4), Point(5, 6), True), ArcTo(Point(0, 0), Point(7, 8), False)),
        dark=False,
    ),
    "hit 1 -5 6": Hit(1, Point(-5, 6)),
    "rout 2 1 2": Rout(2, (Point(1, 2),)),
    "rout 2 1 2 3 4 5 6": Rout(2, (Point(1, 2), Point(3, 4), Point(5, 6))),
}


class Items(unittest.TestCase):
    def test_words_and_back(self) -> None:
        for words, item in WORDS.items():
            self.assertEqual(Item.of(words), item)
            self.assertEqual(item.words, words)
            self.assertEqual(item.kind, words.split()[0])
            self.assertEqual(hash(item), hash(Item.of(words)))

    def test_a_repeat(self) -> None:
        words = "repeat 3 2 1000000 -500000 2\n  flash 10 0 0 r0 dark\n  draw 10 0 0 5 -5 r0 clear"
        objects = (Flash(10, Point(0, 0)), Draw(10, Point(0, 0), Point(5, -5), dark=False))
        self.assertEqual(Item.of(words), Repeat(3, 2, 1_000_000, -500_000, objects))
        self.assertEqual(Item.of(words).words, "repeat 3 2 1000000 -500000 2")

    def test_words_of_no_item(self) -> None:
        wrong = ["", "flash", "flash 10 0 0 r0", "flash 10 0 0 r0 dark 1", "flash 10 0 0 x0 dark", "flash 10 0 0 r0 grey"]
        wrong += ["rout 1 2", "rout 1 2 3 4", "region dark 0 0 l 1", "region dark 0 0 up 1 2", "arc 1 2 3 4 5 6 7 round dark"]
        wrong += ["move 1", "repeat 1", "hit 1 0 0\n  hit 1 0 0"]
        for words in wrong:
            with self.assertRaises(ValueError, msg=words):
                Item.of(words)

    def test_values_do_not_change(self) -> None:
        item = Flash(10, Point(0, 0))
        with self.assertRaises(dataclasses.FrozenInstanceError):
            item.dark = False  # type: ignore[misc]
        self.assertEqual(dataclasses.replace(item, dark=False).words, "flash 10 0 0 r0 clear")


class Answers(unittest.TestCase):
    def test_boxes(self) -> None:
        self.assertEqual(values.box_of("-750 0 1250.5 -0.5\n"), Box(-750, 0, 1250.5, -0.5))
        self.assertIsNone(values.box_of(""))

    def test_entries(self) -> None:
        text = (
            "aperture 11\n%AMM11*\n1,1,0.500000,0.000000,0.000000*\n%\n%ADD11M11*%\n"
            "block 12 2\n  flash 10 0 0 r0 dark\n  flash 11 1000000 0 r0 clear\n"
            "aperture 14\n%ADD14O,1.700000X0.000001*%\n"
        )
        macro, block, obround = values.entries_of(text)
        assert isinstance(macro, Aperture) and isinstance(obround, Aperture)
        self.assertEqual((macro.number, macro.template, macro.sizes), (11, "M11", ()))
        parts = (Flash(10, Point(0, 0)), Flash(11, Point(1_000_000, 0), dark=False))
        self.assertEqual(block, Block(12, parts))
        self.assertEqual((obround.number, obround.template, obround.sizes), (14, "O", (1_700_000, 1)))
        self.assertEqual(values.entries_of("tool 1\nT1C0.800000\ntool 20\nT20C1.000001\n"), [Tool(1, 800_000), Tool(20, 1_000_001)])
        self.assertEqual(values.entries_of(""), [])

    def test_histories_and_windows(self) -> None:
        self.assertEqual(values.history_of("3 0\n"), History(3, 0))
        self.assertEqual(values.history_of("3 0 2\n"), History(3, 0, 2))
        self.assertEqual(Window(0, 0, 1, 64, 65).tiles, (1, 2))


if __name__ == "__main__":
    unittest.main()
