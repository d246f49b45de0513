"""Each method of a station, over the library."""

from __future__ import annotations

import copy
import gc
import pickle
import threading
import unittest
import warnings

import camplot
from camplot import Arc, ArcTo, Draw, Flash, Hit, LineTo, Point, Region, Repeat, Rout, Turn
from support import BOARD, DRILL, ONE_FLASH, WithStation, needs_library

ITEMS = [
    Flash(10, Point(1_000_000, 2_000_000)),
    Flash(11, Point(1_000_000, 2_000_000), Turn(90), dark=False),
    Flash(11, Point(5_000_000, 0), Turn(270, mirrored=True), dark=False),
    Draw(10, Point(0, 0), Point(3_000_000, 1_000_000)),
    Arc(10, Point(3_000_000, 1_000_000), Point(5_000_000, 3_000_000), Point(5_000_000, 1_000_000), clockwise=True),
    Region(
        Point(0, 0),
        (LineTo(Point(4_000_000, 0)), ArcTo(Point(0, 4_000_000), Point(0, 0), clockwise=False), LineTo(Point(0, 0))),
    ),
    Flash(13, Point(9_000_000, 9_000_000)),
    Repeat(3, 2, 1_000_000, 500_000, (Flash(10, Point(0, 0)),)),
]
HOLES = [
    Hit(1, Point(1_000_000, 2_500_000)),
    Rout(2, (Point(3_000_000, 2_500_000), Point(3_000_000, 4_000_000), Point(5_000_000, 4_000_000))),
]


@needs_library
class Questions(WithStation):
    def test_layers(self) -> None:
        top, holes = camplot.Layer("top", "gerber", 8, 4), camplot.Layer("holes", "drill", 2, 2)
        self.assertEqual(self.station.layers(), [top, holes])
        self.assertEqual(self.station.layer("holes"), holes)
        self.refused(60, self.station.layer, "bottom")

    def test_items(self) -> None:
        self.assertEqual(self.station.items("top"), ITEMS)
        self.assertEqual(self.station.items("holes"), HOLES)
        self.assertEqual(self.station.items("top", 3, 2), ITEMS[3:5])
        self.assertEqual(self.station.items("top", 8), [])
        self.refused(61, self.station.items, "top", 9)
        for place, item in enumerate(ITEMS):
            self.assertEqual(self.station.item("top", place), item)
        self.refused(61, self.station.item, "top", 8)

    def test_items_at_a_point(self) -> None:
        self.assertEqual(self.station.item_at("top", 1_000_000, 2_100_000), 5)
        self.assertEqual(self.station.item_at("top", 1_000_000, 2_100_000, before=5), 1)
        self.assertEqual(self.station.items_at("top", 1_000_000, 2_100_000), [5, 1, 0])
        # in the hole of the aperture of item 1
        self.assertEqual(self.station.items_at("top", 1_000_000, 2_000_000), [5, 0])
        self.assertIsNone(self.station.item_at("top", -90_000_000, 0))
        self.assertEqual(self.station.items_at("top", -90_000_000, 0), [])
        self.assertEqual(self.station.item_at("holes", 1_000_000, 2_500_000), 0)

    def test_items_in_a_box(self) -> None:
        self.assertEqual(self.station.items_in("top", 4_800_000, -200_000, 5_200_000, 200_000), [2])
        self.assertEqual(self.station.items_in("top", 5_200_000, 200_000, 4_800_000, -200_000), [2])
        self.assertEqual(self.station.items_in("top", -90_000_000, 0, -80_000_000, 1), [])
        # a quarter of a circle by a pen of 0.5 mm, in the box of what it paints, which does not hold the circle
        self.assertEqual(self.station.items_in("top", 2_750_000, 750_000, 5_250_000, 3_250_000), [4])
        self.assertEqual(self.station.items_in("top", 2_750_000, 750_000, 5_250_000, 3_249_999), [])

    def test_boxes(self) -> None:
        self.assertEqual(self.station.box("top", 0), (750_000, 1_750_000, 1_250_000, 2_250_000))
        self.assertEqual(self.station.box("holes").left, 600_000)
        self.refused(61, self.station.box, "top", 8)
        self.station.load_gerber("empty", b"%FSLAX46Y46*%\n%MOMM*%\nM02*\n")
        self.assertIsNone(self.station.box("empty"))

    def test_a_box_between_two_nanometres(self) -> None:
        self.station.load_gerber("odd", ONE_FLASH.replace(b"C,0.5", b"C,0.000001"))
        self.assertEqual(self.station.box("odd"), (999_999.5, 999_999.5, 1_000_000.5, 1_000_000.5))

    def test_entries(self) -> None:
        circle, rectangle, macro, block = self.station.entries("top")
        assert isinstance(circle, camplot.Aperture) and isinstance(rectangle, camplot.Aperture)
        assert isinstance(macro, camplot.Aperture)
        self.assertEqual((circle.number, circle.template, circle.sizes), (10, "C", (500_000,)))
        self.assertEqual((rectangle.template, rectangle.sizes), ("R", (400_000, 200_000, 100_000)))
        self.assertEqual((macro.template, macro.sizes), ("M12", ()))
        self.assertTrue(macro.definition.startswith("%AMM12*\n4,1,3,"))
        parts = (Flash(10, Point(0, 0)), Flash(11, Point(1_000_000, 0), dark=False))
        self.assertEqual(block, camplot.Block(13, parts))
        self.assertEqual(self.station.entries("holes"), [camplot.Tool(1, 800_000), camplot.Tool(2, 1_000_000)])
        self.assertEqual(self.station.entry("holes", 1), camplot.Tool(2, 1_000_000))
        self.refused(61, self.station.entry, "top", 4)

    def test_attributes(self) -> None:
        wanted = [
            camplot.Attribute(".Part", ("Single",)),
            camplot.Attribute(".FileFunction", ("Copper", "L1", "Top")),
            camplot.Attribute("Mine"),
        ]
        self.assertEqual(self.station.attributes("top"), wanted)
        self.assertEqual(self.station.attributes("holes"), [])
        self.station.load_gerber("b", ONE_FLASH.replace(b"M02", b"%TFNom,\xc3\xa9t\xe9,,x y*%\nM02"))
        self.assertEqual(self.station.attributes("b"), [camplot.Attribute("Nom", ("\xe9t\udce9", "", "x y"))])

    def test_questions_in_their_own_words(self) -> None:
        self.assertEqual(self.station.ask("box top 0"), "750000 1750000 1250000 2250000\n")
        self.assertEqual(self.station.ask(b"history"), "0 0\n")
        self.refused(80, self.station.ask, "what")

    def test_history(self) -> None:
        self.assertEqual(self.station.history(), camplot.History(0, 0))
        self.station.delete("top", 0)
        self.assertEqual(self.station.history(), camplot.History(1, 0))
        with self.station.group():
            self.station.delete("top", 0)
            self.assertEqual(self.station.history(), camplot.History(1, 0, 1))
        self.station.undo()
        self.assertEqual(self.station.history(), camplot.History(1, 1))


@needs_library
class Edits(WithStation):
    def setUp(self) -> None:
        super().setUp()
        self.before = self.station.text("top"), self.station.text("holes")

    def is_taken_back(self) -> None:
        self.station.undo()
        self.assertEqual((self.station.text("top"), self.station.text("holes")), self.before)
        self.station.redo()
        self.assertNotEqual((self.station.text("top"), self.station.text("holes")), self.before)

    def test_insert(self) -> None:
        for place, item in enumerate(ITEMS[:-1]):
            self.station.delete("top", place)
            self.station.insert("top", place, item)
            self.assertEqual(self.station.text("top"), self.before[0])
        for place, item in enumerate(HOLES):
            self.station.delete("holes", place)
            self.station.insert("holes", place, item)
            self.assertEqual(self.station.text("holes"), self.before[1])
        self.station.insert("top", 8, "flash 10 0 0 r0 dark")
        self.assertEqual(self.station.item("top", 8), Flash(10, Point(0, 0)))
        self.is_taken_back()

    def test_a_repeat_is_not_inserted(self) -> None:
        self.refused(80, self.station.insert, "top", 0, ITEMS[-1])

    def test_delete(self) -> None:
        self.station.delete("top", 0)
        self.assertEqual(self.station.items("top"), ITEMS[1:])
        self.is_taken_back()

    def test_move(self) -> None:
        self.station.move("top", 0, 400_000, -1)
        self.assertEqual(self.station.item("top", 0), Flash(10, Point(1_400_000, 1_999_999)))
        self.is_taken_back()

    def test_reorder(self) -> None:
        self.station.reorder("top", 0, 2)
        self.assertEqual(self.station.items("top", 0, 3), [ITEMS[1], ITEMS[2], ITEMS[0]])
        self.is_taken_back()

    def test_aperture_and_polarity(self) -> None:
        self.station.set_aperture("top", 0, 13)
        self.is_taken_back()
        self.station.set_polarity("top", 0, False)
        self.assertEqual(self.station.item("top", 0), Flash(13, Point(1_000_000, 2_000_000), dark=False))
        self.station.set_polarity("top", 0, True)
        self.assertEqual(self.station.item("top", 0), Flash(13, Point(1_000_000, 2_000_000)))

    def test_tool_and_diameter(self) -> None:
        self.station.set_tool("holes", 0, 2)
        self.assertEqual(self.station.item("holes", 0), Hit(2, Point(1_000_000, 2_500_000)))
        self.is_taken_back()
        self.station.set_diameter("holes", 2, 1_200_000)
        self.assertEqual(self.station.entry("holes", 1), camplot.Tool(2, 1_200_000))

    def test_attributes(self) -> None:
        self.station.set_attribute("top", ".Part", "Array", "x")
        self.is_taken_back()
        self.station.set_attribute("top", "Mine")
        self.station.drop_attribute("top", ".FileFunction")
        wanted = [camplot.Attribute(".Part", ("Array", "x")), camplot.Attribute("Mine")]
        self.assertEqual(self.station.attributes("top"), wanted)

    def test_a_group_is_taken_back_as_one(self) -> None:
        with self.station.group():
            self.station.delete("top", 0)
            self.station.delete("holes", 0)
        self.assertEqual(self.station.history(), camplot.History(1, 0))
        self.is_taken_back()

    def test_a_group_that_fails_is_taken_back(self) -> None:
        with self.assertRaises(ZeroDivisionError), self.station.group():
            self.station.delete("top", 0)
            raise ZeroDivisionError
        self.assertEqual(self.station.text("top"), self.before[0])
        self.assertEqual(self.station.history(), camplot.History(0, 0))

    def test_what_fails_in_a_group_is_raised_though_the_group_is_gone(self) -> None:
        with self.assertRaises(ZeroDivisionError), self.station.group():
            self.station.apply("end")
            raise ZeroDivisionError
        with self.assertRaises(ZeroDivisionError), self.station.group():
            self.station.close()
            raise ZeroDivisionError

    def test_a_text_with_blanks_is_no_word(self) -> None:
        for name in ("", "top 0", "top\t0", "top\n"):
            self.refused(80, self.station.delete, name, 0)
        self.refused(80, self.station.box, "", "top")
        self.refused(80, self.station.set_attribute, "top", "", "x")
        self.refused(80, self.station.set_attribute, "top", "x", "")
        self.assertEqual(self.station.history(), camplot.History(0, 0))

    def test_numbers_that_no_line_has(self) -> None:
        for place in (-1, 2**32, 0.5, True):
            self.refused(80, self.station.delete, "top", place)
        self.refused(80, self.station.redraw, -1)
        self.refused(80, self.station.move, "top", 0, 2**32, 0)

    def test_the_argument_that_is_wrong_is_named(self) -> None:
        station, count, nm = self.station, "a whole number from 0 to 4294967295", "a whole number of nm, at most 4000000000"
        turns = "r0, r90, r180, r270, m0, m90, m180 or m270"
        point = camplot.Point(0, 0)
        for wanted, call, *given in (
            (f"place is {count}, and -1 is not.", station.move, "top", -1, 0, 0),
            (f"dx is {nm}, and 0.5 is not.", station.move, "top", 0, 0.5, 0),
            (f"dy is {nm}, and 5000000000 is not.", station.move, "top", 0, 0, 5 * 10**9),
            ("name is 1 to 32 letters, digits, _, - and ., and 'top 0' is not.", station.move, "top 0", 0, 0, 0),
            (f"place is {count}, and None is not.", station.item, "top", None),
            ("name is 1 to 32 letters, digits, _, - and ., and '' is not.", station.item, "", 0),
            (f"place is {count}, and 1.0 is not.", station.insert, "top", 1.0, "flash 10 0 0 r0 dark"),
            (f"The x of flash is {nm}, and '0.5' is not.", station.insert, "top", 0, "flash 10 0.5 0 r0 dark"),
            (f"The turn of flash is {turns}, and 'r45' is not.", station.insert, "top", 0, camplot.Flash(10, point, camplot.Turn(45))),
            ("The polarity of flash is missing.", station.insert, "top", 0, "flash 10 0 0 r0"),
            ("An item is flash, draw, arc, region, hit, rout, and 'flesh' is not.", station.insert, "top", 0, "flesh 10"),
            ("These are not the words of rout: 'rout 1 0 0 5'.", station.insert, "holes", 0, "rout 1 0 0 5"),
            (f"at_most is {count}, and -1 is not.", station.redraw, -1),
            (f"width is {count}, and 0.5 is not.", station.set_window, 0, 0, 1000, 0.5, 64),
            (f"before is {count}, and -1 is not.", station.item_at, "top", 0, 0, -1),
            ("key is 1 to 255 bytes of ASCII but blanks, comma, % and *, and 'a*' is not.", station.set_attribute, "top", "a*"),
            ("fields is 1 to 4096 bytes of ASCII but blanks, % and *, and 'a b' is not.", station.set_attribute, "top", "a", "a b"),
        ):
            with self.subTest(wanted):
                self.assertEqual(self.refused(80, call, *given).advice, wanted)


@needs_library
class Lives(unittest.TestCase):
    def test_a_station_that_is_closed(self) -> None:
        with camplot.Station() as station:
            station.load_gerber("top", ONE_FLASH)
            self.assertFalse(station.closed)
        self.assertTrue(station.closed)
        for call in (station.layers, station.undo, lambda: station.plot("top"), lambda: station.tile("top", 0)):
            with self.assertRaises(camplot.Closed):
                call()
        station.close()
        self.assertEqual(repr(station), "<camplot.Station, closed>")

    def test_depths(self) -> None:
        for depth in (0, 1001, -1, 2**32 + 5):
            with self.assertRaises(camplot.Refused) as caught:
                camplot.Station(depth)
            self.assertEqual(caught.exception.number, 50)
            self.assertEqual(caught.exception.advice, "The depth is from 1 to 1000.")
        with camplot.Station(1) as station:
            station.load_gerber("top", ONE_FLASH)
            station.move("top", 0, 1, 0)
            station.move("top", 0, 1, 0)
            self.assertEqual(station.history(), camplot.History(1, 0))

    def test_bytes_of_each_kind(self) -> None:
        with camplot.Station() as station:
            for number, kind in enumerate((bytes, bytearray, memoryview)):
                self.assertEqual(station.load_gerber(f"layer{number}", kind(BOARD)), 8)
            for wrong in (5, "text", None):
                with self.assertRaises((TypeError, camplot.Refused)):
                    station.load_gerber("wrong", wrong)
            self.assertEqual(len(station.layers()), 3)

    def test_lines_answer_their_numbers(self) -> None:
        with camplot.Station() as station:
            self.assertEqual(station.apply("load holes drill file", DRILL), (2,))
            self.assertEqual(station.apply("# a comment"), ())
            self.assertEqual(station.apply(b"list"), (1, 0, 0))

    def test_another_thread_is_refused(self) -> None:
        told: list[type] = []

        def call(station: camplot.Station) -> None:
            for it in (station.layers, station.close, station.undo):
                try:
                    it()
                except camplot.Error as fault:
                    told.append(type(fault))

        with camplot.Station() as station:
            thread = threading.Thread(target=call, args=(station,))
            thread.start()
            thread.join()
            self.assertEqual(told, [camplot.WrongThread] * 3)
            self.assertFalse(station.closed)

    def test_each_thread_has_its_station(self) -> None:
        told: list[int] = []

        def run(name: str) -> None:
            with camplot.Station() as station:
                station.load_gerber(name, BOARD)
                for _ in range(50):
                    station.move(name, 0, 1, 0)
                told.append(station.item(name, 0).at.x)

        threads = [threading.Thread(target=run, args=(f"layer{it}",)) for it in range(8)]
        for it in threads:
            it.start()
        for it in threads:
            it.join()
        self.assertEqual(told, [1_000_050] * 8)

    def test_a_station_that_its_thread_left_open_is_told(self) -> None:
        kept: list[camplot.Station] = []
        thread = threading.Thread(target=lambda: kept.append(camplot.Station()))
        thread.start()
        thread.join()
        with self.assertWarns(ResourceWarning):
            kept.clear()
            gc.collect()

    def test_a_station_is_not_copied(self) -> None:
        with camplot.Station() as station:
            for copied in (copy.copy, copy.deepcopy, pickle.dumps):
                with self.assertRaises(TypeError):
                    copied(station)

    def test_a_station_that_is_dropped_is_closed(self) -> None:
        with warnings.catch_warnings():
            warnings.simplefilter("error")
            for _ in range(200):
                camplot.Station().load_gerber("top", BOARD)


if __name__ == "__main__":
    unittest.main()
