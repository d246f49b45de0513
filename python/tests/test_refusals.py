"""Refusals as exceptions: what they carry, and each that a case of black_box/ tells."""

from __future__ import annotations

import pickle
import re
import unittest
from collections.abc import Iterator
from pathlib import Path

import camplot
from camplot.refusals import DRILL, REFUSALS
from support import CASES, ONE_FLASH, TOP, WithStation, needs_library

# What no line is refused with here: 30 is of a machine without memory, 51, 75, 90 and 91 are told to a caller of the
# library alone, and a load that is given no file is no call.
NOT_HERE = {30, 51, 75, 82, 90, 91}
# Cases of files that the program cannot write: the package writes none.
WRITING = {"checks_before_files", "failed_plot_keeps_its_tiles", "what_was_loaded_stays"}
# Files beside a script that these cases do not have.
OTHERS = ("make", "zeros", "memory", "stdin", "feed", "stdout_to", "copies", "complaint")
LONGEST = 1_000_000


class Carried(unittest.TestCase):
    def test_number_name_and_advice(self) -> None:
        fault = camplot.Refused(61, call="delete top 9")
        self.assertEqual((fault.number, fault.name, fault.at), (61, "no item", None))
        self.assertEqual(fault.advice, REFUSALS[61][1])
        self.assertEqual(str(fault), f"delete top 9: refused 61, no item: {REFUSALS[61][1]}")
        self.assertIsInstance(fault, camplot.Error)

    def test_the_place_in_a_file(self) -> None:
        fault = camplot.Refused(13, 224, "load top gerber file")
        self.assertIn("refused 13, rotation refused at byte 224: ", str(fault))

    def test_advice_on_drill_files(self) -> None:
        self.assertEqual(camplot.Refused(24, 9, "load holes drill file").advice, DRILL[24])
        self.assertEqual(camplot.Refused(24, 9, "load top gerber file").advice, REFUSALS[24][1])
        self.assertEqual(camplot.Refused(45, 9, "load holes drill file").advice, REFUSALS[45][1])

    def test_the_depth_has_the_name_that_it_has_here(self) -> None:
        self.assertIn("`Station(depth=..)`", camplot.Refused(70).advice)
        self.assertNotIn("--", camplot.Refused(70).advice)

    def test_an_unknown_number(self) -> None:
        self.assertEqual(camplot.Refused(77).name, "unknown")

    def test_pickled(self) -> None:
        fault = pickle.loads(pickle.dumps(camplot.Refused(13, 224, "load top gerber file")))
        self.assertEqual((fault.number, fault.at, fault.call), (13, 224, "load top gerber file"))

    def test_the_table_is_that_of_the_page(self) -> None:
        page = (TOP / "docs" / "refusals.md").read_text("utf-8")
        self.assertEqual(set(REFUSALS), {int(it) for it in re.findall(r"(?:\*\*|^\| )(\d+)(?=, | \| )", page, re.M)})
        for number, (name, advice) in REFUSALS.items():
            self.assertTrue(name and advice.endswith("."), number)
            self.assertNotIn("`", advice)


def lines_of(script: bytes) -> list[bytes]:
    """The lines of a script, each without its end."""
    *ended, last = script.split(b"\n")
    return [line.removesuffix(b"\r") for line in ended] + [last] * bool(last)


def has_reply(line: bytes) -> bool:
    words = line.replace(b"\t", b" ").split()
    return len(line) > 65536 or bool(words and not words[0].startswith(b"#"))


def cases() -> Iterator[tuple[Path, int]]:
    """The cases that the package can run over files in memory, each with its depth."""
    for case in sorted(CASES.iterdir()):
        words = (case / "words").read_text().split() if (case / "words").exists() else ["script"]
        depth = next((int(after) for word, after in zip(words, words[1:]) if word == "--depth" and after.isdigit()), 100)
        script = case / "files" / "script"
        whole = case.name not in WRITING and not any((case / it).exists() for it in OTHERS)
        if whole and words[0] == "script" and 1 <= depth <= 1000 and (case / "stdout").exists():
            if script.is_file() and script.stat().st_size < LONGEST:
                yield case, depth


class Run:
    """The script of a case, by the package: what each line replies, and what it writes."""

    def __init__(self, case: Path, depth: int):
        files = {str(it.relative_to(case / "files")): it for it in (case / "files").rglob("*") if it.is_file()}
        self.held = {name: path.read_bytes() for name, path in files.items()}
        self.refused: set[int] = set()
        with camplot.Station(depth) as station:
            told = [self.reply(station, line) for line in lines_of(self.held["script"]) if has_reply(line)]
        self.replies = b"".join(told)

    def reply(self, station: camplot.Station, line: bytes) -> bytes:
        words = [word for word in re.split(rb"[ \t]+", line) if word]
        verb, path = words[:1], words[-1].decode(errors="surrogateescape") if words else ""
        file = self.held.get(path) if verb == [b"load"] else None
        try:
            numbers = station.apply(line, file)
        except TypeError as fault:
            assert verb == [b"load"] and file is None and "`file`" in str(fault)
            return b"refused 82\n"
        except camplot.Refused as fault:
            self.refused.add(fault.number)
            assert (fault.name, fault.advice) != ("unknown", "")
            return b" ".join([b"refused %d" % fault.number, *([] if fault.at is None else [b"%d" % fault.at])]) + b"\n"
        if verb == [b"plot"]:
            self.held[path] = station.plot(words[1].decode()).pbm
        elif verb == [b"write"]:
            self.held[path] = station.text(words[1].decode())
        return b" ".join([b"ok", *(b"%d" % it for it in numbers)]) + b"\n"


@needs_library
class Cases(WithStation):
    # Replies, refusals, pictures and texts are those of the program, byte for byte.
    def test_each_case_of_the_program(self) -> None:
        refused: set[int] = set()
        count = 0
        for case, depth in cases():
            with self.subTest(case.name):
                run = Run(case, depth)
                self.assertEqual(run.replies, (case / "stdout").read_bytes())
                for path in (it for it in (case / "written").rglob("*") if it.is_file()):
                    name = str(path.relative_to(case / "written"))
                    self.assertTrue(run.held[name] == path.read_bytes(), f"{name} is another")
                refused |= run.refused
                count += 1
        self.assertGreater(count, 100)
        self.assertEqual(set(REFUSALS) - NOT_HERE - refused, set())

    def test_a_file_that_is_missing(self) -> None:
        with self.assertRaisesRegex(TypeError, "`file`"):
            self.station.apply("load b gerber b.gbr")
        for wrong in (None, "b.gbr", Path("b.gbr")):
            for load in (self.station.load_gerber, self.station.load_drill):
                with self.assertRaisesRegex(TypeError, f"`data`.*{type(wrong).__name__}"):
                    load("b", wrong)  # type: ignore[arg-type]
        self.assertEqual(len(self.station.layers()), 2)

    def test_each_call_that_can_be_refused(self) -> None:
        refused, station = self.refused, self.station
        self.assertEqual(refused(26, station.load_gerber, "b", ONE_FLASH[:-5]).at, len(ONE_FLASH) - 5)
        self.assertEqual(refused(40, station.load_drill, "b", ONE_FLASH).at, 0)
        refused(83, station.load_gerber, "top", ONE_FLASH)
        refused(60, station.text, "b")
        refused(84, station.plot, "top")
        refused(84, station.redraw, 1)
        refused(50, station.set_window, 0, 0, 0, 64, 64)
        refused(61, station.insert, "top", 9, "flash 10 0 0 r0 dark")
        refused(80, station.insert, "top", 0, "")
        refused(61, station.delete, "top", 8)
        refused(65, station.move, "top", 0, 10**9, 0)
        refused(61, station.reorder, "top", 0, 8)
        refused(62, station.set_aperture, "top", 0, 99)
        refused(64, station.set_polarity, "top", 7, False)
        refused(66, station.set_tool, "holes", 0, 9)
        refused(67, station.set_diameter, "holes", 1, 0)
        refused(68, station.set_tool, "top", 0, 1)
        refused(80, station.set_attribute, "top", "a*")
        refused(74, station.drop_attribute, "top", "none")
        refused(70, station.undo)
        refused(71, station.redo)
        with station.group():
            refused(72, station.group().__enter__)
        refused(73, station.apply, "end")
        refused(60, station.tile, "b", 0)
        for question in (station.item_at, station.items_at):
            refused(60, question, "b", 0, 0)
        refused(60, station.items_in, "b", 0, 0, 1, 1)
        for question in (station.items, station.box, station.entries, station.attributes):
            refused(60, question, "b")
        refused(81, station.ask, "layers" + " " * 65536)
        self.assertEqual(len(station.layers()), 2)


if __name__ == "__main__":
    unittest.main()
