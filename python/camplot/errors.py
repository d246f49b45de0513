"""What the package raises."""

from __future__ import annotations

from camplot.refusals import DRILL, REFUSALS


class Error(Exception):
    """The base of what this package raises."""


class LibraryNotFound(Error, ImportError):
    """libcamplot.so is in none of the places where it is looked for, or what is there is none."""


class Closed(Error, ValueError):
    """A call of a station that was closed."""


class WrongThread(Error, RuntimeError):
    """A call of a station from another thread than the one that opened it."""


class Refused(Error):
    """A call that the station refused: nothing has changed, except that a plot keeps the tiles that it drew.

    `number` is the number of docs/refusals.md, `name` its name there and `advice` what to do: of a wrong argument, which it
    is and what it may be. `at` is the place of the faulty command in bytes, if a file was refused, and `call` the line or the
    question.
    """

    def __init__(self, number: int, at: int | None = None, call: str = "", advice: str | None = None):
        # (what Exception keeps here is what an unpickled one is made of)
        super().__init__(number, at, call, advice)
        self.number = number
        self.at = at
        self.call = call
        self.name, self.advice = REFUSALS.get(number, ("unknown", "This version of the package does not know it."))
        if call.split()[:1] == ["load"] and call.split()[2:3] == ["drill"]:
            self.advice = DRILL.get(number, self.advice)
        # (the page has the program's option, which is an argument here)
        self.advice = advice or self.advice.replace("--depth", "`Station(depth=..)`")

    def __str__(self) -> str:
        place = "" if self.at is None else f" at byte {self.at}"
        call = f"{self.call}: " if self.call else ""
        return f"{call}refused {self.number}, {self.name}{place}: {self.advice}"
