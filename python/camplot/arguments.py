"""Lines and questions made of arguments; where one is refused as a bad line, which argument is wrong and what it may be."""

from __future__ import annotations

import re
from collections.abc import Callable

from camplot.errors import Refused

_BAD_LINE = 80
_COUNTS = 2**32
_LONGEST = 4_000_000_000

# Whether a word may stand at a place, and what such a word is.
_Kind = tuple[Callable[[str], bool], str]


def _like(pattern: str, meaning: str) -> _Kind:
    return (lambda word: re.fullmatch(pattern, word) is not None, meaning)


_COUNT: _Kind = (
    lambda word: re.fullmatch("[0-9]{1,20}", word) is not None and int(word) < _COUNTS,
    f"a whole number from 0 to {_COUNTS - 1}",
)
_LENGTH: _Kind = (
    lambda word: re.fullmatch("[+-]?[0-9]{1,20}", word) is not None and abs(int(word)) <= _LONGEST,
    f"a whole number of nm, at most {_LONGEST}",
)
_NAME = _like("[A-Za-z0-9_.-]{1,32}", "1 to 32 letters, digits, _, - and .")
_KEY = _like(r"[!-$&-)+\-.-~]{1,255}", "1 to 255 bytes of ASCII but blanks, comma, % and *")
_FIELDS = _like("[!-$&-)+-~]{1,4096}", "1 to 4096 bytes of ASCII but blanks, % and *")
_POLARITY = _like("dark|clear", "dark or clear")
_TURN = _like("[rm](0|90|180|270)", "r0, r90, r180, r270, m0, m90, m180 or m270")
_DIRECTION = _like("cw|ccw", "cw or ccw")

_KINDS = {
    "name": _NAME,
    "key": _KEY,
    "fields": _FIELDS,
    **dict.fromkeys("x y pitch dx dy diameter x0 y0 x1 y1 x2 y2 cx cy".split(), _LENGTH),
    **dict.fromkeys("place to number aperture tool width height at_most before start count".split(), _COUNT),
    "turn": _TURN,
    "polarity": _POLARITY,
    "direction": _DIRECTION,
}

# The words of an item after the first; a region has its segments after them, and a rout its further points.
_ITEMS = {
    "flash": "aperture x y turn polarity",
    "draw": "aperture x1 y1 x2 y2 turn polarity",
    "arc": "aperture x1 y1 x2 y2 cx cy direction polarity",
    "region": "polarity x y",
    "hit": "tool x y",
    "rout": "tool x y",
}


def _wrong_in_item(words: str) -> str:
    """What is wrong with the words of an item that are refused."""
    form, *rest = words.split() or [""]
    if form not in _ITEMS:
        return f"An item is {', '.join(_ITEMS)}, and {form!r} is not."
    names = _ITEMS[form].split()
    for name, word in zip(names, rest):
        fits, meaning = _KINDS[name]
        if not fits(word):
            return f"The {name} of {form} is {meaning}, and {word!r} is not."
    if len(rest) < len(names):
        return f"The {names[len(rest)]} of {form} is missing."
    return f"These are not the words of {form}: {words[:80]!r}."


class Line(str):
    """A line or a question that is made of arguments."""

    given: dict[str, object]
    item: str | None

    def refused(self) -> Refused:
        """Its refusal as a bad line, which tells the argument that is wrong."""
        for name, value in self.given.items():
            fits, meaning = _KINDS[name]
            if not fits(str(value)):
                return Refused(_BAD_LINE, call=self[:80], advice=f"{name} is {meaning}, and {value!r} is not.")
        return Refused(_BAD_LINE, call=self[:80], advice=None if self.item is None else _wrong_in_item(self.item))


def line_of(form: str, item: str | None = None, **given: object) -> Line:
    """A form with arguments in it by their names, and the words of an item behind it. A text that is empty or has blanks would
    be no word, or two: it is refused as a bad line."""
    made = Line(form.format(**given) if item is None else f"{form.format(**given)} {item}")
    made.given, made.item = given, item
    if any(isinstance(word, str) and re.search(r"^$|[ \t]", word) for word in given.values()):
        raise made.refused()
    return made
