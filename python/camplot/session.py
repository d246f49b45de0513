"""A station by the functions of include/camplot.h, in numbers and bytes. `Station` is made of it."""

from __future__ import annotations

import threading
import warnings
from ctypes import CDLL, byref, create_string_buffer
from typing import Any, NoReturn

from camplot.errors import Closed, Refused, WrongThread
from camplot.library import HANDLE, ROWS

LARGEST = 2**32 - 1
_OUT_OF_LIMITS = 50


class Session:
    """A station, until it is closed. Only the thread that opened it may call it."""

    def __init__(self, library: CDLL, depth: int = 100):
        self._handle = HANDLE()
        self._library = library
        self._thread = threading.current_thread()
        # (ctypes would cut a greater number)
        code = library.camplot_open(depth, byref(self._handle)) if 0 <= depth <= LARGEST else _OUT_OF_LIMITS
        if code:
            advice = "The depth is from 1 to 1000." if code == _OUT_OF_LIMITS else None
            raise Refused(code, call=f"Station({depth})", advice=advice)

    def _ready(self) -> Any:
        """The handle, of a station that this thread may call."""
        if threading.current_thread() is not self._thread:
            raise WrongThread(f"this station was opened in the thread {self._thread.name}, which alone may call it")
        if not self._handle:
            raise Closed("the station is closed")
        return self._handle

    @property
    def closed(self) -> bool:
        """Whether the station was closed."""
        return not self._handle

    def close(self) -> None:
        """Ends the station and gives its memory back. Once it is closed, this does nothing."""
        if self._handle:
            self._library.camplot_close(self._ready())
            self._handle = HANDLE()

    def __del__(self) -> None:
        # (there is no handle if opening failed)
        if not getattr(self, "_handle", None):
            return
        if threading.current_thread() is self._thread:
            self.close()
        else:
            warnings.warn("a station was not closed, and its thread has left it", ResourceWarning, stacklevel=2)

    def __reduce__(self) -> NoReturn:
        raise TypeError("a station can be neither copied nor pickled")

    def apply(self, line: bytes, file: bytes | None = None) -> int:
        """Applies a line, with the bytes of the file of a load. Answers the number of its refusal, or 0."""
        length = 0 if file is None else len(file)
        return int(self._library.camplot_apply(self._ready(), line, len(line), file, length))

    def ask(self, question: bytes) -> int:
        """Asks a question. Answers the number of its refusal, or 0; `file` has the answer."""
        return int(self._library.camplot_ask(self._ready(), question, len(question)))

    @property
    def reply(self) -> bytes:
        """The reply to the last line or question, with its line feed; nothing if it had none."""
        return self._copied(self._library.camplot_reply)

    @property
    def file(self) -> bytes:
        """What the last line had for a file, or the answer to the last question."""
        return self._copied(self._library.camplot_file)

    def _copied(self, function: Any) -> bytes:
        handle = self._ready()
        room = create_string_buffer(function(handle, None, 0) or 1)
        length: int = function(handle, room, len(room))
        return room.raw[:length]

    def tile(self, layer: int, number: int) -> bytes | None:
        """The 512 bytes of a clean tile, by the number of its layer and its own; None if there is no such tile."""
        handle, rows = self._ready(), ROWS()
        if not (0 <= layer <= LARGEST and 0 <= number <= LARGEST):
            return None
        return None if self._library.camplot_tile(handle, layer, number, rows) else bytes(rows)
