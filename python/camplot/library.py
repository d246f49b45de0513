"""Finds and loads libcamplot.so."""

from __future__ import annotations

import ctypes
import functools
import os
from pathlib import Path
from typing import Any

from camplot.errors import LibraryNotFound

NAME = "libcamplot.so"
# What the system's loader knows the library by.
SONAME = "libcamplot.so.1"
# Named by this variable of the environment, it is the library, and no other place is looked at.
VARIABLE = "CAMPLOT_LIBRARY"
FOLDERS = ("/usr/local/lib", "/usr/lib/x86_64-linux-gnu", "/usr/lib")

HANDLE = ctypes.c_void_p
_BYTES = ctypes.c_char_p
_SIZE = ctypes.c_size_t
_CODE = ctypes.c_uint32
ROWS = ctypes.c_uint64 * 64
# The functions of include/camplot.h that are called: what each answers and takes.
_FUNCTIONS: dict[str, tuple[Any, list[Any]]] = {
    "camplot_open": (_CODE, [_CODE, ctypes.POINTER(HANDLE)]),
    "camplot_close": (None, [HANDLE]),
    "camplot_apply": (_CODE, [HANDLE, _BYTES, _SIZE, _BYTES, _SIZE]),
    "camplot_ask": (_CODE, [HANDLE, _BYTES, _SIZE]),
    "camplot_reply": (_SIZE, [HANDLE, _BYTES, _SIZE]),
    "camplot_file": (_SIZE, [HANDLE, _BYTES, _SIZE]),
    "camplot_tile": (_CODE, [HANDLE, _CODE, _CODE, ctypes.POINTER(ctypes.c_uint64)]),
    "camplot_version": (_SIZE, [_BYTES, _SIZE]),
}


def places() -> list[Path]:
    """Where the library is looked for, in this order."""
    here = Path(__file__).resolve().parent
    program = here.parents[1] / "crates" / "camplot"
    # where ./demo leaves it, if the package stands in the repository
    built = [program / "out" / NAME] if program.is_dir() else []
    # in P/lib, if the package stands in P/lib/python3/dist-packages or its like (a folder that anyone may write, such as /tmp,
    # can stand above a package, and what lies there is not loaded)
    lib = here.parents[2] if len(here.parents) > 2 else here
    prefix = [lib / NAME] if lib.name == "lib" else []
    usual = [Path(folder) / NAME for folder in FOLDERS]
    return list(dict.fromkeys([here / NAME, *built, *prefix, *usual]))


def find() -> str:
    """The path of the library; its name alone, where only the system's loader may know it."""
    named = os.environ.get(VARIABLE)
    if named:
        # (the loader would look for a name without a folder elsewhere)
        return os.path.abspath(named)
    return next((str(place) for place in places() if place.is_file()), SONAME)


@functools.cache
def _opened(path: str) -> ctypes.CDLL:
    """The library at a path, with the types of its functions."""
    library = ctypes.CDLL(path)
    for name, (answer, given) in _FUNCTIONS.items():
        function = getattr(library, name)
        function.restype, function.argtypes = answer, given
    return library


def load(path: str | os.PathLike[str] | None = None) -> ctypes.CDLL:
    """The library at a path, or where it is found; `LibraryNotFound` if there is none."""
    chosen = find() if path is None else os.path.abspath(path)
    try:
        return _opened(chosen)
    except AttributeError as fault:
        raise LibraryNotFound(f"{chosen} is not the library of this version: {fault}") from None
    except OSError as fault:
        if chosen != SONAME:
            raise LibraryNotFound(f"{chosen} cannot be loaded: {fault}") from None
        looked = ", ".join(str(place) for place in places())
        why = f"{NAME} is in none of {looked}, and the system's loader knows no {SONAME}"
        raise LibraryNotFound(f"{why}: run ./demo, or set {VARIABLE} to its path") from None


def version(library: ctypes.CDLL) -> str:
    """The version of a library, such as 1.1.0."""
    room = ctypes.create_string_buffer(library.camplot_version(None, 0))
    library.camplot_version(room, len(room))
    return room.raw.decode()
