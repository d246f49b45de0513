"""Lays the libraries that `.ci/prove` proved where `rt` looks for those below a crate, so that `rt check`, `rt lib` and
`.ci/edits` begin with the crate itself.

`rt` takes a library from out/rlib if the stamp next to it is a checksum of the sources as they are now. So a library is laid
only while `.ci/prove` believes it, with the stamp that the toolchain's own code computes. If that code cannot be used (it
is no public part of the toolchain), nothing is laid, and `rt` builds its own as ever.
"""
import functools
import importlib.machinery
import importlib.util
import os
import shutil
import sys

from crates import KIT, file_sum


@functools.lru_cache(maxsize=None)
def toolchain_crates():
    """The toolchain's own class of crates, which has the stamp; None if it cannot be loaded."""
    try:
        loader = importlib.machinery.SourceFileLoader("rtlib", f"{KIT}/bin/rtlib.py")
        found = importlib.util.module_from_spec(importlib.util.spec_from_loader("rtlib", loader))
        # (some of its functions look their module up)
        sys.modules["rtlib"] = found
        loader.exec_module(found)
        return found.Crate
    except (Exception, SystemExit):  # noqa: BLE001 (whatever it is, rt builds its own)
        return None


def stamp_of(crate, root, made):
    try:
        return str(made(crate.folder, root, {}).stamp())
    except (Exception, SystemExit):  # noqa: BLE001
        return None


def has_stamp(crate, stamp):
    """Whether rt takes the library in its place for one of these sources."""
    at = f"{crate.folder}/out/rlib"
    try:
        with open(f"{at}/stamp", encoding="utf-8") as it:
            return it.read() == stamp and os.path.isfile(f"{at}/{crate.name}.rlib/format")
    except OSError:
        return False


def is_laid(crate, stamp):
    """Whether rt's library is this very one, with the stamp of these sources."""
    # (the file `format` of a library holds a checksum of its other files)
    formats = [f"{it}/{crate.name}.rlib/format" for it in (f"{crate.folder}/out/rlib", crate.rlib)]
    return has_stamp(crate, stamp) and file_sum(formats[0]) == file_sum(formats[1])


def is_built(crate, root):
    """Whether rt has a library of the crate's sources as they are now, and needs no proof for it."""
    made = toolchain_crates()
    stamp = stamp_of(crate, root, made) if made else None
    return stamp is not None and has_stamp(crate, stamp)


def link_or_copy(one, other):
    try:
        os.link(one, other)
    except OSError:
        shutil.copy2(one, other)


def lay_one(crate, stamp):
    at = f"{crate.folder}/out/rlib"
    shutil.rmtree(at, ignore_errors=True)
    os.makedirs(at)
    shutil.copytree(f"{crate.rlib}/{crate.name}.rlib", f"{at}/{crate.name}.rlib", copy_function=link_or_copy)
    # the stamp comes last: without it the library counts for nothing
    with open(f"{at}/stamp", "w", encoding="utf-8") as it:
        it.write(stamp)


def lay(root, known, proved):
    """Lays the libraries among the crates `proved`, lowest first, each with those below it, and returns how many are laid. A
    library of another crate that rt built over one that is exchanged goes: it fits only what it was built over."""
    made = toolchain_crates()
    if made is None:
        return 0
    laid, new = set(), set()
    for it in known.values():
        stamp = None
        if it.name in proved and not it.is_program and not it.is_static:
            stamp = stamp_of(it, root, made)
        if stamp and all(below.name in laid for below in it.below()):
            laid.add(it.name)
            if not is_laid(it, stamp):
                lay_one(it, stamp)
                new.add(it.name)
        elif any(below.name in new for below in it.below()):
            shutil.rmtree(f"{it.folder}/out/rlib", ignore_errors=True)
    return len(laid)
