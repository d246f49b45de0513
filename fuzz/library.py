#!/usr/bin/env python3
"""Runs mutated scripts by the program and by the library: the replies, and all that is written, must be the same.

    fuzz/library.py PROGRAM LIBRARY [--scripts N] [--seed N]

PROGRAM is the built one, LIBRARY the shared library that docs/library.md links. The last line is
'scripts: N passed, M failed', and the status is 0 if M is 0.
"""

import argparse
import contextlib
import os
import pathlib
import random
import re
import sys
import tempfile

import mutation
import scripts
import seeds
from program import Program, Wrong

HERE = pathlib.Path(__file__).resolve().parent
sys.path.insert(0, str(HERE.parent / "python"))

from camplot.library import load  # noqa: E402  (it lies in a folder of its own)
from camplot.session import Session  # noqa: E402


def lines_of(script):
    """The lines of a script, each without its end."""
    *ended, last = script.split(b"\n")
    return [line[:-1] if line.endswith(b"\r") else line for line in ended] + [last] * bool(last)


def by_library(library, files, script, depth):
    """The replies that a script has, and the files in the end."""
    held, replies = dict(files, script=script), []
    with contextlib.closing(Session(library, depth)) as station:
        for line in lines_of(script):
            words = [word for word in re.split(rb"[ \t]+", line) if word]
            path = words[3] if words[:1] == [b"load"] and len(words) == 4 else None
            code = station.apply(line, None if path is None else held.get(path.decode("latin-1")))
            reply = station.reply
            if reply:
                replies.append(reply[:-1])
            if reply.startswith(b"refused") != bool(code):
                raise Wrong(f"the number {code} beside {reply!r}")
            if words[:1] in ([b"plot"], [b"write"]) and reply.startswith(b"ok"):
                held[words[2].decode("latin-1")] = station.file
            elif station.file:
                raise Wrong(f"bytes for a file after {line!r}")
    return replies, held


def once(chance, program, library, maker, seed):
    made = scripts.mutated(chance, maker, seed)
    if made is None:
        return
    script, files, depth = made
    _, wanted = program.run(files, script, depth)
    told, held = by_library(library, files, script, depth)
    if told != wanted:
        at = next((k for k, pair in enumerate(zip(told, wanted)) if pair[0] != pair[1]), min(len(told), len(wanted)))
        raise Wrong(f"reply {at} of {script!r} at depth {depth}: {told[at:][:1]} by the library, {wanted[at:][:1]}")
    for name, bytes_held in held.items():
        if program.held(name) != bytes_held:
            raise Wrong(f"{name} of {script!r}")


def main():
    told = argparse.ArgumentParser(description="Runs mutated scripts by the program and by the library.")
    told.add_argument("program")
    told.add_argument("library")
    told.add_argument("--scripts", type=int, default=1000)
    told.add_argument("--seed", type=int, default=1)
    told = told.parse_args()
    chance = random.Random(told.seed)
    words, held = seeds.dictionary(), seeds.Seeds()
    maker = mutation.Mutation(
        chance, [text for text, _ in held.scripts], words["script"], words["numbers"], mutation.LINES
    )
    library = load(os.path.realpath(told.library))
    passed = failed = 0
    with tempfile.TemporaryDirectory(dir="/dev/shm" if os.path.isdir("/dev/shm") else None) as room:
        program = Program(os.path.realpath(told.program), os.path.join(room, "there"))
        for _ in range(told.scripts):
            try:
                once(chance, program, library, maker, chance.choice(held.scripts))
                passed += 1
            except Wrong as wrong:
                failed += 1
                print(f"scripts: {wrong}")
                if failed == 10:
                    break
    print(f"scripts: {passed} passed, {failed} failed")
    return int(failed > 0)


if __name__ == "__main__":
    sys.exit(main())
