#!/usr/bin/env python3
"""Writes mutated scripts with the program's answers to them, for others that must answer the same.

    fuzz/answers.py PROGRAM [--scripts N] [--seed N]

A line of standard output for each, as JSON: the script, its depth, the files next to it, the replies, and the files that
it writes. Bytes are base64.
"""

import argparse
import base64
import json
import os
import random
import sys
import tempfile

import mutation
import scripts
import seeds
from program import Program, Wrong


def coded(held):
    return base64.b64encode(held).decode()


def answered(program, script, files, depth):
    lines, replies = program.run(files, script, depth)
    put = {
        words[2].decode("latin-1")
        for words, reply in zip(lines, replies)
        if words[:1] in ([b"plot"], [b"write"]) and reply.startswith(b"ok")
    }
    return {
        "script": coded(script),
        "depth": depth,
        "files": {name: coded(held) for name, held in files.items()},
        "replies": [reply.decode("latin-1") for reply in replies],
        "put": {name: coded(program.held(name)) for name in sorted(put)},
    }


def main():
    told = argparse.ArgumentParser(description="Writes mutated scripts with the program's answers to them.")
    told.add_argument("program")
    told.add_argument("--scripts", type=int, default=1000)
    told.add_argument("--seed", type=int, default=2)
    told = told.parse_args()
    chance = random.Random(told.seed)
    words, held = seeds.dictionary(), seeds.Seeds()
    maker = mutation.Mutation(
        chance, [text for text, _ in held.scripts], words["script"], words["numbers"], mutation.LINES
    )
    with tempfile.TemporaryDirectory(dir="/dev/shm" if os.path.isdir("/dev/shm") else None) as room:
        program = Program(os.path.realpath(told.program), os.path.join(room, "there"))
        made = 0
        while made < told.scripts:
            found = scripts.mutated(chance, maker, chance.choice(held.scripts))
            if found is None:
                continue
            made += 1
            try:
                print(json.dumps(answered(program, *found)))
            except Wrong as wrong:
                print(f"answers: {wrong}", file=sys.stderr)
                return 1
    return 0


if __name__ == "__main__":
    sys.exit(main())
