"""Runs the program on a script."""

import os
import re
import shutil
import signal
import subprocess
import tempfile

SECONDS = 20
PEAK = 96 << 20
REPLY = re.compile(rb"ok( [0-9]+){0,3}|refused [0-9]+( [0-9]+)?")

# the numbers of faults that a reader tells with their places
READERS = {
    b"gerber": {*range(1, 27), 28, 29},
    b"drill": {1, 4, 6, 23, 24, 25, *range(40, 49)},
}
EDITS = {60, 61, 62, 63, 64, 65, 66, 67, 68, 69, 74, 75}
# and those of the lines of a script without one, beside 80 and 81
LINES = {
    b"load": {72, 82, 83, 85},
    b"window": {50},
    b"redraw": {84},
    b"plot": {60, 82, 84},
    b"write": {60, 82},
    b"begin": {72},
    b"end": {73},
    b"abort": {73},
    b"undo": {70, 72},
    b"redo": {71, 72},
    b"list": {60},
    **dict.fromkeys(
        b"insert delete move reorder aperture polarity tool diameter setattr dropattr".split(),
        EDITS,
    ),
}


class Wrong(Exception):
    """What the program did and may not do."""


def wanting(script):
    """The lines of a script that have a reply, each as its words."""
    lines = script.split(b"\n")
    ended = [line[:-1] if line.endswith(b"\r") else line for line in lines[:-1]]
    found = []
    for line in ended + lines[-1:]:
        words = [word for word in re.split(rb"[ \t]+", line) if word]
        if len(line) > 65536:
            found.append([])
        elif words and not words[0].startswith(b"#"):
            found.append(words)
    return found


def check_reply(words, reply, sizes):
    """The reply is one that the line may have; `sizes` are those of the files that are there."""
    if not REPLY.fullmatch(reply):
        raise Wrong(f"the reply {reply!r} to {words!r}")
    said = [int(part) for part in reply.split()[1:]]
    if reply.startswith(b"ok"):
        return
    head = words[0] if words else b""
    if len(said) == 1:
        if said[0] not in LINES.get(head, set()) | {80, 81}:
            raise Wrong(f"the reply {reply!r} to {words!r}")
    else:
        kind, path = words[2], words[3].decode("latin-1")
        if head != b"load" or said[0] not in READERS[kind] or said[1] > sizes.get(path, said[1]):
            raise Wrong(f"the reply {reply!r} to {words!r}")
        if said[0] in (26, 48) and said[1] != sizes.get(path, said[1]):
            raise Wrong(f"the reply {reply!r} to {words!r}: its place is not the file's length")


class Program:
    """The built program, and the folder where it runs."""

    def __init__(self, path, room):
        self.path = path
        self.room = room
        self.slowest = 0.0
        self.largest = 0

    def lay(self, files):
        """Writes the files, and no others, into the folder."""
        shutil.rmtree(self.room, ignore_errors=True)
        os.makedirs(self.room)
        for name, held in files.items():
            with open(os.path.join(self.room, name), "wb") as file:
                file.write(held)

    def held(self, name):
        """What a file in the folder holds, nothing where there is none."""
        try:
            with open(os.path.join(self.room, name), "rb") as file:
                return file.read()
        except FileNotFoundError:
            return None

    def run(self, files, script, depth=100):
        """Runs the script over the files: its lines, each as its words, and their replies."""
        self.lay({**files, "script": script})
        said, seconds, peak, status = self.ended(["script", "--depth", str(depth)])
        self.slowest = max(self.slowest, seconds)
        self.largest = max(self.largest, peak)
        if peak > PEAK:
            raise Wrong(f"{peak >> 20} MB")
        lines = wanting(script)
        replies = said.split(b"\n")
        if replies.pop() != b"" or len(replies) != len(lines):
            raise Wrong(f"{len(replies)} replies to {len(lines)} lines")
        sizes = {name: len(held) for name, held in files.items()}
        for words, reply in zip(lines, replies):
            check_reply(words, reply, sizes)
            if words[:1] in ([b"plot"], [b"write"]) and reply.startswith(b"ok"):
                sizes.pop(words[2].decode("latin-1"), None)
        if status != int(any(reply.startswith(b"refused") for reply in replies)):
            raise Wrong(f"status {status}")
        return lines, replies

    def ended(self, words):
        """Runs the program to its end: what it says, the seconds and the bytes that it takes, its status."""
        with tempfile.TemporaryFile() as out, tempfile.TemporaryFile() as told:
            process = subprocess.Popen(
                [self.path, *words], cwd=self.room, stdin=subprocess.DEVNULL, stdout=out, stderr=told
            )
            signal.signal(signal.SIGALRM, lambda *_: process.kill())
            signal.alarm(SECONDS)
            _, status, usage = os.wait4(process.pid, 0)
            signal.alarm(0)
            process.returncode = os.waitstatus_to_exitcode(status)
            out.seek(0)
            told.seek(0)
            said, complaint = out.read(), told.read()
        if process.returncode == -signal.SIGKILL:
            raise Wrong(f"no end within {SECONDS} s")
        if process.returncode not in (0, 1) or complaint:
            raise Wrong(f"status {process.returncode}: {complaint[:200]!r}")
        return said, usage.ru_utime + usage.ru_stime, usage.ru_maxrss << 10, process.returncode
