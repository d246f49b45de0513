"""Checks over mutated scripts: their replies are those of a machine that counts layers, edits and groups."""

import re

from program import EDITS, LINES, Wrong

# What a path names that no file can be put under.
FOLDERS = (b".", b"..")
LARGEST = 1 << 19
ROWS = 120


def is_large(line):
    """Whether the line sets a window of many pixels."""
    words = line.split()
    try:
        return words[:1] == [b"window"] and int(words[4]) * int(words[5]) > LARGEST
    except (IndexError, ValueError):
        return False


def writes_what_is_read(script):
    """Whether a script writes over itself or a file that it loads, which the program alone refuses: it alone has files."""
    lines = [line.split() for line in script.split(b"\n")]
    read = {words[3] for words in lines if words[:1] == [b"load"] and len(words) == 4} | {b"script"}
    return any(words[:1] in ([b"plot"], [b"write"]) and len(words) == 3 and words[2] in read for words in lines)


def mutated(chance, maker, seed):
    """A mutated script with small windows, the files next to it, and a depth; nothing if it names a folder, or writes over
    what it reads."""
    text, files = seed
    maker.names = re.findall(rb"^load (\S+)", text, re.MULTILINE)
    maker.files = [name.encode() for name in files]
    made = maker.mutated(text).replace(b"/", b"_").split(b"\n")[:ROWS]
    script = b"\n".join(line for line in made if not is_large(line))
    if any(word in FOLDERS or len(word) > 200 for word in script.split()) or writes_what_is_read(script):
        return None
    return script, files, chance.choice((1, 2, 3, 100, 1000))


class Counts:
    """How many layers there are, and how many edits can be taken back and made again."""

    def __init__(self, depth):
        self.depth = depth
        self.layers = self.past = self.future = 0
        self.group = None

    def step(self, words, reply):
        """Takes one line's reply in, which has to fit."""
        head = words[0] if words else b""
        accepted = reply.startswith(b"ok")
        if head == b"list" and len(words) == 1:
            self.want(words, reply, b"ok %d %d %d" % (self.layers, self.past, self.future))
        elif len(words) == 1 and head in (b"begin", b"end", b"abort", b"undo", b"redo"):
            self.want(words, reply, self.reply_to(head))
        if head == b"load" and accepted:
            self.layers += 1
            self.past = self.future = 0
        elif LINES.get(head) == EDITS and accepted:
            self.future = 0
            if self.group is None:
                self.past = min(self.past + 1, self.depth)
            else:
                self.group += 1
        elif accepted and head in (b"begin", b"end", b"abort", b"undo", b"redo"):
            self.close(head)

    def want(self, words, reply, wanted):
        if reply != wanted:
            raise Wrong(f"the reply {reply!r} to {words!r}, and not {wanted!r}")

    def reply_to(self, head):
        """The machine's reply to a line of only this word."""
        if head in (b"end", b"abort"):
            return b"refused 73" if self.group is None else b"ok"
        if self.group is not None:
            return b"refused 72"
        if head == b"undo" and self.past == 0:
            return b"refused 70"
        if head == b"redo" and self.future == 0:
            return b"refused 71"
        return b"ok"

    def close(self, head):
        """An accepted line of this word."""
        if head == b"begin":
            self.group = 0
        elif head == b"undo":
            self.past -= 1
            self.future += 1
        elif head == b"redo":
            self.past += 1
            self.future -= 1
        else:
            if head == b"end" and self.group:
                self.past = min(self.past + 1, self.depth)
            self.group = None


class Scripts:
    """Runs mutated scripts, each over the files of its seed."""

    def __init__(self, chance, program, maker, seeds):
        self.chance = chance
        self.program = program
        self.maker = maker
        self.seeds = seeds

    def once(self):
        """Runs one script."""
        text, files = self.chance.choice(self.seeds)
        self.maker.names = re.findall(rb"^load (\S+)", text, re.MULTILINE)
        self.maker.files = [name.encode() for name in files]
        made = self.maker.mutated(text)
        # no path leaves the folder
        lines = made.replace(b"/", b"_").split(b"\n")[:ROWS]
        script = b"\n".join(line for line in lines if not is_large(line))
        depth = self.chance.choice((1, 2, 3, 100, 1000))
        lines, replies = self.program.run(files, script, depth)
        counts = Counts(depth)
        for words, reply in zip(lines, replies):
            counts.step(words, reply)
        return 1
