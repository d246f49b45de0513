"""Mutations of files and of scripts, all from one source of random numbers."""

import re

LONGEST = 12000
# how many of the seeds are mutations of the first ones that were read
GROWN = 400
ODD_BYTES = (0, 9, 10, 13, 32, 37, 42, 44, 48, 59, 127, 128, 255)
NUMBER = re.compile(rb"[-+]?(?:[0-9]+\.?[0-9]*|\.[0-9]+)")


class Mutation:
    """Makes texts of one kind: its seeds are cut into pieces, and its dictionary has further ones."""

    def __init__(self, chance, seeds, words, numbers, pieces, names=(), files=()):
        self.chance = chance
        self.seeds = seeds
        self.words = words
        self.numbers = numbers
        self.pieces = pieces
        self.names = names
        self.files = files
        self.grown = []

    def grow(self, text):
        """A text that was read is a seed too, for some time."""
        self.grown = self.grown[-GROWN:] + [text]

    def text(self):
        """A text that some mutations make of a seed, or of two that are joined."""
        text = self.chance.choice(self.grown if self.grown and self.chance.random() < 0.4 else self.seeds)
        if self.chance.random() < 0.15:
            text = self.joined(text, self.chance.choice(self.seeds))
        return self.mutated(text)

    def mutated(self, text):
        """The text behind one mutation, mostly, and sometimes many."""
        for _ in range(self.chance.choice((1, 1, 1, 2, 2, 3, 5, 12))):
            text = self.chance.choices(
                (self.by_words, self.by_numbers, self.by_bytes, self.by_slices), (6, 4, 1, 1)
            )[0](text)
        return text[:LONGEST]

    def joined(self, one, other):
        """A front of one and an end of the other."""
        front = self.cut(one)
        end = self.cut(other)
        return b"".join(front[: self.place(front)] + end[self.place(end) :])

    def cut(self, text):
        return self.pieces.findall(text)

    def place(self, row):
        """A place in or behind a row."""
        return self.chance.randrange(len(row) + 1)

    def number(self):
        """A number from the dictionary, or one of as many digits as chance has it."""
        if self.chance.random() < 0.7:
            return self.chance.choice(self.numbers)
        sign = self.chance.choice((b"", b"", b"", b"-", b"+"))
        return sign + str(int(10 ** self.chance.uniform(0, 10))).encode()

    def word(self):
        """A word from the dictionary, its blanks filled."""
        word = self.chance.choice(self.words)
        for blank, filling in ((b"NUMBER", self.number), (b"NAME", self.name), (b"FILE", self.file)):
            while blank in word:
                word = word.replace(blank, filling(), 1)
        return word + b"\n"

    def name(self):
        return self.chance.choice(self.names or (b"top",))

    def file(self):
        return self.chance.choice(self.files or (b"a.gbr",))

    def by_words(self, text):
        """Inserts words, removes them, repeats them, or exchanges them."""
        row = self.cut(text)
        at = self.place(row)
        deed = self.chance.randrange(6)
        if deed < 2 or not row:
            row.insert(at, self.word())
        elif deed == 2:
            del row[at : at + self.chance.choice((1, 1, 1, 2, 5))]
        elif deed == 3:
            row[at:at] = row[at : at + self.chance.choice((1, 1, 2, 4))] * self.chance.choice((1, 1, 1, 2, 9))
        elif deed == 4:
            row[at : at + 1] = [self.word()]
        else:
            other = self.chance.randrange(len(row))
            at = min(at, len(row) - 1)
            row[at], row[other] = row[other], row[at]
        return b"".join(row)

    def by_numbers(self, text):
        """A number becomes another."""
        found = list(NUMBER.finditer(text))
        if not found:
            return text
        it = self.chance.choice(found)
        old = it.group()
        deed = self.chance.randrange(4)
        if deed == 0 and old.lstrip(b"+-").isdigit():
            new = str(int(old) + self.chance.choice((-1, 1, 2, -1000, 1000000))).encode()
        elif deed == 1:
            new = b"-" + old.lstrip(b"+-") if not old.startswith(b"-") else old[1:]
        else:
            new = self.number()
        return text[: it.start()] + new + text[it.end() :]

    def by_bytes(self, text):
        """Inserts, removes or changes a byte."""
        at = self.place(text)
        byte = bytes((self.chance.choice((*ODD_BYTES, self.chance.randrange(256))),))
        deed = self.chance.randrange(3)
        return text[:at] + (b"" if deed == 0 else byte) + text[at + (0 if deed == 1 else 1) :]

    def by_slices(self, text):
        """A slice is taken out, given twice, or what follows is cut off."""
        at, end = sorted((self.place(text), self.place(text)))
        deed = self.chance.randrange(3)
        if deed == 0:
            return text[:at] + text[end:]
        if deed == 1:
            return text[:end] + text[at:]
        return text[:at]


GERBER_PIECES = re.compile(rb"%[^%]*%\s*|[^%*]*\*\s*|[^%*]+|%")
LINES = re.compile(rb"[^\n]*\n|[^\n]+")
