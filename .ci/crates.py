"""The crates of this repository, the toolchain, and how its prover is called for each of them."""
import functools
import hashlib
import os
import shutil
import sys

RT = os.path.realpath(shutil.which("rt") or sys.exit("there is no rt on the PATH, the command of the Rattle toolchain"))
KIT = os.path.dirname(os.path.dirname(RT))
RATTLE = f"{KIT}/bin/rattle"
PARTS = ("src", "specs", "proofs")


class Crate:
    """A crate over those of the repository that it uses. `built` is where in its out/ the libraries lie."""

    of_kit = False

    def __init__(self, root, name, deps, kind=(), built="rlib"):
        self.name, self.folder, self.deps = name, f"{root}/crates/{name}", deps
        self.is_static = "staticlib" in kind
        self.is_program = os.path.isfile(f"{self.folder}/src/main.rt")
        self.rlib = f"{self.folder}/out/{built}"

    def words(self, jobs=1):
        """The words behind `rattle check` and `rattle build`."""
        words = ["--crate-name", self.name, *(["--crate-type", "staticlib"] if self.is_static else [])]
        words.append("src/main.rt" if self.is_program else "src/lib.rt")
        for it in ["std", *[it.name for it in self.deps if it.of_kit]]:
            words += ["--extern", f"{it}={KIT}/rlibs/{it}.rlib"]
        words += ["-L", f"dependency={KIT}/rlibs"]
        for it in [it for it in self.deps if not it.of_kit]:
            words += ["--extern", f"{it.name}={it.rlib}/{it.name}.rlib"]
        for it in self.below():
            words += ["-L", f"dependency={it.rlib}"]
        words += ["--antt-project", f"{KIT}/rattle/logic/antt-project.json", "--logic-built", f"{KIT}/logic_built"]
        return [*words, "--jobs", str(jobs), "--links", f"{self.name}="]

    def below(self):
        """The repository's crates below this one, each after those that it uses."""
        found = []
        for it in self.deps:
            found += [more for more in [*it.below(), it] if not more.of_kit and more not in found]
        return found

    def own_sum(self):
        """A checksum of its files as they are now, of its line of crates.txt, and of the toolchain."""
        line = (self.name, self.is_static, [it.name for it in self.deps])
        summed = hashlib.sha256(repr((toolchain_sum(), line)).encode())
        for path in files_below(self.folder, *PARTS):
            with open(f"{self.folder}/{path}", "rb") as it:
                summed.update(repr((path, it.read())).encode())
        return summed.hexdigest()

    def sum(self):
        """A checksum of all that a proof of the crate rests on: its own, and the same of the crates below."""
        return sum_of(self.own_sum(), [it.own_sum() for it in self.below()])

    def over(self):
        """A checksum of all that a check of the crate reads: its own, and the libraries below as they were built."""
        return sum_of(self.own_sum(), [(it.name, file_sum(f"{it.rlib}/{it.name}.rlib/format")) for it in self.below()])


class OfKit:
    """A library of the toolchain."""

    of_kit = True

    def __init__(self, name):
        self.name = name

    def below(self):
        return []


def crates_of(root, built="rlib", made=Crate):
    """The crates of crates.txt by name, lowest first as they stand there, each over those that it uses."""
    with open(f"{root}/crates.txt", encoding="utf-8") as it:
        lines = [line.partition("#")[0].strip() for line in it]
    parts = [it.partition(":") for it in lines if it]
    kinds = {it[0].split()[0]: it[0].split()[1:] for it in parts}
    uses = {it[0].split()[0]: it[2].split() for it in parts}
    found = {}

    def crate(name):
        if name not in found:
            deps = [crate(it) for it in uses.get(name, ())]
            found[name] = made(root, name, deps, kinds[name], built) if name in uses else OfKit(name)
        return found[name]

    return {name: crate(name) for name in uses}


def files_below(folder, *parts):
    """The files below these parts of a folder, by their paths in it."""
    walked = [it for part in parts for it in os.walk(f"{folder}/{part}")]
    return sorted(os.path.relpath(f"{at}/{name}", folder) for at, _, names in walked for name in names)


@functools.lru_cache(maxsize=None)
def toolchain_sum():
    """A checksum of what a check reads of the toolchain: the texts that name it, each other file by its size and time."""
    summed = hashlib.sha256()
    for name in ("KIT-ID", "WHAT"):
        with open(f"{KIT}/{name}", "rb") as it:
            summed.update(it.read())
    # the file `format` of a built library holds the checksum of its other files
    formats = [f"rlibs/{it}/format" for it in sorted(os.listdir(f"{KIT}/rlibs"))]
    parts = ("logic_built", "rattle/logic", "rattle/antt")
    walked = [f"{part}/{it}" for part in parts for it in files_below(f"{KIT}/{part}", ".")]
    for path in ["bin/rattle", *formats, *walked]:
        if os.path.isfile(f"{KIT}/{path}"):
            found = os.stat(f"{KIT}/{path}")
            summed.update(f"{path} {found.st_size} {found.st_mtime_ns}\n".encode())
    return summed.hexdigest()


def sum_of(*told):
    return hashlib.sha256(repr(told).encode()).hexdigest()


def file_sum(path):
    with open(path, "rb") as it:
        return hashlib.sha256(it.read()).hexdigest()
