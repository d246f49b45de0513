"""What a release consists of: its files by the parts that they hold, and the crates and tools that each part is made of."""
import hashlib
import os
import re
import shutil
import subprocess

KIT = os.path.dirname(os.path.dirname(os.path.realpath(shutil.which("rt") or "")))
CLANG = f"{KIT}/toolchain/bin/clang"
# The parts, each with what it is; the program and the library with the crate that they are built from.
PARTS = {
    "program": ("the program, proved", "camplot"),
    "library": ("the C library, libcamplot.a and libcamplot.so, proved", "cam_c"),
    "module": ("the module of the page and of the package for node, compiled from the library's proved code", "cam_c"),
    "page": ("the editor in a page, over the module", None),
    "tools": ("the tools for node, over the module and the program", None),
    "python": ("the package for Python, over the library", None),
    "documents": ("the documents, man pages and completions", None),
    "sources": ("all sources, proofs and tests", None),
}
# The files by what stands after 'camplot' and the version in their names; each with its parts.
FILES = {
    "_{}_amd64.deb": ("program", "library", "module", "page", "tools", "python", "documents"),
    "-{}-linux-x86_64.tar.gz": ("program", "library", "module", "page", "tools", "python", "documents"),
    "-{}.html": ("page", "module"),
    "-{}-py3-none-": ("python", "library"),
    "-{}.tgz": ("module",),
    "-{}-source.tar.gz": ("sources",),
    "-{}-licences.txt": ("documents",),
}


def parts_of(name, version):
    """The parts that a file of the release holds."""
    found = [parts for ending, parts in FILES.items() if name.startswith("camplot" + ending.format(version))]
    if len(found) != 1:
        raise SystemExit(f"release: {name} is no file of a release")
    return found[0]


def crates_of_kit(top, crate):
    """The toolchain's crates that a crate of the repository is built over, by itself or by those below it."""
    uses = {}
    with open(f"{top}/crates.txt", encoding="utf-8") as file:
        for line in file:
            name, _, below = line.partition("#")[0].partition(":")
            if name.strip():
                uses[name.split()[0]] = below.split()
    found, todo = set(), [crate]
    while todo:
        name = todo.pop()
        if name in uses:
            todo += uses[name]
        else:
            found.add(name)
    return sorted({*found, "core", "std"})


def about_crate(name):
    """What the toolchain tells of one of its crates: the version of the Rust crate that it follows, and its licences."""
    folder = f"{KIT}/rattle/{name}"
    path = f"{folder}/README.md"
    text = open(path, encoding="utf-8").read() if os.path.isfile(path) else ""
    version = re.search(r"\b\d+\.\d+\.\d+\b", text)
    held = [it for it in os.listdir(folder) if it.startswith("LICENSE")] if os.path.isdir(folder) else []
    words = {"MIT": "MIT", "APACHE": "Apache-2.0", "Apache": "Apache-2.0", "BSD-3-Clause": "BSD-3-Clause"}
    paragraph = next((it for it in text.split("\n\n") if "`LICENSE" in it), "")
    licences = sorted({its for word, its in words.items() if held and word in " ".join([paragraph, *held])})
    return (version[0] if version else None), " OR ".join(licences) or None


def told(*words):
    """The first line that a program prints."""
    ran = subprocess.run(words, capture_output=True, text=True, check=False)
    return ran.stdout.strip().split("\n")[0]


def kit_id():
    """What the toolchain tells of itself: its name and logic, and checksums of its archive, its sources and its compiler."""
    with open(f"{KIT}/WHAT", encoding="utf-8") as file:
        sums = re.findall(r"(?m)^(archive|commit|compiler) ([0-9a-f]{64})$", file.read())
    return {"version": told("rt", "version"), **dict(sums)}


def newest_glibc(data):
    """The newest version of the C library that a program or a library names."""
    found = re.findall(rb"GLIBC_(2\.\d+)(?:\.\d+)?\0", data)
    return max(found, key=lambda it: int(it.split(b".")[1])).decode() if found else None


def sum_of(path, kind="sha256"):
    with open(path, "rb") as file:
        return hashlib.new(kind, file.read()).hexdigest()
