#!/usr/bin/env python3
"""Prints how a release was made, as JSON. `made` is the same wherever it is made of the commit; `seen` is of this machine and
of its run of the gate; `proofs` names the crates whose proofs are kept here, of these very sources.

  packaging/release/provenance.py --built TOP --tree TREE [--log LOG] [--draft] [DIR]

TOP has what was built, TREE the files of the commit with what was made of it; DIR the files of the release. If the proof of
a crate is not kept, it ends with 2, unless a draft is made; without DIR that is all that it looks for."""
import argparse
import hashlib
import json
import os
import platform
import re
import sys
from datetime import datetime, timezone
from importlib.machinery import SourceFileLoader
from importlib.util import module_from_spec, spec_from_loader

from parts import CLANG, kit_id, sum_of, told

# The steps from the proved code to the page, each with the file that it makes; those of web/module/build lie in a list.
STEPS = {
    "station.bc": "the proved code of cam_c, as the compiler passes it to clang",
    "station.ll": "the same as text, with the layout of wasm64 in place of x86-64's",
    "station.o": "compiled by clang for wasm64",
    "glue.o": "web/module/glue.ll, compiled: hands requests for memory on",
    "heap.o": "web/module/heap.c, compiled",
    "builtins.o": "web/module/builtins.c, compiled",
    "station64.wasm": "linked: a module for memories of 64 bits",
    "station.wasm": "rewritten by web/module/lower for memories of 32 bits, and compared by web/module/compare.py",
}


def prove(tree):
    """The program .ci/prove, as a module."""
    loader = SourceFileLoader("prove", f"{tree}/.ci/prove")
    found = module_from_spec(spec_from_loader("prove", loader))
    loader.exec_module(found)
    return found


def sources_of(folder):
    """A checksum of the files that a proof of a crate reads."""
    paths = [
        os.path.relpath(f"{at}/{name}", folder)
        for part in ("src", "specs", "proofs")
        for at, _, names in os.walk(f"{folder}/{part}")
        for name in names
    ]
    lines = "".join(f"{sum_of(f'{folder}/{path}')}  {path}\n" for path in sorted(paths))
    return hashlib.sha256(lines.encode()).hexdigest()


def module_steps(tree):
    with open(f"{tree}/web/out/station.steps", encoding="utf-8") as file:
        sums = dict(reversed(line.split()) for line in file)
    steps = [{"file": name, "step": step, "sha256": sums[name]} for name, step in STEPS.items()]
    page = f"{tree}/crates/camplot/out/camplot.html"
    return [*steps, {"file": "camplot.html", "step": "joined with the page's own code by web/build", "sha256": sum_of(page)}]


def made(tree, folder):
    crates = sorted(os.listdir(f"{tree}/crates"))
    commit, time = open(f"{tree}/COMMIT", encoding="utf-8").read().split()
    return {
        "commit": commit,
        "time": datetime.fromtimestamp(int(time), timezone.utc).isoformat(),
        "toolchain": {**kit_id(), "clang": told(CLANG, "--version")},
        "crates": {name: sources_of(f"{tree}/crates/{name}") for name in crates},
        "wrong bodies": {
            name: sorted(it[:-5] for it in os.listdir(f"{tree}/crates/{name}/refused") if it.endswith(".edit"))
            for name in crates
            if os.path.isdir(f"{tree}/crates/{name}/refused")
        },
        "built": {
            "the program, by the toolchain": sum_of(f"{tree}/crates/camplot/out/camplot"),
            "the library, by the toolchain": sum_of(f"{tree}/crates/cam_c/out/libcam_c.a"),
            "libcamplot.a, with the heap": sum_of(f"{tree}/crates/camplot/out/libcamplot.a"),
            "libcamplot.so, linked by gcc": sum_of(f"{tree}/crates/camplot/out/libcamplot.so"),
        },
        "module": module_steps(tree),
        "files": {name: sum_of(f"{folder}/{name}") for name in sorted(os.listdir(folder))},
    }


def proofs(top, tree):
    """Of each crate of the program and the library whether its proof is kept here, for the sources as they are."""
    found, module = {}, prove(tree)
    known = module.crates_of(top, module.BUILT)
    for name in ("camplot", "cam_c"):
        for crate in [*known[name].below(), known[name]]:
            found[crate.name] = module.is_proved(crate)
    return found


def gate(path):
    """What the gate printed: its last line, its table, the counts of its parts, and by what each wrong body was refused."""
    with open(path, encoding="utf-8", errors="replace") as file:
        lines = file.read().rstrip().split("\n")
    start = lines.index("== what it cost") + 1 if "== what it cost" in lines else len(lines)
    table = lines[start:]
    end = next((at for at, line in enumerate(table) if line.startswith("that is ")), -1)
    edits = (re.match(r"edits: (\w+/\w+): (.*)", line) for line in lines)
    return {
        "last line": lines[-1],
        "table": table[: end + 1],
        "parts": [line for line in lines if re.match(r"[a-z_ ]+: \d+ passed, \d+ failed", line)],
        "proofs": [line for line in lines if re.match(r"proofs: (done in this run|every proof)", line)],
        "wrong bodies": {it[1]: it[2] for it in edits if it},
        "sha256 of what it printed": sum_of(path),
    }


def machine():
    model = ""
    with open("/proc/cpuinfo", encoding="utf-8") as file:
        model = next((line.split(":", 1)[1].strip() for line in file if line.startswith("model name")), "")
    with open("/proc/meminfo", encoding="utf-8") as file:
        memory = int(re.search(r"MemTotal: +(\d+)", file.read())[1]) // 2**20
    system = re.search(r'PRETTY_NAME="(.*)"', open("/etc/os-release", encoding="utf-8").read())
    return {
        "system": system[1] if system else "",
        "kernel": platform.release(),
        "processor": model,
        "processors": os.cpu_count(),
        "memory in GiB": memory,
        **{name: told(name, "--version") for name in ("gcc", "node", "python3", "dpkg-deb")},
    }


def main():
    words = argparse.ArgumentParser()
    for name in ("--built", "--tree"):
        words.add_argument(name, required=True)
    words.add_argument("--log")
    words.add_argument("--draft", action="store_true")
    words.add_argument("folder", nargs="?")
    given = words.parse_args()
    kept = proofs(given.built, given.tree)
    lacking = [name for name, is_kept in kept.items() if not is_kept]
    if lacking and not given.draft:
        print(f"release: no proof is kept of the sources as they are of {', '.join(lacking)}: run ./demo", file=sys.stderr)
        return 2
    if not given.folder:
        return 0
    print(json.dumps({
        "draft": given.draft,
        "made": made(given.tree, given.folder),
        "proofs": {"kept here": [name for name in kept if kept[name]], "not kept here": lacking},
        "seen": {"machine": machine(), "gate": gate(given.log) if given.log else None},
    }, indent=1))
    return 0


if __name__ == "__main__":
    sys.exit(main())
