#!/usr/bin/env python3
"""What each crate took at the last gate: the file `costs` next to this one, a line a crate.

  .ci/costs.py SEEN     prints it again, by what `.ci/times watch` saw of a whole run of the gate; what that did not see
                        stays as it is
  .ci/costs.py --demo   prints it again, by what `.ci/prove` took for the crates that it has proved in this folder
"""
import os
import sys
from collections import defaultdict
from dataclasses import dataclass

HERE = os.path.dirname(os.path.realpath(__file__))
HEAD = """# What each crate took at the last gate, in seconds of one processor: its proof, that with its tests, its edits; and the
# most memory of one check, in MB. `./check --costs` writes these. Then what ./demo took to prove and build it, in seconds
# of one processor, if that is known: 0 stands for its proof.
"""


@dataclass
class Cost:
    """Seconds of one processor, and megabytes. These are guesses, for a crate that is new."""

    proof: float = 120
    tests: float = 120
    edits: float = 120
    megabytes: float = 2500
    demo: float = 0

    @property
    def build(self):
        """Seconds of one processor that the demo takes for it."""
        return self.demo or self.proof

    @property
    def memory(self):
        """Kilobytes to plan on: on another machine a check may take a fifth more."""
        return int(self.megabytes * 1200)


def about(seconds):
    """A length of time, in words."""
    minutes = round(seconds / 60)
    return f"about {minutes} minute{'s' if minutes > 1 else ''}" if seconds >= 60 else "less than a minute"


def costs_of(root):
    found = defaultdict(Cost)
    path = f"{root}/.ci/costs"
    if os.path.isfile(path):
        with open(path, encoding="utf-8") as it:
            lines = [line.split() for line in it if line.strip() and not line.startswith("#")]
        for name, *numbers in lines:
            found[name] = Cost(*map(float, numbers))
    return found


def seen_in(path):
    """The processor seconds of each crate by kind, and the most memory of one of its checks in kilobytes."""
    cores, most, kinds = {}, defaultdict(int), defaultdict(lambda: defaultdict(int))
    with open(path, encoding="utf-8") as it:
        for line in it:
            _, _, pid, core, memory, crate, kind = line.split()
            cores[pid, crate, kind] = int(core)
            most[crate] = max(most[crate], int(memory))
    for (_, crate, kind), core in cores.items():
        kinds[crate][kind] += core
    return kinds, most


def took_of(root, name):
    """Seconds of one processor that .ci/prove took for a crate, None if it has not proved it here."""
    try:
        with open(f"{root}/crates/{name}/out/demo/took", encoding="utf-8") as it:
            return float(it.read())
    except (OSError, ValueError):
        return None


def main(path):
    root = os.path.dirname(HERE)
    costs, (kinds, most) = costs_of(root), ({}, {}) if path == "--demo" else seen_in(path)
    with open(f"{root}/crates.txt", encoding="utf-8") as it:
        names = [line.partition(":")[0].split()[0] for line in it if line.partition("#")[0].strip()]
    print(HEAD, end="")
    for name in names:
        old, new = costs[name], kinds.get(name, {})
        numbers = [new.get(kind, getattr(old, kind) if not new else 0) for kind in ("proof", "tests", "edits")]
        took = took_of(root, name) if path == "--demo" else None
        numbers += [most[name] / 1000 if name in most else old.megabytes, old.demo if took is None else took]
        print(name, *[round(it) for it in numbers])
    return 0


if __name__ == "__main__":
    sys.exit(main(sys.argv[1]) if len(sys.argv) == 2 else __doc__)
