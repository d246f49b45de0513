"""Replays runs of .ci/prove on machines of other kinds, in no time: what it would print of the time that is left is compared
with the time that is left. What each crate took once is in the file `recorded`. The last line is 'N passed, M failed'.

From a third of the way on it may be off by a tenth of what is left, or a minute, since it prints whole minutes; after a
machine has become slower, once it has had the time to see it.
"""
import os
import re
import sys

sys.dont_write_bytecode = True
HERE = os.path.dirname(os.path.realpath(__file__))
sys.path.insert(0, HERE)

from lanes import SHARE, Task, behind, starts  # noqa: E402
from progress import WINDOW, Estimate, Words  # noqa: E402

STEP, NUMBER, MEMORY = 2, 4, 15_000_000


class Run:
    """A run on a machine with nothing else to do, which takes `pace` times what was recorded for each crate, times
    `own[name]`, and of which the proofs get the part `share(t)` after t seconds."""

    def __init__(self, pace=1.0, own=(), share=lambda t: 1.0):
        self.left, self.takes = {}, {}
        with open(f"{HERE}/recorded", encoding="utf-8") as it:
            for name, cost, took, megabytes, *below in (line.split() for line in it if not line.startswith("#")):
                self.left[name] = Task(name, None, below, float(cost), int(megabytes) * 1200)
                self.takes[name] = float(took) * pace * dict(own).get(name, 1.0)
        self.ways, self.share = behind([*self.left.values()]), share
        self.going, self.done, self.now, self.used = {}, set(), 0.0, 0.0
        self.estimate, self.words, self.told = Estimate(0.0), Words(), []

    def begin(self):
        ready = [it for it in self.left.values() if self.done >= {*it.after}]
        ready.sort(key=lambda it: -self.ways[it.name])
        room = MEMORY - sum(task.takes(jobs) for task, jobs, _ in self.going.values())
        idle = NUMBER - sum(jobs for _, jobs, _ in self.going.values())
        for task, jobs in starts(ready, idle, room, not self.going):
            del self.left[task.name]
            self.going[task.name] = (task, jobs, self.takes[task.name] * SHARE[jobs])

    def tell(self):
        self.estimate.look(self.now, self.used, [(task, jobs) for task, jobs, _ in self.going.values()])
        rest = [Task(it.name, None, [*{*it.after} - self.done], it.seconds, it.memory) for it in self.left.values()]
        left = self.estimate.left(rest, NUMBER, MEMORY)
        self.told.append((self.now, left, self.words(self.now, left)))

    def go_on(self):
        share = self.share(self.now)
        for name, (task, jobs, left) in [*self.going.items()]:
            self.used += STEP * share / SHARE[jobs]
            self.going[name] = (task, jobs, left - STEP * share)
            if left <= STEP * share:
                del self.going[name]
                self.done.add(name)
        self.now += STEP

    def play(self):
        while self.left or self.going:
            self.begin()
            self.tell()
            self.go_on()
        return self

    def worst(self, since=0.0):
        """The greatest error after so many seconds and a third of the way, past a minute, as a part of what is left."""
        said = [(self.now - at, left) for at, left, _ in self.told if at >= max(self.now / 3, since)]
        return max((abs(left - truth) - 60) / truth for truth, left in said)

    def longest(self, words):
        """For how many seconds the same words stood."""
        longest = begun = 0.0
        for at, _, said in self.told:
            begun = begun or at if said == words else 0.0
            longest = max(longest, at - begun if begun else 0.0)
        return longest


def main():
    runs = {f"a machine that takes {pace} times as long": (Run(pace), 0) for pace in (0.6, 0.8, 1.0, 1.6)}
    own = {"cam_objects": 1.06, "cam_tiles": 0.94, "cam_edits": 1.06, "cam_station": 0.95, "camplot": 1.05, "cam_gerber": 0.95}
    runs["crates that take a little more or less"] = (Run(1.0, own), 0)
    runs["the other way round"] = (Run(1.0, {name: 2 - it for name, it in own.items()}), 0)
    runs["half of a machine"] = (Run(1.0, share=lambda t: 0.5), 0)
    runs["a machine that is busy at first"] = (Run(1.0, share=lambda t: 0.6 if t < 90 else 1.0), 0)
    runs["a machine that others use from then on"] = (Run(0.8, share=lambda t: 1.0 if t < 500 else 0.3), 500 + 1.5 * WINDOW)
    passed = failed = 0
    for name, (run, since) in runs.items():
        worst = run.play().worst(since)
        passed, failed = passed + (worst <= 0.1), failed + (worst > 0.1)
        if worst > 0.1:
            print(f"replay: {name}: off by {100 * worst:.0f} of 100")
        if "--list" in sys.argv:
            print(f"{name}: {run.now / 60:.1f} minutes, off by {max(0, 100 * worst):.0f} of 100")
    last = Run(1.0, {"camplot": 3.0, "cam_c": 3.0}).play()
    stood = last.longest("less than a minute left")
    over = {said for _, _, said in last.told if not re.search(r"\bleft$", said)}
    for is_well, text in ((stood <= 60 + STEP, f"'less than a minute left' stood for {stood:.0f} seconds"), (over, "a crate that takes too long is not named so")):
        passed, failed = passed + bool(is_well), failed + (not is_well)
        if not is_well:
            print(f"replay: {text}")
    print(f"{passed} passed, {failed} failed")
    return 1 if failed else 0


if __name__ == "__main__":
    sys.exit(main())
