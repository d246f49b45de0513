"""How long the proofs of .ci/prove still take, and the line that tells it.

What is left is played on as the lanes would run it, by what .ci/costs has for each crate, scaled by what this run has
measured: crates that are done count with the time that they took. Times are those of a machine that does nothing else. How
fast it is for us just now is told by the processor time that the proofs get, so that a machine which is busy for a while
does not make every crate look dear.
"""
import os
import sys
import time

from costs import about
from lanes import SHARE, forecast, free_memory

# The machine of .ci/costs counts for as much as so many seconds of what this run has measured.
PRIOR = 30
# For how many seconds what the proofs get of the machine is looked back on.
WINDOW = 300
# A crate that has taken longer than it should takes this part of its time more.
OVER = 0.03
# The least part of the machine that the proofs are taken to get.
LEAST = 0.02


class Estimate:
    """Follows a run by looks at it."""

    def __init__(self, now):
        # of each look when it was, the processor seconds that were used, and the time of a machine that does nothing else
        self.looks, self.begun = [(now, 0.0, 0.0)], {}
        self.took = self.expected = 0.0

    def look(self, now, used, running):
        """Takes in that `used` seconds of processors were used so far, by tasks of which these run now, each with its number
        of jobs."""
        before, used_before, own = self.looks[-1]
        wanted = (now - before) * sum(1 / SHARE[jobs] for _, jobs, _ in self.begun.values())
        share = min(1.0, (used - used_before) / wanted) if wanted > 0 else 1.0
        own += (now - before) * max(share, LEAST)
        self.looks.append((now, used, own))
        while len(self.looks) > 2 and self.looks[1][0] <= now - WINDOW:
            self.looks.pop(0)
        there = {task.name: (task, jobs) for task, jobs in running}
        for name in [it for it in self.begun if it not in there]:
            task, jobs, began = self.begun.pop(name)
            self.took += own - began
            self.expected += task.seconds * SHARE[jobs]
        for name, (task, jobs) in there.items():
            self.begun.setdefault(name, (task, jobs, own))

    def ages(self):
        """Of each task that runs: itself, its jobs, how long it has run, and how long the costs have for it."""
        now = self.looks[-1][2]
        return [(task, jobs, now - began, task.seconds * SHARE[jobs]) for task, jobs, began in self.begun.values()]

    def pace(self):
        """How much slower the machine is than that of the costs, by what has ended and what runs longer than it should."""
        took, expected = self.took + PRIOR, self.expected + PRIOR
        for _, _, age, cost in sorted(self.ages(), key=lambda it: it[3] - it[2]):
            if age > cost * took / expected:
                took, expected = took + age, expected + cost
        return took / expected

    def left(self, tasks, number, memory):
        """How many seconds are left, if these tasks are still to begin."""
        pace = self.pace()
        begun = [(task, jobs, max(cost * pace - age, OVER * age, 1.0)) for task, jobs, age, cost in self.ages()]
        (first, _, own), (last, _, now) = self.looks[0], self.looks[-1]
        share = max((now - own) / (last - first), LEAST) if last > first else 1.0
        return forecast(tasks, number, memory, begun, pace) / share


class Words:
    """The words for what is left. 'less than a minute' stands for a minute at most."""

    def __init__(self):
        self.since = None

    def __call__(self, now, seconds):
        if seconds >= 60:
            self.since = None
            return f"{about(seconds)} left"
        self.since = self.since or now
        return "less than a minute left" if now - self.since <= 60 else "it takes longer than was estimated"


def used_by(group, ended):
    """How many seconds of processors the processes of a group have used, with those that ended."""
    ticks, found = os.sysconf("SC_CLK_TCK"), sum(said.core for _, _, said in ended)
    for it in os.listdir("/proc"):
        if it.isdigit():
            try:
                with open(f"/proc/{it}/stat", encoding="utf-8", errors="replace") as stat:
                    words = stat.read().rpartition(")")[2].split()
            except OSError:
                continue
            # (its group; its own time and that of the children for which it has waited)
            if int(words[2]) == group:
                found += sum(map(int, words[11:15])) / ticks
    return found


def timed(text):
    """A line of a log, with the time."""
    return f"{time.strftime('%H:%M:%S')}  {text}"


class Progress:
    """Prints the progress: on a terminal in one line that is rewritten, else in a line for each crate and minute."""

    def __init__(self, names, kept, number):
        self.names, self.kept, self.number = names, kept, number
        self.is_terminal, self.told, self.at, self.words = sys.stdout.isatty(), None, 0.0, Words()
        self.estimate = Estimate(time.time())

    def __call__(self, lanes):
        now, begun = time.time(), self.estimate.begun
        running = [(it.task, it.jobs) for it in lanes.going]
        # (one whose next command waits runs still)
        running += [(task, 1) for task, _ in lanes.waiting if task.name in begun]
        self.estimate.look(now, used_by(lanes.group.guard.pid, lanes.ended), running)
        done = len(self.kept) + sum(it is not None for it in lanes.results.values())
        going = sorted({it.task.name for it in lanes.going})
        at = (done, tuple(going))
        if at == self.told and now - self.at < (1 if self.is_terminal else 60):
            return
        self.told, self.at = at, now
        memory = free_memory() + sum(it.task.memory for it in lanes.going)
        rest = lanes.left + [task for task, _ in lanes.waiting if task.name not in begun]
        line = f"{done} of {len(self.names)} crates are proved"
        if going:
            left = self.words(now, self.estimate.left(rest, self.number, memory))
            line += f", {left}; now {', '.join(going)}"
        if self.is_terminal:
            print(f"\r\033[K{line[:os.get_terminal_size().columns - 1]}", end="", flush=True)
        else:
            print(timed(line), flush=True)

    def end(self):
        if self.is_terminal:
            print("\r\033[K", end="", flush=True)
