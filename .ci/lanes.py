"""Runs commands side by side: as many as there are processors, and memory for. None outlives the process that began it.

A task is a generator: it yields each of its commands as a pair of a folder and a call that gives the words for so many
jobs, and is sent what the command came to. What it returns is its result, None where it failed.
"""
import os
import re
import signal
import subprocess
import tempfile
import time
from dataclasses import dataclass, field

# What a second, third and fourth job of one check gain, as measured: the clock's time, of that with one job.
SHARE = {1: 1.0, 2: 0.68, 3: 0.55, 4: 0.48}
# What each further job takes of the memory of the first, and by how many kilobytes each check of others may still grow.
MORE = 0.5
OTHERS = 1_500_000


@dataclass
class Task:
    """`seconds` is about how long one processor works at it, `memory` the most kilobytes that a command of it takes."""

    name: str
    work: object
    after: list = field(default_factory=list)
    seconds: float = 60
    memory: int = 3_000_000

    def takes(self, jobs):
        return self.memory * (1 + MORE * (jobs - 1))


@dataclass
class Said:
    """What a command came to: its exit status, what it wrote, how long it ran by the clock and of one processor, and the
    most kilobytes that it held."""

    status: int
    text: str
    seconds: float
    core: float
    memory: int


def number_in(path, pattern):
    try:
        with open(path, encoding="utf-8") as it:
            found = re.search(pattern, it.read())
            return int(found[1]) if found else None
    except OSError:
        return None


def processors():
    """How many processors there are to use: those that this process may run on, or fewer by its control group's quota."""
    found = len(os.sched_getaffinity(0))
    quota = number_in("/sys/fs/cgroup/cpu.max", r"^(\d+) ")
    period = number_in("/sys/fs/cgroup/cpu.max", r" (\d+)")
    return max(min(found, quota // period), 1) if quota and period else found


def free_memory():
    """How many kilobytes are free, under the limit of the control group too."""
    free = number_in("/proc/meminfo", r"MemAvailable:\s+(\d+)") or 4_000_000
    most = number_in("/sys/fs/cgroup/memory.max", r"^(\d+)")
    held = number_in("/sys/fs/cgroup/memory.current", r"^(\d+)")
    return min(free, (most - held) // 1024) if most and held is not None else free


def behind(tasks):
    """How long the longest way from each task to the end is, itself included."""
    found = {}

    def way(task):
        if task.name not in found:
            above = [way(it) for it in tasks if task.name in it.after]
            found[task.name] = task.seconds + max(above, default=0)
        return found[task.name]

    for it in tasks:
        way(it)
    return found


def starts(ready, idle, memory, is_idle, most=4):
    """Which of the tasks that are ready begin now, in this order, each with how many jobs, `most` at most: processors
    that no other task needs go to those that are there. Where nothing runs, the first begins whatever memory there is."""
    found = []
    for at, task in enumerate(ready):
        if idle < 1:
            break
        if task.takes(1) <= memory or (is_idle and not found):
            jobs = max(1, min(most, idle // (len(ready) - at)))
            while jobs > 1 and task.takes(jobs) > memory:
                jobs -= 1
            found.append((task, jobs))
            idle, memory = idle - jobs, memory - task.takes(jobs)
    return found


def forecast(tasks, number, memory, running=(), pace=1.0):
    """How many seconds are left until all these tasks are done; `running` has those that are begun, each with its jobs
    and the seconds left of it."""
    every = [*tasks, *(it for it, _, _ in running)]
    ways, there, now = behind(every), {it.name for it in every}, 0.0
    left, going = list(tasks), [(rest, it, jobs) for it, jobs, rest in running]
    while left or going:
        ready = [it for it in left if not any(name in there for name in it.after)]
        ready.sort(key=lambda it: -ways[it.name])
        used = sum(it.takes(jobs) for _, it, jobs in going)
        for task, jobs in starts(ready, number - sum(it[2] for it in going), memory - used, not going):
            left.remove(task)
            going.append((now + task.seconds * pace * SHARE[jobs], task, jobs))
        if not going:
            break
        going.sort(key=lambda it: it[0])
        ended = going.pop(0)
        now = max(now, ended[0])
        there.discard(ended[1].name)
    return now


class Group:
    """A group of processes that ends when this process does, however it ends."""

    def __init__(self, nice=0):
        ends, self.held = os.pipe()
        words = ["sh", "-c", "trap '' INT HUP TERM; read _; kill -9 0"]
        to = {"stdin": ends, "stdout": subprocess.DEVNULL, "stderr": subprocess.DEVNULL}
        self.guard = subprocess.Popen(words, preexec_fn=os.setpgrp, **to)
        os.close(ends)
        self.nice = nice

    def start(self, words, folder, output):
        def join():
            os.setpgid(0, self.guard.pid)
            os.nice(self.nice)

        to = {"stdin": subprocess.DEVNULL, "stdout": output, "stderr": subprocess.STDOUT}
        return subprocess.Popen(words, cwd=folder, preexec_fn=join, **to)

    def end(self):
        os.close(self.held)
        self.guard.wait()


@dataclass
class Going:
    """A command that runs."""

    task: Task
    jobs: int
    process: subprocess.Popen
    output: object
    began: float


class Lanes:
    """Runs tasks, the longest way first, each command with `most` jobs at most. `busy` gives how many processors others
    use, which are left to them, `may_begin` whether a task may begin."""

    def __init__(self, tasks, number=None, nice=0, most=4, busy=lambda: 0, may_begin=lambda task: True):
        self.number = number or int(os.environ.get("RT_JOBS") or 0) or processors()
        self.most, self.busy, self.may_begin = most, busy, may_begin
        self.ways, self.group = behind(tasks), Group(nice)
        self.left, self.waiting, self.going, self.results = list(tasks), [], [], {}
        self.works, self.ended = {}, []

    def run(self, tell=lambda lanes: None):
        """Runs all, calls `tell` once a second, and returns each task's result by its name."""
        try:
            while self.left or self.waiting or self.going:
                self.begin()
                tell(self)
                self.look()
            return self.results
        finally:
            self.group.end()

    def is_ready(self, task):
        return all(name in self.results for name in task.after) and self.may_begin(task)

    def begin(self):
        failed = {name for name, result in self.results.items() if result is None}
        for task in [it for it in self.left if failed & {*it.after}]:
            self.left.remove(task)
            self.results[task.name] = None
        for task in [it for it in self.left if self.is_ready(it)]:
            self.left.remove(task)
            self.works[task.name] = task.work()
            self.go_on(task, None)
        self.waiting.sort(key=lambda it: -self.ways[it[0].name])
        ready, busy = {task.name: command for task, command in self.waiting}, self.busy() if self.waiting else 0
        idle = self.number - sum(it.jobs for it in self.going) - busy
        # what runs may still grow, ours to what it is known to take
        growth = sum(max(0, it.task.takes(it.jobs) - held_by(it.process.pid)) for it in self.going) + OTHERS * busy
        every, room, is_idle = [it for it, _ in self.waiting], free_memory() - growth, not self.going and not busy
        for task, jobs in starts(every, idle, room, is_idle, self.most):
            self.waiting = [it for it in self.waiting if it[0] is not task]
            folder, words = ready[task.name]
            output = tempfile.TemporaryFile("w+", errors="replace")
            self.going.append(Going(task, jobs, self.group.start(words(jobs), folder, output), output, time.time()))

    def go_on(self, task, said):
        """Takes a task to its next command, or to its end."""
        try:
            self.waiting.append((task, self.works[task.name].send(said)))
        except StopIteration as it:
            self.results[task.name] = it.value

    def look(self):
        """Waits until a command has ended, a second at most."""
        until, ended = time.time() + 1, []
        while time.time() < until and not ended:
            time.sleep(0.05)
            for it in self.going:
                pid, status, used = os.wait4(it.process.pid, os.WNOHANG)
                if pid:
                    it.process.returncode = os.waitstatus_to_exitcode(status)
                    ended.append((it, used))
        for it, used in ended:
            self.going.remove(it)
            it.output.seek(0)
            core = used.ru_utime + used.ru_stime
            said = Said(it.process.returncode, it.output.read(), time.time() - it.began, core, used.ru_maxrss)
            it.output.close()
            self.ended.append((it.task, it.jobs, said))
            self.go_on(it.task, said)


def run(words, folder):
    """Runs one command, and gives its status and what it wrote."""
    how = {"stdin": subprocess.DEVNULL, "stdout": subprocess.PIPE, "stderr": subprocess.STDOUT}
    return subprocess.run(words, cwd=folder, text=True, errors="replace", **how)


def held_by(pid):
    """How many kilobytes a process holds."""
    pages = number_in(f"/proc/{pid}/statm", r"^\d+ (\d+)")
    return (pages or 0) * os.sysconf("SC_PAGE_SIZE") // 1024
