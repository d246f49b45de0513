"""A run of `rt ci` at the same time: what it has built so far, and the processors that it uses."""
import os
import re


class Proofs:
    """The run whose process is below `top`, or is it, and whose output goes to `log`; a line 'proofs: ended' ends it."""

    def __init__(self, top, log):
        self.top, self.log, self.own = top, log, os.getpid()

    def text(self):
        try:
            with open(self.log, encoding="utf-8", errors="replace") as it:
                return it.read()
        except OSError:
            return ""

    def has_built(self, crate):
        """Whether all libraries below the crate are built; if the run has ended, they are, or never will be."""
        text = self.text()
        proved = set(re.findall(r"(?m)^rt: (\w+) (?:proved|is kept: .*)$", text))
        return all(it.name in proved for it in crate.below()) or bool(re.search(r"(?m)^proofs: ended$", text))

    def busy(self):
        """How many processors the processes below `top` use now, without those below this one."""
        above, running = {}, []
        for it in os.listdir("/proc"):
            if it.isdigit():
                try:
                    with open(f"/proc/{it}/stat", encoding="utf-8", errors="replace") as stat:
                        state, parent = stat.read().rpartition(")")[2].split()[:2]
                except OSError:
                    continue
                above[int(it)] = int(parent)
                running += [int(it)] * (state in "RD")
        return sum(self.is_theirs(it, above) for it in running)

    def is_theirs(self, pid, above):
        while pid > 1 and pid not in (self.own, self.top):
            pid = above.get(pid, 0)
        return pid == self.top
