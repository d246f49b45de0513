"""What earlier runs of the must-fail edits found, kept on this machine: an entry's name is the checksum of all that it
rests on, so it never goes stale. It is written apart and then renamed, so that no other run meets half of it."""
import json
import os
import stat
import tempfile
import time

from crates import KIT

# Where it may lie: next to the toolchain, where `rt ci` keeps what it proved, or in the user's own cache.
CACHE = os.environ.get("XDG_CACHE_HOME") or os.path.expanduser("~/.cache")
PLACES = (f"{os.path.dirname(KIT)}/rattle-kept/camplot-edits", f"{CACHE}/camplot/edits")
# An entry that no run has looked at for so many seconds goes.
LASTS = 30 * 24 * 3600


def own_folder(path):
    """Whether this is a folder of this user's alone, which is made if it is not there."""
    try:
        os.makedirs(path, 0o700, exist_ok=True)
        found = os.lstat(path)
        os.chmod(path, 0o700)
        return stat.S_ISDIR(found.st_mode) and found.st_uid == os.geteuid() and os.access(path, os.W_OK)
    except OSError:
        return False


class Kept:
    """`anew`: nothing is taken from it, but what is found is still kept."""

    def __init__(self, anew=False):
        places = [os.environ["CAMPLOT_KEPT"]] if os.environ.get("CAMPLOT_KEPT") else PLACES
        self.at, self.anew = next((it for it in places if own_folder(it)), None), anew
        self.sweep()

    def told(self, name):
        """The result of the edit of this name, None if nothing is known."""
        if not self.at or self.anew:
            return None
        try:
            with open(f"{self.at}/{name}", encoding="utf-8") as it:
                found = json.load(it)
            if found["name"] != name or type(found["said"]) is not str:
                return None
            os.utime(f"{self.at}/{name}")
            return found["said"]
        except (OSError, ValueError, KeyError, TypeError):
            return None

    def keep(self, name, said):
        if not self.at:
            return
        try:
            with tempfile.NamedTemporaryFile("w", prefix="new-", dir=self.at, delete=False, encoding="utf-8") as it:
                json.dump({"name": name, "said": said}, it)
            os.replace(it.name, f"{self.at}/{name}")
        except OSError:
            # (no room, say: the next run tries it again)
            pass

    def sweep(self):
        """Removes what no run has looked at for long, and what runs that were killed left."""
        try:
            for it in os.scandir(self.at) if self.at else ():
                if time.time() - it.stat().st_mtime > (3600 if it.name.startswith("new-") else LASTS):
                    os.remove(it.path)
        except OSError:
            pass
