"""The seeds, which are the small files of the cases, and the dictionary."""

import pathlib
import re

HERE = pathlib.Path(__file__).resolve().parent
CASES = HERE.parent / "black_box" / "cases"
LONGEST = 4000


def dictionary():
    """The words of each section."""
    words = {}
    for line in (HERE / "dictionary").read_bytes().splitlines():
        if line.startswith(b"[") and line.endswith(b"]"):
            section = words.setdefault(line[1:-1].decode(), [])
        elif line and words:
            section.append(line)
    return words


class Seeds:
    """Gerber files, drill files, and scripts with the files that lie next to each."""

    def __init__(self):
        gerber, drill, self.scripts = set(), set(), []
        for script in sorted(CASES.glob("*/files/script")):
            beside = {}
            for path in sorted(script.parent.rglob("*")):
                if path.is_file() and path != script and path.stat().st_size <= LONGEST:
                    beside[path.relative_to(script.parent).as_posix()] = path.read_bytes()
            text = script.read_bytes()
            for kind, name in re.findall(rb"^load \S+ (gerber|drill) (\S+)", text, re.MULTILINE):
                held = beside.get(name.decode("latin-1"))
                if held is not None:
                    (gerber if kind == b"gerber" else drill).add(held)
            if len(text) <= 2 * LONGEST and all("/" not in name for name in beside):
                self.scripts.append((text, beside))
        self.gerber = sorted(gerber)
        self.drill = sorted(drill)
