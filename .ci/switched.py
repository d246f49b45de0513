"""Programs that have all wrong bodies at once, each under a switch, so that one build serves for hundreds of them."""
import os
import re
import shutil
import signal
import subprocess
import tempfile
import time


HERE = os.path.dirname(os.path.realpath(__file__))
SWITCH = "edit_switch"
# The tests in listed.d that are laid into copies of crates, by the crate: of what no other test or script can reach.
LAID = {"cam_c": "session", "camplot": "streams"}
SOURCE = """//! Whether a wrong body is on.

unsafe extern "C" {
    pub safe fn edit_is_on(edit: u32) -> bool;
}
"""
CONST_FN = re.compile(r"^ *(?:pub(?:\([a-z]+\))? )?const fn ")
# A constant, with its type and its value.
CONSTANT = re.compile(r"^ *(?:pub(?:\([a-z]+\))? )?const (\w+): ([^=]+) = (.*);$")


class Unbuilt(Exception):
    """Why a program cannot be built."""


def places(crate, edit):
    """The functions whose bodies an edit changes, each with what it makes of the body, for each pair; None if a pair stands
    elsewhere, or in a function that the compiler computes. A constant is changed in the bodies that name it."""
    found = []
    for file, old, new in edit.pairs:
        text = crate.texts.get(file, "")
        if text.count(old) != 1:
            return None
        at = text[: text.index(old)].count("\n")
        inside = [it for it in crate.functions if it.file == file and it.body < at + 1 < it.last]
        constant = CONSTANT.match(text.splitlines()[at].replace(old, new))
        if inside:
            found.append((inside[-1], lambda body, old=old, new=new: body.replace(old, new)))
        elif constant:
            name, of, value = constant.groups()
            named, it = rf"\b{name}\b", f"({value} as {of})"
            found += [(of, lambda body, named=named, it=it: re.sub(named, it, body)) for of in crate.changed_at(file, at + 1)]
        else:
            return None
    return None if not found or any(CONST_FN.match(it.text) for it, _ in found) else found


def switched(crate, numbered):
    """The texts of a crate whose functions have these edits, each a number and an edit, under a switch."""
    bodies = {}
    for number, edit in numbered:
        for function, change in places(crate, edit):
            place = function.file, function.first, function.last, function.body
            bodies.setdefault(place, {}).setdefault(number, []).append(change)
    lines = {file: text.splitlines() for file, text in crate.texts.items()}
    # (from the last one of a file on, so that the others stay where they are)
    for (file, _, last, opens), edits in sorted(bodies.items(), key=lambda it: (it[0][0], -it[0][1])):
        right, arms = "\n".join(lines[file][opens : last - 1]), []
        for number, changes in edits.items():
            wrong = right
            for change in changes:
                wrong = change(wrong)
            arms.append(f"if {SWITCH}::edit_is_on({number}) {{\n{wrong}\n}} else ")
        lines[file][opens : last - 1] = [f"{''.join(arms)}{{", right, "}"]
    return {file: "\n".join([*text, ""]) for file, text in lines.items()}


def lay(crates, folder):
    """Lays a copy of the crates with all edits that a switch can turn on, and returns these by number, each with its crate."""
    found = [(crate, it) for crate in crates.values() for it in crate.edits()]
    edits = dict(enumerate([it for it in found if places(*it)], 1))
    for crate in crates.values():
        own = [(number, edit) for number, (of, edit) in edits.items() if of is crate]
        for file, text in switched(crate, own).items():
            os.makedirs(os.path.dirname(f"{folder}/crates/{crate.name}/{file}"), exist_ok=True)
            with open(f"{folder}/crates/{crate.name}/{file}", "w", encoding="utf-8") as it:
                it.write(text)
    for crate in crates.values():
        if crate.name in LAID:
            test, root = LAID[crate.name], "main" if crate.is_program else "lib"
            shutil.copy(f"{HERE}/listed.d/{test}", f"{folder}/crates/{crate.name}/src/{test}_test.rt")
            with open(f"{folder}/crates/{crate.name}/src/{root}.rt", "a", encoding="utf-8") as it:
                it.write(f"#[cfg(test)]\nmod {test}_test;\n")
    for part in ("src", "c"):
        os.makedirs(f"{folder}/crates/{SWITCH}/{part}")
    shutil.copy(f"{HERE}/switch.c", f"{folder}/crates/{SWITCH}/c")
    with open(f"{folder}/crates/{SWITCH}/src/lib.rt", "w", encoding="utf-8") as it:
        it.write(SOURCE)
    with open(f"{folder}/crates.txt", "w", encoding="utf-8") as it:
        it.write(f"{SWITCH}:\n")
        for crate in crates.values():
            kind = " staticlib" if crate.is_static else ""
            it.write(f"{crate.name}{kind}: {' '.join([SWITCH, *[dep.name for dep in crate.deps]])}\n")
    return edits


def build(folder, name, program, tests=False):
    """Builds a crate of that copy with `rt try`, and keeps the program. `rt try` runs it once, and deletes it then."""
    with tempfile.TemporaryDirectory(prefix="shown-") as room, tempfile.TemporaryFile() as said:
        words = ["rt", "try", *(["--test"] if tests else []), "--steps", "1", "--", *([] if tests else ["--help"])]
        how = {"stdin": subprocess.DEVNULL, "stdout": said, "stderr": subprocess.STDOUT, "start_new_session": True}
        env = {**os.environ, "TMPDIR": room, "RT_ALLOW_C": "1"}
        running = subprocess.Popen(words, cwd=f"{folder}/crates/{name}", env=env, **how)
        try:
            while running.poll() is None and not os.path.exists(program):
                time.sleep(0.2)
                take(room, program)
        finally:
            # (it would go on with each test)
            os.killpg(running.pid, signal.SIGTERM) if running.poll() is None else None
            running.wait()
        if not os.path.exists(program):
            said.seek(0)
            raise Unbuilt(f"rt try does not build {name}:\n{said.read().decode(errors='replace')[-1500:]}")


def take(room, program):
    """Keeps the program that a run of `rt try` has below this folder, once it is whole: when it has begun to run."""
    for at, _, names in os.walk(room):
        if "program" in names and "stdout" in names:
            try:
                shutil.copy(f"{at}/program", f"{program}.new")
                os.replace(f"{program}.new", program)
            except FileNotFoundError:
                pass
