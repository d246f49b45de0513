"""The table of evidence: how it is known of each wrong body of crates/CRATE/refused that its contract refuses it, and not the
text of a proof alone. docs/gate.md describes it."""
import os
import re

from crates import file_sum, files_below, sum_of
from judging import PROOF
from switched import LAID

HERE = os.path.dirname(os.path.realpath(__file__))
TABLE = f"{HERE}/listed.d/evidence"
HEAD = """# Written by .ci/shown and .ci/edits: how it is known of each wrong body that it is one. A line has its crate and name; whether
# it is shown, open or not told yet; a checksum of what that rests on; and what was seen.
"""
# What the table has of an edit of which nothing is known, and which waits for .ci/shown or .ci/edits --tell.
UNTOLD = "by no run so far"
# The definitions that a file's contracts cite, by the module of specs/ that has them.
CITED = re.compile(r"^ghost use Rattle\.(\w+)\.specs\.([\w.]+)\.\{([^}]*)\};", re.M)
# An item of a file of tests, by its first line.
ITEM = re.compile(r"^(?:pub(?:\([a-z]+\))? )?(?:const|static|fn|type|struct|enum) (\w+)", re.M)


def read(path):
    with open(path, encoding="utf-8") as it:
        return it.read()


def lines_of(path=TABLE):
    """The lines of the table, by the edit's name with its crate."""
    lines = read(path).splitlines() if os.path.isfile(path) else []
    parts = [it.split(" ", 3) for it in lines if it and not it.startswith("#")]
    return {name: (shown, summed, text) for name, shown, summed, text in parts}


def write(told, order, path=TABLE):
    """Writes the lines in the order of these names; those of others are left out."""
    with open(f"{path}.new", "w", encoding="utf-8") as it:
        it.write(HEAD + "".join(f"{name} {' '.join(told[name])}\n" for name in order if name in told))
    os.replace(f"{path}.new", path)


def contract_of(crate, function):
    """The texts that say what a function has to give: its own and, of a trait's method, that of the trait; and the files of
    the definitions that they name."""
    *_, owner, name = ["", *function.path.split("::")]
    of = [it for it in crate.functions if it.name == name and it is not function and owner.endswith(f"{it.path.split('::')[-2:][0]}")]
    traits = [it for it in of if re.search(rf"^(?:pub(?:\([a-z]+\))? )?trait {it.path.split('::')[-2]}\b", crate.texts[it.file], re.M)]
    texts = [f"{it.head}\n{it.text}" for it in [function, *traits]]
    files = []
    for it in [function, *traits]:
        for library, module, names in CITED.findall(crate.texts[it.file]):
            named = re.findall(r"[\w◌]+", names)
            path = f"{os.path.dirname(crate.folder)}/{library}/specs/{module.replace('.', '/')}.antt"
            if os.path.isfile(path) and any(re.search(rf"\b{re.escape(word)}\b", "\n".join(texts)) for word in named):
                files.append(path)
    return texts, sorted({*files})


def body_sum(crate, edit):
    """A checksum of the edit and of the functions that it changes."""
    return sum_of(edit.text, [(it.path, it.head, it.text) for it in edit.functions])[:16]


def proof_sum(crate, edit):
    """A checksum of what a proof of its functions rests on: contracts, definitions that these name, and written proofs."""
    told = []
    for it in edit.functions:
        texts, files = contract_of(crate, it)
        proofs = [f"{crate.folder}/proofs/{it.proof}/{name}" for name in PROOF]
        told.append((texts, [file_sum(path) for path in [*files, *proofs] if os.path.isfile(path)]))
    return sum_of(body_sum(crate, edit), told)[:16]


def run_sum(root, text):
    """A checksum of the case, the row or the test in which a wrong program shows itself; None if it is not there."""
    kind, name = text.split(" ", 2)[:2]
    if kind[:-1] in LAID.values():
        return file_sum(f"{HERE}/listed.d/{kind[:-1]}")[:16]
    if kind == "case":
        folder = f"{root}/black_box/cases/{name.rstrip(':')}"
        return sum_of([(it, file_sum(f"{folder}/{it}")) for it in files_below(folder, ".")])[:16] if os.path.isdir(folder) else None
    if kind == "row":
        table, _, summed = name.rstrip(":").partition("/")
        return summed if summed in rows_in(f"{root}/black_box/rows.d/{table}").values() else None
    path, _, test = name.rstrip(":").rpartition("::")
    path = f"{root}/crates/{path.replace('::', '/src/', 1).replace('::', '/')}.rt"
    items = items_for(test, read(path)) if os.path.isfile(path) else []
    return sum_of(items)[:16] if items else None


def items_for(name, text):
    """The texts of an item of a file and of those in this file that it names, and so on."""
    starts = [(it.start(), it[1]) for it in ITEM.finditer(text)]
    parts = {of: text[at:end] for (at, of), end in zip(starts, [at for at, _ in starts[1:]] + [len(text)])}
    # (without what stands above the next one)
    parts = {of: re.sub(r"(?:\n(?://.*|#\[.*)?)+$", "", part) for of, part in parts.items()}
    found, left = {}, [name]
    while left:
        of = left.pop()
        if of in parts and of not in found:
            found[of] = parts[of]
            left += {*re.findall(r"\w+", parts[of])}
    return [found[of] for of in sorted(found)]


def rows_in(path):
    """The rows of a table, each the number of its first line and the beginning of its checksum. What goes on in lines with a
    blank before them is one row, and so is what stands between two lines `--` in a table of texts."""
    found, at = {}, 1
    ends = r"(?<=\n)--\n" if path.endswith("_written") else r"\n(?! )"
    parts = re.split(f"({ends})", read(path)) if os.path.isfile(path) else []
    for turn, part in enumerate(parts):
        if turn % 2 == 0:
            # (without the note above the next one)
            found[at] = sum_of(re.sub(r"(?:\n(?:#.*)?)+$", "", part))[:8]
        at += part.count("\n")
    return found


class Evidence:
    """The table, as far as it holds of the files as they are now. `tells`: what is not told yet counts as not known."""

    def __init__(self, root, tells=False, path=TABLE):
        self.root, self.told = root, {name: it for name, it in lines_of(path).items() if not (tells and it[2].startswith(UNTOLD))}

    def of(self, crate, edit):
        """Whether an edit is shown, open or not told yet, and what was seen; None if nothing is known of it."""
        shown, summed, text = self.told.get(f"{crate.name}/{edit.name}", ("", "", ""))
        if not shown or summed != self.sum(crate, edit, text):
            return None
        return shown, text

    def sum(self, crate, edit, text):
        """The checksum of a line with this text."""
        if text.split(" ", 1)[0] in ("goal", "values"):
            return proof_sum(crate, edit)
        if text.startswith(UNTOLD):
            return body_sum(crate, edit)
        run = run_sum(self.root, text)
        return f"{body_sum(crate, edit)}{run}" if run else None
