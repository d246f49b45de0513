"""Finds lemmas and definitions that nothing cites: those of specs/ and proofs/ whose names no other one of their file has,
and no other file that imports them or gives their path."""
import os
import re

WORD = re.compile(r"[^\s(){}\[\],;:λ.⟦⟧]+")
IMPORT = re.compile(r"(?m)^\s*(?:pub )?(?:ghost )?use (Rattle\.[\w.+-]+?)\.\{([^}]*)\};?")
# A whole module that is imported, perhaps under another name.
MODULE = re.compile(r"(?m)^\s*(?:pub )?(?:ghost )?use (Rattle\.[\w.+-]+)(?: as (\w+))?;?\s*$")
# What may stand before the name of a definition.
KINDS = re.compile(r"^(?:(?:abbrev|unfoldable|opaque|pub|private|record|data|instance|ruleset) +)*")
# Lines that belong to no definition; that begin a group of some, which stand in it; and others that begin none.
OUTSIDE = ("use ", "pub use ", "pub mod ", "mod ", "--")
GROUPS = ("module ", "mutual")
NAMELESS = ("unfolding ", "infix", "open ")
# The files of a function's proof, whose answers have the names of its goals.
ANSWERS = ("Answers.antt", "Invariants.antt", "Proof.antt")
PATH = re.compile(r"crate::((?:proofs|specs)(?:::[\w+-]+)+)")
PARTS = ("src", "specs", "proofs")
# A public function, with the blanks before that of a type; a name, and the dot or the colons before it with what they follow;
# and what defines one.
PUBLIC = re.compile(r"(?m)^( *)pub (?:const )?(?:unsafe )?fn (\w+)")
CALL = re.compile(r"(?:(\b\w+|[>)\]?])?(?:<[^<>()]*>)?\s*(\.|::)\s*)?\b([a-z_]\w*)")
DEFINED = re.compile(r"\bfn (\w+)")
TYPE = re.compile(r"(?m)^ *(?:pub(?:\([a-z]+\))? )?(?:struct|enum|trait|type) (\w+)")
# What is imported of a crate, or of one of its modules; what hands names on; and any import.
IMPORTED = re.compile(r"(?ms)^ *(?:pub(?:\(\w+\))? )?use (\w+)::([^;]*);")
HANDED_ON = re.compile(r"(?ms)^pub(?:\(\w+\))? use crate::[^;]*;")
USED = re.compile(r"(?ms)^ *(?:pub(?:\(\w+\))? )?(?:ghost )?use [^;]*;")
COMMENT = re.compile(r"//.*")


def read(path):
    with open(path, encoding="utf-8") as it:
        return it.read()


def below(folder, ending):
    return sorted(f"{at}/{it}" for at, _, names in os.walk(folder) for it in names if it.endswith(ending))


def definitions_of(text):
    """The lines of each definition of a module, by its name; those of none under no name."""
    found, name, is_inside = {}, "", False
    for line in text.splitlines():
        if not line.strip() or line.strip().startswith(OUTSIDE):
            continue
        if not line[0].isspace():
            is_inside = KINDS.sub("", line).startswith(GROUPS)
        elif is_inside and line.startswith("  "):
            line = line[2:]
        if not line[0].isspace():
            line = KINDS.sub("", line)
            head = WORD.match(line)
            name = head[0] if head and not line.startswith((*GROUPS, *NAMELESS)) else ""
        found.setdefault(name, []).append(line)
    return {name: "\n".join(lines) for name, lines in found.items()}


def is_answer(path, name, text):
    """Whether it answers a goal, or is the whole proof of a function."""
    is_proof = os.path.basename(path) in ANSWERS
    return is_proof and bool(name.endswith("_spec") or re.search(rf"(?m)^(?:\w+ )*{re.escape(name)} : *goal\.", text))


def cited_by(path, text, crate):
    """What a file cites of others: modules and names."""
    body = MODULE.sub("", IMPORT.sub("", text))
    words = set(WORD.findall(body))
    for module, names in IMPORT.findall(text):
        for it in names.split(","):
            name, _, other = (word.strip() for word in it.partition(" as "))
            if (other or name) in words:
                yield module, name
    for module, other in MODULE.findall(text):
        for name in re.findall(rf"(?<![\w.]){re.escape(other or module.rpartition('.')[2])}\.([^\s(){{}}\[\],;:λ.]+)", body):
            yield module, name
    for it in re.findall(r"Rattle\.[\w.+-]+", body):
        module, _, name = it.rpartition(".")
        yield module, name
    for it in PATH.findall(text) if path.endswith(".rt") else ():
        module, _, name = f"Rattle.{crate}.{it.replace('::', '.')}".rpartition(".")
        yield module, name


def uncited(root):
    """The lemmas and definitions that nothing cites, each as its module and its name."""
    defined, cited = {}, set()
    for crate in sorted(os.listdir(f"{root}/crates")):
        for path in [it for part in PARTS for it in below(f"{root}/crates/{crate}/{part}", (".antt", ".rt"))]:
            text = read(path)
            cited.update(cited_by(path, text, crate))
            if path.endswith(".rt"):
                continue
            module = "Rattle." + os.path.relpath(path, f"{root}/crates")[: -len(".antt")].replace("/", ".")
            for name, lines in definitions_of(text).items():
                cited.update((module, it) for it in set(WORD.findall(lines)) if it != name)
                # (an operator's name is cited by its signs)
                if name and "◌" not in name and not is_answer(path, name, text):
                    defined[module, name] = path
    return [it for it in sorted(defined) if it not in cited]


class Code:
    """The code of a crate: the functions and types that it defines, what it imports of other crates, and what it calls."""

    def __init__(self, root, name):
        self.name = name
        self.texts = {it: HANDED_ON.sub("", COMMENT.sub("", read(it))) for it in below(f"{root}/crates/{name}/src", ".rt")}
        joined = "\n".join(self.texts.values())
        self.functions = {it[1] for it in DEFINED.finditer(joined)}
        self.types = set(TYPE.findall(joined))
        self.imported = {}
        for path, names in IMPORTED.findall(joined):
            for it in re.split(r"[{},\s]+", names):
                self.imported.setdefault(it, set()).add(path if os.path.isdir(f"{root}/crates/{path}") else name)

    def public(self):
        """Its public functions, laws left out: of each its file, its name, and whether it is a method."""
        for path, text in self.texts.items():
            if not path.endswith("laws.rt"):
                yield from ((path, name, bool(blanks)) for blanks, name in PUBLIC.findall(text))

    def calls(self):
        """What it calls: the name, whether of a type or a value, and the crate that has it, or None where any may."""
        for text in self.texts.values():
            # (what an import names is not called)
            for owner, mark, name in CALL.findall(DEFINED.sub("", USED.sub("", text))):
                yield name, bool(mark), self.home(owner, mark, name)

    def home(self, owner, mark, name):
        if mark == ".":
            return {self.name} if owner == "self" and name in self.functions else None
        if owner == "Self" or owner in self.types:
            return {self.name}
        if owner:
            return self.imported.get(owner) or None
        return {self.name} if name in self.functions and name not in self.imported else self.imported.get(name)


def uses_of(root):
    """The crates of crates.txt that each of them is made over, itself among them, all the way down."""
    with open(f"{root}/crates.txt", encoding="utf-8") as it:
        lines = [line.partition("#")[0].partition(":") for line in it if line.strip()]
    direct = {it[0].split()[0]: it[2].split() for it in lines if it[0].strip()}
    found = {}
    for name in direct:
        reach, new = set(), [name]
        while new:
            it = new.pop()
            if it not in reach:
                reach.add(it)
                new += direct.get(it, ())
        found[name] = reach
    return found


def uncalled(root):
    """The public functions that no code calls, each as its file and its name. A name is resolved by its crate: what a method
    of `self` or a function of a crate's own is named there is no call of another crate's. Laws are called by nobody."""
    crates = {it: Code(root, it) for it in sorted(os.listdir(f"{root}/crates"))}
    reach = uses_of(root)
    called = set()
    for crate in crates.values():
        for name, is_method, homes in crate.calls():
            for home in homes or reach.get(crate.name, {crate.name}):
                called |= {(home, name, is_method), (home, name, False)}
    return [
        (os.path.relpath(path, root), name)
        for crate in crates.values()
        for path, name, is_method in crate.public()
        if (crate.name, name, is_method) not in called
    ]
