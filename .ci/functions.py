"""The functions of a crate's files, by the layout that rt fmt gives them, the folders of their proofs, and how a function is
left without its body."""
import re
from dataclasses import dataclass

FUNCTION = re.compile(r'^( *)(?:pub(?:\([a-z]+\))? )?(?:const )?(?:unsafe )?(?:extern "C" )?fn (\w+)')
TYPE = re.compile(r"(?m)^(?:pub(?:\([a-z]+\))? )?(?:struct|enum) (\w+)")
BLOCK = re.compile(r"^(?:unsafe )?impl(?:<.*?>)? (?:(?P<of>.+?) for )?&?(?:'\w+ )?(?P<type>\w+)")
TRAIT = re.compile(r"^(?:pub(?:\([a-z]+\))? )?trait (?P<type>\w+)")
CONSTANT = re.compile(r"^ *(?:pub(?:\([a-z]+\))? )?(?:const|static) (\w+)\s*:")
TACTIC = re.compile(r"#\[tactic\([^\]]*\]")
# Functions that keep their bodies: under a condition, of a cycle with one proof, exported, computed, over raw pointers.
KEEPS_BODY = re.compile(r"#\[(?:cfg|cycle|test|unsafe)\b|\b(?:const|unsafe) fn ")
# The proof of a function whose body is `unreachable!()`, with a hole for its only goal.
HOLE = """use Rattle.{}.proofs.{}.Goals as goal

pub unreachable-requires : goal.unreachable-requires
unreachable-requires c = ?
"""


@dataclass
class Function:
    """A function of a crate: its path below the crate, its file, its lines, the line that its body begins behind (the last
    one if it has none), what stands above it, and its text."""

    path: str
    file: str
    first: int
    last: int
    body: int
    head: str
    text: str

    @property
    def name(self):
        return self.path.rpartition("::")[2]

    @property
    def proof(self):
        """The folder's name of its proof: its own, or that of its cycle of calls, which has one proof."""
        cycle = re.search(r"#\[cycle\((\w+)\)\]", self.head)
        return f"+{cycle[1]}" if cycle else self.path.replace("::", "/")

    @property
    def can_lose_body(self):
        return self.body < self.last - 1 and not KEEPS_BODY.search(f"{self.head}\n{self.text.splitlines()[0]}")

    def without_body(self, lines):
        """Takes its body out of the lines of its file, and the words for its proof; each other line stays where it is."""
        for at in range(self.body, self.last - 1):
            lines[at] = "unreachable!()" if at == self.body else ""
        head = "\n".join(lines[self.first - 1 : self.body])
        lines[self.first - 1 : self.body] = TACTIC.sub(lambda it: "\n" * it[0].count("\n"), head).split("\n")

    def is_proved_in(self, folder):
        own = self.path.replace("::", "/")
        above, _, last = folder.rpartition("/")
        is_cycle = last in (self.proof, f"+{self.name}") and (not above or f"{own}/".startswith(f"{above}/"))
        return is_cycle or folder == own


def module_of(file):
    return [it for it in file[len("src/") : -len(".rt")].split("/") if it not in ("lib", "main")]


def functions_in(file, text, modules):
    """The functions of a file, by the layout that rt fmt gives it. A type's own methods go by the type's module."""
    lines, found, owner, in_trait = text.splitlines(), [], [], False
    for at, line in enumerate(lines):
        block, trait = BLOCK.match(line), TRAIT.match(line)
        if block:
            # (an impl of From<Refused<T>> for Fault is called FaultFromRefused)
            of = "".join(re.findall(r"(\w+)(?!::)", re.sub(r"(<.*?)<.*>(.*>)$", r"\1\2", block["of"] or "")))
            owner = [*(module_of(file) if of else modules.get(block["type"], module_of(file))), block["type"] + of]
        elif trait:
            owner, in_trait = [*module_of(file), trait["type"]], True
        elif line.startswith("}"):
            owner, in_trait = [], False
        function = FUNCTION.match(line)
        if function and len(function[1]) in (0, 4):
            path = "::".join([*(owner if function[1] else module_of(file)), function[2]])
            first, (opens, end) = head_of(lines, at), extent(lines, at, function[1], in_trait)
            head, text = "\n".join(lines[first:at]), "\n".join(lines[at : end + 1])
            found.append(Function(path, file, first + 1, end + 1, opens + 1, head, text))
    return found


def head_of(lines, at):
    """The place of the first line of what stands right above a function and belongs to it: attributes, and its page."""
    indent = lines[at][: len(lines[at]) - len(lines[at].lstrip())]
    while at and lines[at - 1].strip() and lines[at - 1].startswith(indent) and lines[at - 1] != f"{indent}}}":
        at -= 1
    return at


def extent(lines, at, indent, in_trait):
    """The places of the line that opens the body of a function, after which comes code and before it what callers see, and
    of its last line. Without a body, as in a trait, or with an empty one, they are the same."""
    for i in range(at, len(lines)):
        stands_out = lines[i][: len(indent) + 1].strip()
        if stands_out and lines[i].endswith("{"):
            return i, next((end for end in range(i, len(lines)) if lines[end] == f"{indent}}}"), i)
        if stands_out and lines[i].endswith("{}") or in_trait and lines[i].endswith(";"):
            return i, i
    return at, at
