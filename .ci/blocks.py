"""The blocks of code in documents: in Markdown, in man pages, in docstrings of Python."""
import ast
import re
from dataclasses import dataclass, field

FENCE = re.compile(r"^```(\S*)(?: (\S+))?$")
MARK = re.compile(r"<!--\s*(.*?)\s*-->", re.DOTALL)
# What a mark of a block may say.
WORDS = ("not run", "needs", "files", "in", "errors", "room")


class Unreadable(Exception):
    """A block or a mark that does not follow the rules of .ci/examples."""


@dataclass
class Block:
    """A block of a document: its first line, its language, the name of the file that it is, and its marks."""

    page: str
    line: int
    language: str
    name: str | None
    text: str
    marks: dict[str, str] = field(default_factory=dict)

    @property
    def place(self) -> str:
        return f"{self.page}:{self.line}"


def marks_of(text, page, line):
    """The marks in the comments of a text, by their words."""
    marks = {}
    for comment in MARK.findall(text):
        word, colon, rest = comment.partition(":")
        if word not in WORDS or not colon:
            raise Unreadable(f"{page}:{line}: a comment that is no mark: {comment[:60]}")
        marks[word] = " ".join([*marks.get(word, "").split(), *rest.split()])
        if not marks[word]:
            raise Unreadable(f"{page}:{line}: the mark '{word}' says nothing")
    return marks


def markdown(page, text):
    """The blocks of a page of Markdown, and the marks of the page itself: those that no block follows."""
    lines, blocks, own, at, comment = text.split("\n"), [], {}, 0, ""
    while at < len(lines):
        fence = FENCE.match(lines[at])
        if fence:
            end = lines.index("```", at + 1) if "```" in lines[at + 1:] else len(lines)
            body = "".join(f"{it}\n" for it in lines[at + 1:end])
            blocks.append(Block(page, at + 1, fence[1], fence[2], body, marks_of(comment, page, at + 1)))
            at, comment = end + 1, ""
            continue
        if lines[at].startswith("<!--"):
            start = at
            while "-->" not in lines[at]:
                at += 1
            if lines[at].split("-->", 1)[1].strip():
                raise Unreadable(f"{page}:{at + 1}: something stands behind a comment: write it on a line of its own")
            comment += "\n".join(lines[start:at + 1]) + "\n"
        elif lines[at].strip():
            if lines[at].startswith("    ") and not lines[at - 1].strip():
                raise Unreadable(f"{page}:{at + 1}: an indented block: write ``` and its language around it")
            own.update(marks_of(comment, page, at + 1))
            comment = ""
        at += 1
    return blocks, own


def man(page, text):
    """The examples of a man page, between .EX and .EE: commands."""
    blocks, body, comment = [], None, ""
    for number, line in enumerate(text.split("\n"), 1):
        if line.startswith('.\\" '):
            comment += f"<!-- {line[4:]} -->"
        elif line == ".EX":
            body, start = [], number
        elif line == ".EE":
            blocks.append(Block(page, start, "sh", None, "".join(body), marks_of(comment, page, start)))
            body, comment = None, ""
        elif body is not None:
            body.append(line.replace("\\-", "-").replace("\\e", "\\") + "\n")
        elif not line.startswith(".PP"):
            comment = ""
    return blocks, {}


def docstrings(page, text):
    """The indented blocks of a module's docstrings: Python."""
    blocks = []
    for node in ast.walk(ast.parse(text)):
        if not isinstance(node, (ast.Module, ast.ClassDef, ast.FunctionDef)) or not ast.get_docstring(node):
            continue
        at = node.body[0].lineno
        for part in re.findall(r"(?:^ {4}.*\n(?:\n(?= {4}))?)+", ast.get_docstring(node) + "\n", re.MULTILINE):
            blocks.append(Block(page, at, "python", None, re.sub(r"(?m)^ {4}", "", part)))
    return blocks, {}
