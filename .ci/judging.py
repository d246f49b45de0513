"""What a check tells of an edit: which goals of its functions are not proved, which written answers do not fit any more, and
how a proof is left without these answers."""
import re
from dataclasses import dataclass, field

# The files of a function's proof.
ANSWERS = "Answers.antt"
PROOF = (ANSWERS, "Invariants.antt", "Proof.antt")
# A note at the lines of a function, on a goal that no proof was found for.
NOTE = re.compile(r"^note: (src/[\w/]+\.rt):(\d+):\d+: it is not proved that (.*)")
# An error in a proof file of a function.
WRITTEN = rf"({'|'.join(re.escape(it) for it in PROOF)})"
ANSWER = re.compile(rf"^(?:\./)?proofs/([\w/+]+)/{WRITTEN}:\d+:\d+: error: (?:`([^`]*)`: )?(.*)")
# The text of such an error if the edit took away a name that the proof's text holds.
GONE = re.compile(r"has no field|is not in scope|has no `|has no\s+that can be named|was not admitted|is no name|no such")
# The prover could not read the edited text.
UNREAD = re.compile(r"^(?:\./)?(?:src|specs)/\S+?:\d+:\d+: error|^error[\[:]")
# The prover has found values at which a goal is false, and has checked them; of others it says that it has not.
VALUES = re.compile(r"allow values at which this goal is false|(?<!may not break the goal): the goal fails at ")
# What a goal of an `ensures` asks for.
ENSURES = "what it ensures"
# Behind what an earlier run saw.
KNOWN = ", as an earlier run saw"
# A definition of a file of answers: the line that gives its type.
DEFINITION = re.compile(r"^(?:pub |abbrev |unfoldable )*([^\s:(){}|]+) : ")


@dataclass
class Goal:
    """A goal of a contract, of a loop, of a call or of safety, that is not proved."""

    name: str
    has_values: bool

    @property
    def kind(self):
        return kind_of(self.name)


@dataclass
class Broken:
    """A written answer that does not fit the edited function."""

    folder: str
    file: str
    name: str
    why: str
    has_values: bool

    @property
    def is_gone(self):
        """Whether the check says no more than that a name is gone that the proof's text holds."""
        return bool(not self.name or GONE.search(re.sub(r"`[^`]*`", "", self.why)) or GONE.search(self.why.split("`")[0]))


@dataclass
class Told:
    """What a check tells of an edit. `unread`: why the prover cannot read it."""

    unread: str = ""
    goals: list = field(default_factory=list)
    broken: list = field(default_factory=list)


@dataclass
class Verdict:
    """Whether an edit is refused (None for one that cannot be read), by what, and the evidence that it is wrong: `values` if
    the prover found some, `goal` if a goal without a written answer stays open, `answers` if only written answers do not fit
    any more, which then may be `text`: nothing but their text; and `gone` if these only name what is gone. `broken` has those
    answers, if it comes from a check."""

    is_refused: bool
    text: str
    evidence: str = ""
    broken: list = field(default_factory=list)

    def kept(self):
        return f"{self.evidence}: {self.text}"

    @staticmethod
    def of_kept(said):
        evidence, _, text = said.partition(": ")
        return Verdict(True, f"{text.removesuffix(KNOWN)}{KNOWN}", evidence)

    def settled(self, wrong, right):
        """The verdict once the answers that do not fit are taken out, of the wrong body and of the right one."""
        goals = sorted(wrong.goals, key=first_told)
        if wrong.unread or right.unread or not goals:
            return Verdict(True, f"{self.text}; without these answers all is proved", "text")
        if goals[0].has_values or len(wrong.goals) > len(right.goals):
            return Verdict(True, said_of(goals[0]), "values" if goals[0].has_values else "goal")
        return Verdict(True, f"{self.text}; without these answers the right body is not proved either", "text")

    def line(self):
        """What the table has of it: whether it is shown or open, and what was seen; None where only a text refuses it."""
        shown = {"values": "shown", "goal": "open"}.get(self.evidence)
        return shown and (shown, f"{self.evidence} {self.text.removesuffix(KNOWN).removeprefix('refused by ')}")

    def with_table(self, told):
        """The kind of evidence, and the text to print, with what the table has of the edit."""
        # (the table says nothing of one whose functions are proved with it)
        counts = {"shown": self.evidence, "open": self.evidence == "answers", "untold": self.evidence in ("answers", "gone")}
        if told and counts[told[0]]:
            return told[0], f"{self.text}; {told[0]}: {told[1]}"
        if not self.is_refused:
            return "not refused", self.text
        shown = {"values": "shown", "goal": "open"}.get(self.evidence, "text")
        return shown, f"{'BY TEXT ALONE: ' if shown == 'text' else ''}{self.text}{', at values' if shown == 'shown' else ''}"


def first_told(goal):
    """What is told of several goals: one with values, and one of an `ensures`."""
    return not goal.has_values, kind_of(goal.name) != ENSURES


def said_of(goal):
    return f"refused by {goal.kind} ({goal.name})"


def judged(edit, said):
    """The verdict of a check on an edit: a note at its function's lines refuses it, or an answer that does not fit."""
    told = told_of(edit, said)
    if told.unread:
        return Verdict(None, f"BAD EDIT: the prover cannot read it: {told.unread}")
    goals = sorted(told.goals, key=first_told)
    fits = [it for it in told.broken if not it.is_gone]
    if goals and (goals[0].has_values or not told.broken):
        return Verdict(True, said_of(goals[0]), "values" if goals[0].has_values else "goal")
    for it in sorted(fits, key=first_told):
        text = f"refused by {kind_of(it.name)}, as its answer shows ({it.name})"
        return Verdict(True, text, "values" if it.has_values else "answers", told.broken)
    if goals:
        return Verdict(True, said_of(goals[0]), "answers", told.broken)
    if told.broken:
        return Verdict(False, f"BY ITS PROOF'S TEXT ALONE: {told.broken[0].name}: {told.broken[0].why[:120]}", "gone")
    return Verdict(False, "NOT REFUSED: its functions are proved with it")


def kind_of(goal):
    """What a goal asks for, by its name."""
    if goal.startswith(("returns", "invariant_of")):
        return ENSURES
    if "requires" in goal:
        return "what a call requires"
    # behind it may stand the way by which the loop goes on
    if re.search(r"-(init|preserved)(-|$)", goal):
        return "its loop's invariant"
    if re.search(r"-smaller(-|$)", goal):
        return "its measure"
    return "that it is safe"


def told_of(edit, said):
    """Reads what a check said of the functions of an edit."""
    if not re.search(r"^only=\d+ holes=\d+", said, re.M):
        lines = [it for it in said.splitlines() if UNREAD.match(it)] or said.splitlines()[-3:]
        return Told(unread=lines[0][:160] if lines else "it printed nothing")
    told = Told()
    # (a message goes on in lines that begin with spaces)
    for line in re.sub(r"\n {2,}", " ", said).splitlines():
        note, answer = NOTE.match(line), ANSWER.match(line)
        if note and any(it.file == note[1] and it.first <= int(note[2]) <= it.last for it in edit.functions):
            goal = re.search(r"\(`([^`]*)`\)", note[3])
            told.goals.append(Goal(goal[1] if goal else note[3][:60], bool(VALUES.search(note[3]))))
        if answer and any(it.is_proved_in(answer[1]) for it in edit.functions):
            folder, file, name, why = answer.groups()
            told.broken.append(Broken(folder, file, name or "", why, bool(VALUES.search(why))))
    return told


def left_out_of(broken):
    """The names of answers that do not fit, by the folder of their proof."""
    found = {}
    for it in broken:
        if it.file == ANSWERS and it.name:
            found.setdefault(it.folder, set()).add(it.name)
    return found


def without(text, names):
    """A text of answers without those of these names, and without what cites them."""
    lines = text.splitlines()
    starts = [(at, found[1]) for at, found in ((at, DEFINITION.match(it)) for at, it in enumerate(lines)) if found]
    ends = [at for at, _ in starts[1:]] + [len(lines)]
    parts = [(name, lines[at:end]) for (at, name), end in zip(starts, ends)]
    left_out, count = {*names}, -1
    while count != len(left_out):
        count = len(left_out)
        for name, part in parts:
            cited = {*re.findall(r"[^\s(),\[\]{}|λ.]+", " ".join(part[1:]))}
            if name not in left_out and cited & left_out:
                left_out.add(name)
    head = lines[: starts[0][0]] if starts else lines
    return "".join(f"{it}\n" for it in [*head, *(it for name, part in parts if name not in left_out for it in part)])
