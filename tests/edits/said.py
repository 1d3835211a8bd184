"""What a check said of edits: which of them the prover refused."""

import re
from collections.abc import Iterable, Mapping
from dataclasses import dataclass
from enum import Enum

from tests.edits.edit import Edit


class Word(Enum):
    """What became of an edit."""

    REFUSED = "refused"
    LITTLE = "refused, which says little"
    PROVED = "NOT REFUSED"
    BAD = "BAD EDIT"
    UNTRIED = "NOT TRIED"


@dataclass(frozen=True)
class Verdict:
    """What became of an edit, and in which words."""

    word: Word
    why: str


@dataclass(frozen=True)
class Said:
    """What a check ended with and wrote."""

    status: int
    text: str

    def lines(self) -> list[str]:
        """What the prover wrote, without what `rt` adds."""
        return [it for it in self.text.rstrip("\n").split("\n") if not it.startswith("rt: ")]

    def proved(self) -> list[str]:
        """The functions that are proved."""
        return re.findall(r"^fn (\S+): proved\b", self.text, re.M)

    def is_proved(self) -> bool:
        return self.status == 0 and any(it.startswith("logic=proved ") for it in self.lines()[-1:])


# How the prover says what is wrong with a function's proof, where the goal is one that it tried by itself.
OPEN_GOAL = re.compile(r"it is not proved that|`search` found no proof")
# The prover tries no goal of such a function.
NOT_COVERED = re.compile(r"^fn \S+: no proof: .*the borrow checker does not cover this function yet.*", re.M)
POSITION = re.compile(r"(?P<note>note: )?(?:\./)?(?P<file>[^\s:]+):(?P<line>\d+):\d+:")
# A proof file names what an edit took away, or cites a proof that does so.
NAME_IS_GONE = re.compile(r"(?:\./)?proofs/.*(has no field|is not in scope|has no `|was not admitted)")
# The prover couldn't read a text, where one that only makes a statement false is read well.
UNREAD = re.compile(r"is not in scope|has no field|is no name|operand is missing|expected the end|cannot continue")
# A fault, and one that the check of a constant's condition finds.
FAULT = re.compile(r"(?:\./)?[^\s:]+:\d+:\d+: error")
OF_A_CONSTANT = re.compile(r"(?:\./)?src/[^\s:]+:\d+:\d+: error\[failed-constant-evaluation\]")
STALE = re.compile(r"module .Rattle-\w+-.*Run the lower steps again")


def is_unread(line: str, files: Iterable[str]) -> bool:
    """Whether this line says that a text of src/, specs/ or one of these files can't be read."""
    at = re.match(r"(?:\./)?(?P<file>\S+?):\d+:\d+: error: (?:(?P<of>`[^`]*`): )?(?P<said>.*)", line)
    if not at or (at["file"] not in files and not at["file"].startswith(("src/", "specs/"))):
        return False
    return not at["of"] or bool(UNREAD.search(re.sub(r"`[^`]*`", "", at["said"])))


def judged(said: Said, files: Iterable[str]) -> Verdict:
    """What became of an edit of these files that was tried alone, by the rules of the kit's `rt must-fail`.

    Beyond these, one is refused that a check of a constant stops before the prover comes to it, as that of a size. And one says little, too, that
    makes a function which the prover doesn't cover: no clause refuses that.
    """
    lines = said.lines()
    if unread := [it for it in lines if is_unread(it, files)]:
        return Verdict(Word.BAD, f"the prover can't read the edited text, so no contract was tried: {unread[0][:200]}")
    if STALE.search(said.text):
        return Verdict(Word.UNTRIED, "the kept work of a library could not be used")
    if said.status == 0:
        return Verdict(Word.PROVED, "the crate is still proved with this edit")
    if said.status != 1:
        return Verdict(Word.UNTRIED, f"the check ended with status {said.status}: {lines[-1][:200]}")
    faults = [it for it in lines if FAULT.match(it)]
    if faults and all(map(OF_A_CONSTANT.match, faults)):
        return Verdict(Word.REFUSED, faults[0][:160])
    if not lines[-1].startswith("logic=not-proved"):
        return Verdict(Word.BAD, f"it didn't reach the prover: {' / '.join(said.text.splitlines()[:6])[:600]}")
    told = [it for it in lines if POSITION.match(it)]
    told = [it for it in told if ": error" in it or it.startswith("note: ")] or told
    speaking = [it for it in told if not NAME_IS_GONE.match(it)]
    if told and not speaking:
        return Verdict(Word.LITTLE, f"only a name is gone that a proof file cites (change a value and keep the names): {told[0][:160]}")
    if (uncovered := NOT_COVERED.search(said.text)) and not any(map(is_fault, lines)):
        return Verdict(Word.LITTLE, f"the prover doesn't come to the contract, since it can't read the function: {uncovered[0][:300]}")
    return Verdict(Word.REFUSED, speaking[0][:160] if speaking else "")


# A fault that the compiler names.
NAMED = re.compile(r"(?:\./)?(?P<file>src/[^\s:]+):\d+:\d+: error\[(?P<name>[\w-]+)\]")


def judged_by_types(said: Said, edit: Edit) -> Verdict:
    """What became of an edit that the types are to refuse: the compiler stops at just the fault that it names, in a file that it changes."""
    if said.status == 0:
        return Verdict(Word.PROVED, "the crate is still proved with this edit")
    faults = [it for it in said.lines() if FAULT.match(it)]
    named = [it for it in map(NAMED.match, faults) if it]
    files = {file for file, _ in edit.lines}
    if faults and len(named) == len(faults) and all(it["name"] == edit.types and it["file"] in files for it in named):
        return Verdict(Word.REFUSED, faults[0][:160])
    return Verdict(Word.BAD, f"the types don't refuse it by {edit.types}: {(faults or said.lines()[-1:])[0][:200]}")


def judged_together(said: Said, functions: Mapping[Edit, str]) -> dict[Edit, Verdict]:
    """Those of these edits, each with the function whose body it changes, that are refused whatever the others do.

    A function is proved from its own body and from the contracts of what it calls. So where the prover finds a fault in
    the proof of a function, the edit of that body is refused, whatever stands in the others'. What it says of a function
    only because another isn't proved, or because a name is gone, counts for nothing here.
    """
    files = {file for edit in functions for file, _ in edit.lines}
    if judged(said, files).word is not Word.REFUSED:
        return {}
    lines = said.lines()
    unproved = {it[1] for it in map(re.compile(r"fn (\S+): (?:not proved|no proof)\b").match, lines) if it}
    faults = [it for it in lines if is_fault(it)]
    clear: dict[Edit, Verdict] = {}
    for edit, function in functions.items():
        own = [it for it in faults if stands_in(it, edit, function)]
        if own and any(is_of(it, function) for it in unproved):
            clear[edit] = Verdict(Word.REFUSED, own[0][:160])
    return clear


def is_fault(line: str) -> bool:
    """Whether this line says what is wrong with a function's proof, and not only that a name is gone."""
    at = POSITION.match(line)
    if not at or NAME_IS_GONE.match(line):
        return False
    return bool(OPEN_GOAL.search(line)) if at["note"] else line[at.end() :].startswith(" error")


def stands_in(line: str, edit: Edit, function: str) -> bool:
    """Whether this line points into the function that the edit changes, or into a file of its proof."""
    at = POSITION.match(line)
    assert at and edit.body
    if at["file"] == edit.body.file:
        return edit.body.first <= int(at["line"]) <= edit.body.last
    return any(at["file"].startswith(f"proofs/{it.partition('::')[2].replace('::', '/')}/") for it in (function, closures_of(function)))


def is_of(name: str, function: str) -> bool:
    """Whether a check calls the function so, or a closure in it."""
    return name == function or name.startswith(closures_of(function) + "::")


def closures_of(function: str) -> str:
    """What stands in front of the names of a function's closures: `a::m::f` has `a::m::fn::f::all`."""
    parts = function.split("::")
    at = next((it for it, part in enumerate(parts) if part[:1].isupper()), len(parts) - 1)
    return "::".join([*parts[:at], "fn", *parts[at:]])
