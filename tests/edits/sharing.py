"""The edits that are left to try, shared out over lanes."""

import threading
from collections import Counter
from collections.abc import Iterable
from dataclasses import dataclass, field

from tests.edits.edit import Edit

# So many edits are tried in one check at most: what a check costs before its first function is then paid for once.
TOGETHER = 12
# An edit of which so many such checks said too little is tried alone. Mostly another one was of a function that its own calls:
# the prover then tries fewer of the goals. That other one is done with by the next check.
COMPANIES = 2


@dataclass
class Task:
    """What a lane does next: a check of a crate with these edits in it, or with none, to see that it is proved."""

    crate: str
    edits: list[Edit]


@dataclass
class Left:
    """What is left of a crate."""

    edits: list[Edit]
    # None, until it is known by a check of the crate as it stands
    functions: list[str] | None = None
    alone: list[Edit] = field(default_factory=list)
    companies: Counter[Edit] = field(default_factory=Counter)
    lanes: int = 0
    is_looked_at: bool = False

    def count(self) -> int:
        return len(self.edits) + len(self.alone)

    def company(self) -> list[Edit]:
        """The next edits to try in one check: each changes the body of another function, which the check names."""
        chosen: dict[str, Edit] = {}
        most = max(1, min(TOGETHER, -(-len(self.edits) // max(1, self.lanes))))
        for edit in self.edits:
            name = self.function(edit)
            if name and name not in chosen and len(chosen) < most:
                chosen[name] = edit
        self.edits = [it for it in self.edits if it not in chosen.values()]
        return list(chosen.values()) or [self.alone.pop()]

    def function(self, edit: Edit) -> str | None:
        """The function whose body the edit changes, as a check names it."""
        return edit.body.among(self.functions or ()) if edit.body else None

    def known(self, functions: list[str]) -> None:
        """Takes the functions that a check named. An edit of something else than one's body is tried alone."""
        self.functions = functions
        self.alone += [it for it in self.edits if not self.function(it)]
        self.edits = [it for it in self.edits if self.function(it)]

    def again(self, edits: Iterable[Edit]) -> None:
        """Takes back edits of which a check with others said too little."""
        for it in edits:
            self.companies[it] += 1
            (self.edits if self.companies[it] < COMPANIES else self.alone).append(it)


class Share:
    """What is left of all crates. A lane stays with its crate while that has edits left, and then helps where most are."""

    def __init__(self, edits: Iterable[Edit]) -> None:
        self.left: dict[str, Left] = {}
        for edit in edits:
            self.left.setdefault(edit.crate, Left([])).edits.append(edit)
        self.turn = threading.Condition()
        self.busy = 0
        self.is_ended = False

    def take(self, crate: str) -> Task | None:
        """The next task for a lane that is at this crate; None where nothing is left, nor can come back from another lane."""
        with self.turn:
            while not self.is_ended:
                if chosen := self.choose(crate):
                    self.busy += 1
                    return self.task(chosen, crate)
                if not self.busy:
                    return None
                self.turn.wait()
        return None

    def choose(self, crate: str) -> str | None:
        open_ones = [it for it, left in self.left.items() if left.count() and not left.is_looked_at]
        if crate in open_ones:
            return crate
        return max(open_ones, key=lambda it: self.left[it].count() / (1 + self.left[it].lanes), default=None)

    def task(self, chosen: str, crate: str) -> Task:
        left = self.left[chosen]
        if chosen != crate:
            left.lanes += 1
            if crate in self.left:
                self.left[crate].lanes -= 1
        if left.functions is None:
            left.is_looked_at = True
            return Task(chosen, [])
        return Task(chosen, left.company())

    def done(self, task: Task, functions: list[str] | None = None, again: Iterable[Edit] = ()) -> None:
        """Takes what became of a task: the functions of a crate that is proved as it stands, and the edits to be tried again."""
        with self.turn:
            left = self.left[task.crate]
            if functions is not None:
                left.known(functions)
            left.again(again)
            left.is_looked_at = False
            self.busy -= 1
            self.turn.notify_all()

    def drop(self, crate: str) -> list[Edit]:
        """Gives up a crate, and answers what was left of it."""
        with self.turn:
            left = self.left[crate]
            edits, left.edits, left.alone = [*left.edits, *left.alone], [], []
            return edits

    def end(self) -> None:
        with self.turn:
            self.is_ended = True
            self.turn.notify_all()
