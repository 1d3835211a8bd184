"""When the workers were busy, by the takes and finishes of a session; in a recording by those that somebody saw."""

from __future__ import annotations

import bisect
from dataclasses import dataclass
from typing import TYPE_CHECKING

if TYPE_CHECKING:
    from uvt.walk import Walk


@dataclass
class Full:
    """Each worker had work, from one step to another."""

    first: int
    last: int
    names: list[str]


@dataclass
class Ran:
    """A worker had this request from one step to another."""

    name: str
    first: int
    last: int


def workers_of(lines: list[str]) -> int:
    return next((int(it.split(" ")[1]) for it in lines if it.startswith("workers ")), 4)


class Pool:
    """What ran in the workers, as far as somebody saw it."""

    def __init__(self, walk: Walk) -> None:
        self.walk = walk
        self.workers = workers_of(walk.script.lines)
        self.rans: list[Ran] = []
        self.fulls: list[Full] = []
        self.look_through()
        self.firsts = [it.first for it in self.fulls]

    def look_through(self) -> None:
        """(A request of which only the take was seen counts up to its finish where that was seen, or to the end.)"""
        guessed, running = self.walk.notes.guessed, {}
        begun = 0
        for step in self.walk.steps_between("out", 1, self.walk.length):
            words = self.walk.line(step).split(" ")
            if words[1] == "take" and step not in guessed:
                running[words[3]] = Ran(words[3], step, self.walk.length)
                self.rans.append(running[words[3]])
                if len(running) == self.workers:
                    begun, names = step, list(running)
            elif words[1] == "finish" and words[3] in running:
                if len(running) == self.workers:
                    self.keep(begun, step, names)
                running.pop(words[3]).last = step
        if len(running) == self.workers:
            self.keep(begun, self.walk.length, names)

    def keep(self, first: int, last: int, names: list[str]) -> None:
        """(Where one follows another at once it is the same time.)"""
        if self.fulls and self.walk.happened(self.fulls[-1].last) == self.walk.happened(first):
            self.fulls[-1].last = last
            self.fulls[-1].names += [it for it in names if it not in self.fulls[-1].names]
        else:
            self.fulls.append(Full(first, last, list(names)))

    def full_between(self, first: int, last: int) -> list[Full]:
        """The times between these steps at which each worker had work that somebody saw."""
        at = max(0, bisect.bisect_right(self.firsts, first) - 1)
        found = []
        for it in self.fulls[at:]:
            if it.first >= last:
                break
            begin, end = max(it.first, first), min(it.last, last)
            if begin < end and self.walk.happened(end) > self.walk.happened(begin):
                found.append(Full(begin, end, it.names))
        return found

    def names_between(self, first: int, last: int) -> list[str]:
        """Whose work the workers had in this time, each once."""
        found = [it.name for it in self.rans if it.first < last and it.last > first]
        return list(dict.fromkeys(found))
