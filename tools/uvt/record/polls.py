"""The polls of a recording beside those of its program: how many there are, and how long each waits.

Both have the same callbacks, so what lies between two of them is compared. Where there are as many polls on both sides, their timeouts are
compared one by one.
"""

from __future__ import annotations

import array
import bisect
import itertools
from collections.abc import Iterator
from dataclasses import dataclass
from typing import NamedTuple

from uvt.record.items import Call, Item, Poll, Program
from uvt.session_lines import StepLines


class Wait(NamedTuple):
    """How long a poll may wait, -1 for ever; and where it stands: its step, or its line in the log."""

    timeout: int
    at: int


class Waits:
    """All polls, each behind so many callbacks."""

    def __init__(self) -> None:
        self.waits: list[Wait] = []
        self.behind = array.array("i")

    def add(self, timeout: int, at: int, callbacks: int) -> None:
        self.waits.append(Wait(timeout, at))
        self.behind.append(callbacks)

    def before(self, callbacks: int) -> int:
        """How many come before so many callbacks."""
        return bisect.bisect_left(self.behind, callbacks)

    def together(self, upto: int) -> Iterator[tuple[int, list[Wait]]]:
        """Of the first ones those that are behind as many callbacks."""
        for callbacks, those in itertools.groupby(range(upto), self.behind.__getitem__):
            yield callbacks, [self.waits[it] for it in those]


@dataclass
class Polls:
    """What came of it."""

    here: int = 0
    there: int = 0
    compared: int = 0
    others: int = 0
    # the first timeout that is another one, in a sentence
    first: str = ""

    def said(self) -> str:
        """Both, in a sentence; `` where there are none."""
        if not self.here and not self.there:
            return ""
        many = f"{self.here} polls" if self.here != 1 else "1 poll"
        count = f"{many}, as in the program" if self.here == self.there else f"{many}, and {self.there} in the program"
        if not self.compared:
            return count
        if not self.others:
            return f"{count}; the timeouts are the same" + ("" if self.compared == self.here else f" in the {self.compared} that can be compared")
        return f"{count}; {self.others} of {self.compared} timeouts are others, first: {self.first}"


def waits(timeout: int) -> str:
    return "infinite" if timeout < 0 else str(timeout)


def timeout_of(text: str) -> int:
    return -1 if text == "infinite" else int(text)


def waits_of(lines: StepLines) -> tuple[Waits, int]:
    """The polls of the steps, and how many callbacks these have. (The handle `wake` isn't the program's.)"""
    found, calls = Waits(), [step for step, (_, name, _) in lines.calls.rows() if name != "wake"]
    for step in lines.words.get("poll", ()):
        found.add(timeout_of(lines.line(step)[5:]), step, bisect.bisect_left(calls, step))
    return found, len(calls)


def waits_of_log(items: list[Item]) -> Waits:
    """The same of what the program did."""
    found, callbacks = Waits(), 0
    for item in items:
        if isinstance(item, Call):
            callbacks += 1
        elif isinstance(item, Poll) and item.timeout is not None:
            found.add(item.timeout, item.line, callbacks)
    return found


def compare(program: Program, lines: StepLines, callbacks: int, whole: bool) -> Polls:
    """The polls of a recording whose steps have these lines, up to its last callback where it isn't whole."""
    (here, count), there = waits_of(lines), waits_of_log(program.items)
    upto = count + 1 if whole else callbacks
    polls = Polls(here.before(upto), there.before(upto))
    theirs = dict(there.together(polls.there))
    # (logs of form 1 have the timeout of a look in place of the poll's own)
    for behind, ours in here.together(polls.here) if program.form > 1 else ():
        if len(ours) != len(theirs.get(behind, ())):
            continue
        for one, other in zip(ours, theirs[behind]):
            polls.compared += 1
            if one.timeout != other.timeout:
                polls.others += 1
                first = f"{waits(one.timeout)} at step {one.at}, and {waits(other.timeout)} in the program (line {other.at} of the log)"
                polls.first = polls.first or first
    return polls
