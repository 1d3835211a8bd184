"""What came: where the loop was at a callback of I/O, how long that was behind the end of its poll, and who waited since nobody woke that.

A callback of I/O is a step from outside. When what it is for came, nobody knows; but it may have been there when its poll was left, so what
the loop did from there on is what it waited for.
"""

from __future__ import annotations

import bisect
from dataclasses import dataclass

from uvt.state import State
from uvt.notes import Notes
from uvt.waits import Wait
from uvt.walk import LeftByIo, WAKES, Walk

LEFT, BEHIND, PENDING = "left", "behind", "pending"


@dataclass
class Came:
    """A callback of I/O."""

    step: int
    # it left its poll; it came behind that, in the same iteration; or in the section `pending`, before the poll
    where: str
    # its poll, or that of the iteration before where it came in `pending`; None where there was none yet
    poll: int | None
    # the step behind which it may have been called: the end of that poll, or its start or last call where that came later
    since: int


def what_came(notes: Notes, step: str, state: State) -> str:
    """What came with this step, by the notes of a recording; `` where these don't say it, and of any other step. The state is that behind it."""
    word, _, name = step.partition(" ")
    told = notes.came(name, state.counts[name][0]) if word == "io" and name in state.counts else ""
    return f"{notes.kind(name)}: {told}" if told else ""


def came(walk: Walk, wait: Wait) -> Came:
    """What is known of a call."""
    step = wait.end()
    if step in walk.leaving:
        return Came(step, LEFT, walk.leaving[step], step)
    poll, pending = walk.last_line(("poll",), step), walk.last_line(("pending",), step)
    where = BEHIND if poll and poll > (pending or 0) else PENDING
    return Came(step, where, poll, max(walk.left_at(poll) if poll else 0, wait.asked))


def behind(walk: Walk, wait: Wait) -> int:
    """How many ms behind the end of its poll it is called, or behind its start or last call; 0 for one that left its poll."""
    it = came(walk, wait)
    return walk.clock(it.step) - walk.clock(it.since) if it.poll else 0


def left_by(walk: Walk, call: int) -> LeftByIo:
    """The poll that this callback left."""
    return walk.left_by_io[bisect.bisect_left(walk.left_by_io, call, key=lambda it: it.call)]


def called_between(walk: Walk, first: int, last: int) -> list[str]:
    """Whose callbacks came from one step on, up to another one, in order, each once."""
    return list(dict.fromkeys(walk.calls[it][1] for it in range(first, last) if it in walk.calls))


def section_behind(walk: Walk, it: LeftByIo, section: str) -> int:
    """The step at which this section comes behind such a poll; 0 where the session ends before it."""
    rows = walk.steps_of(section)
    at = bisect.bisect_right(rows, it.call)
    return rows[at] if at < len(rows) else 0


def unwoken_between(walk: Walk, first: int, last: int, section: str) -> list[LeftByIo]:
    """The polls that nobody had woken as a callback of I/O left them, and whose section came between these steps."""
    found = []
    for it in walk.left_by_io[max(0, bisect.bisect_right(walk.left_by_io, first, key=lambda it: it.call) - 1) :]:
        if it.call >= last:
            break
        if not it.woken and first < section_behind(walk, it, section) < last:
            found.append(it)
    return found


def waited(walk: Walk, it: LeftByIo) -> list[str]:
    """Whose callbacks this poll would have had, if somebody had woken it: requests that were done by its section `done`, and async handles that
    were sent to by its section `async`. None where somebody had."""
    done, sent = section_behind(walk, it, "done"), section_behind(walk, it, "async")
    # (a state is asked for only where a line says that there may be somebody)
    if it.woken or not any(at.startswith(WAKES) for at in walk.lines_between(it.call + 1, sent or walk.length)):
        return []
    found = list(walk.state(done).lists["done"]) if done else []
    return found + [slot.name for slot in walk.state(sent).slots if slot.values.get("pending") == "1"] if sent else found
