"""A session of uvt as a program for the runner of tools/uvt/libuv, which leads the real library the same way."""

from __future__ import annotations

from dataclasses import dataclass, field

from uvt.conversation import Fault
from uvt.state import State
from uvt.libuv.runner import LAST_MS, common
from uvt.places import read_place
from uvt.pool import workers_of
from uvt.walk import OUTSIDE, Walk

MORE_LINES = 12
# (so many lines are never printed)
WHEN_IT_WAITS = 2**40


@dataclass
class Led:
    """What the runner is given, and the lines of uvt that it prints too, each with the step that printed it."""

    text: str
    workers: int
    lines: list[str]
    steps: list[int]

    def step_of(self, at: int) -> int:
        """The step of the line of that number, or the one behind the last step."""
        return self.steps[at] if at < len(self.steps) else self.steps[-1] + 1 if self.steps else 1


@dataclass
class Brought:
    """What one poll brings: the callbacks of I/O before the after and async callbacks, and those behind them."""

    before: list[int] = field(default_factory=list)
    behind: list[int] = field(default_factory=list)
    # the after and async callbacks
    others: list[int] = field(default_factory=list)

    def command(self, walk: Walk) -> str:
        """As the runner takes it: a point stands where the others come."""
        names = [[walk.calls[it][1] for it in some] for some in (self.before, self.behind)]
        return " ".join(["io", *names[0], ".", *names[1]])


def waits(state: State) -> bool:
    """Whether the loop waits in the poll: its deadline isn't there, no request is done, and nobody was sent to."""
    where = read_place(state.place).where or ""
    if not where.startswith("poll ") or is_woken(state):
        return False
    deadline = where.removeprefix("poll ")
    return deadline == "infinite" or state.numbers["clock"] < int(deadline)


def is_woken(state: State) -> bool:
    return bool(state.lists["done"]) or any(it.values.get("pending") == "1" for it in state.slots)


# ---- callbacks of I/O


def brought(walk: Walk) -> dict[int, Brought]:
    """What the polls bring, by the step that leaves each. The library's poll returns all of it at once."""
    found: dict[int, Brought] = {}
    left = 0
    for step in range(1, walk.length + 1):
        line = walk.lines[step]
        if line.startswith("poll "):
            left = 0
        elif step in walk.leaving or (line == "done" and not left):
            left = step
            found[left] = Brought()
        if step not in walk.calls:
            left = 0 if line == "check" else left
        elif walk.steps[step - 1] != "loop":
            take(walk, found.get(left), left, step)
        elif left:
            found[left].others.append(step)
    return {step: it for step, it in found.items() if it.before or it.behind}


def take(walk: Walk, poll: Brought | None, left: int, step: int) -> None:
    """One more callback of I/O of this poll. Says where the library can't be led so."""
    name, where = walk.calls[step][1], walk.place(step - 1).where
    if poll is None:
        raise Fault(f"step {step} is `io {name}` in the section `{where}`: libuv calls a poll handle in its poll alone, so it can't be led there")
    if left not in walk.leaving and not is_woken(walk.state(left - 1)):
        raise Fault(
            f"step {step} is `io {name}` behind a poll that was left since its time was over: in libuv what comes leaves the poll,"
            " so it can't be led there"
        )
    if is_new(walk, name, left, step):
        raise Fault(
            f"step {step} is `io {name}`, and {name} was started or stopped since the end of that poll, at step {left}: libuv calls it"
            " in its next poll, so it can't be led there"
        )
    if poll.others and where == "done":
        raise Fault(
            f"step {step} is `io {name}` between the after and async callbacks of its poll: in libuv these come together, so it can't be" " led there"
        )
    (poll.behind if where == "async" else poll.before).append(step)


def is_new(walk: Walk, name: str, left: int, step: int) -> bool:
    """Whether the handle that is called isn't one that was active as its poll was left, and since then."""
    slot = walk.state(left - 1).slot_of(name)
    if slot is None or slot.values.get("active") != "1" or not walk.lines[step].endswith(f" {slot.id}"):
        return True
    return any(walk.lines[at] in (f"stop {name} = ok", f"close {name} = ok") for at in range(left, step))


# ---- the whole session


def order_of(lines: list[str]) -> str:
    """In which order of the loop the script runs."""
    return next((it.split(" ")[1] for it in lines if it.startswith("order ")), "1.45")


class Leader:
    """Goes along a session, and places each step from outside by how many lines were printed before it, and by how often the loop has looked at
    the clock since the last of them: behind the line `run default` (but in the order of 1.44), on leaving the poll, and at the line `timers` of an
    iteration. One that came while the loop waited in the poll comes when libuv waits there; but what I/O a poll brings comes at once, and leaves
    it."""

    def __init__(self, walk: Walk) -> None:
        self.walk = walk
        self.brought = brought(walk)
        self.given: list[str] = []
        self.lines: list[str] = []
        self.steps: list[int] = []
        self.looks = 0
        self.looks_as_it_begins = order_of(walk.script.lines) != "1.44"
        # whether the poll was left by a callback of I/O: then its section `done` looks at no clock
        self.left_by_io = False

    def give(self, command: str, waits: bool = False) -> None:
        place = f"{WHEN_IT_WAITS} 0" if waits else f"{len(self.lines)} {self.looks}"
        self.given.append(f"at {place} {command}")

    def see(self, step: int) -> None:
        line, command = self.walk.lines[step], self.walk.steps[step - 1]
        if step in self.brought:
            self.give(self.brought[step].command(self.walk))
        if command.split(" ")[0] in OUTSIDE:
            self.left_by_io |= step in self.walk.leaving
            if not command.startswith("io "):
                self.give(command, waits(self.walk.state(step - 1)))
        elif (line == "done" and not self.left_by_io) or (line == "timers" and not self.has_looked()):
            self.looks += 1
        elif line.startswith("poll "):
            self.left_by_io = False
        shown = common(line) if line else None
        if shown is not None:
            self.lines.append(shown)
            self.steps.append(step)
            self.looks = 1 if self.has_looked() else 0

    def has_looked(self) -> bool:
        """Whether a run has begun behind the last line, and looked at the clock for the timers with which it begins."""
        return self.looks_as_it_begins and self.lines[-1:] == ["run default"]


def lead(walk: Walk) -> Led:
    if walk.clocks[-1] > LAST_MS // 2:
        raise Fault(f"the clock goes to {walk.clocks[-1]} ms, and libuv's can't go so far: it counts nanoseconds")
    leader = Leader(walk)
    for step in range(1, walk.length + 1):
        leader.see(step)
    if walk.after:
        leader.lines.append(f"refused {walk.after}")
        leader.steps.append(walk.length + 1)
    text = [*walk.script.lines, "begin", *leader.given, "blocked steps", f"limit {len(leader.lines) + MORE_LINES}"]
    return Led("\n".join(text), workers_of(walk.script.lines), leader.lines, leader.steps)
