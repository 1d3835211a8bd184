"""Why a session's lines and those of libuv part: the headings of docs/LIBUV.md.

There is no loop here. What is looked at are the states of uvt: where it was at a step at which the page says that libuv does
otherwise.
"""

from __future__ import annotations

from dataclasses import dataclass

from uvt.state import Slot, State
from uvt.libuv.runner import Library
from uvt.libuv.session import Led
from uvt.places import read_place
from uvt.walk import Walk

HEAP = "A zero timeout started in a callback waits (own)"
SET_ASIDE = "A due timer that waits for its call isn't active (own)"
AGAIN = "`again` stops a timer that doesn't repeat"
DUE = "`due` of a timer that isn't active is 0 (own)"
POLLED = "`timeout` doesn't ask whether the loop has polled"
IDLE = "`timeout` in an idle callback counts the handles still to be called"
CLOSED = "`alive` and `timeout` in a close callback count the handles still to be called"
WAKE = "A send in the async section leaves no wake behind"
CANCEL = "A request is cancelled once (own)"
MADE = "An async handle made in an after callback is called in the same iteration"
CLOSING = "`start`, `again` and `send` of a handle that closes are `EINVAL` (own)"
FIRST = "A default run that its first timers finish does no iteration (own)"
ENTRY = "A default run looks at the clock as it begins, and no other run does (own)"
POLL = "The poll waits from `now`, and not from the moment it begins"
ORDER = "Each iteration ends with its timers, and doesn't begin with them"
LOOP_CLOSED = "Answers that libuv doesn't have"


@dataclass
class Cause:
    """A step at which libuv does otherwise, and the heading that says so."""

    step: int
    heading: str


@dataclass
class Parting:
    """The first line, from 0, that isn't the same, and what may be the reason."""

    at: int
    causes: list[Cause]


class Look:
    """A step with its line, the state before it, and libuv's line where this is the one at which the two part."""

    def __init__(self, walk: Walk, step: int, library: Library, there: str | None) -> None:
        self.walk, self.step, self.library, self.there = walk, step, library, there
        self.line = walk.lines[step] if step <= walk.length else ""
        text = self.line.removeprefix("out ")
        self.op, _, self.answer = text.partition(" = ")
        self.words = self.op.split(" ")

    def state(self) -> State:
        return self.walk.state(min(self.step - 1, self.walk.length))

    def where(self) -> str:
        """The section; `polled` and `done unwoken` are none of those that call."""
        where = read_place(self.state().place).where or ""
        return where if where == "done unwoken" else where.split(" ")[0]

    def mode(self) -> str:
        return read_place(self.state().place).mode or ""

    def slot(self) -> Slot | None:
        return self.state().slot_of(self.words[1]) if len(self.words) > 1 else None

    def has(self, name: str) -> list[str]:
        return self.state().lists[name]

    def number(self, name: str) -> int:
        return self.state().numbers[name]

    def due_timers(self) -> list[Slot]:
        state = self.state()
        slots = [state.slot_of(it) for it in state.lists["timers"]]
        return [it for it in slots if it and int(it.values["due"]) <= max(state.numbers["now"], state.numbers["clock"])]

    def has_to_poll(self) -> bool:
        """Whether the loop hasn't polled, or not since a handle of I/O was started that is active."""
        poll = self.walk.last_line(("poll",), self.step - 1)
        active = [it.name for it in self.state().slots if it.kind == "io" and it.values["active"] == "1"]
        return poll is None or any(f"start {it} = ok" in self.walk.lines[poll : self.step] for it in active)

    def is_last_section(self) -> bool:
        """Whether the run ends behind this section of timers."""
        behind = (it for it in self.walk.lines[self.step + 1 :] if it == "pending" or it.startswith("end "))
        return next(behind, "").startswith("end ")

    def is_alive(self) -> bool:
        """Whether the loop is alive before this step."""
        slots = [it for it in self.state().slots if it.name]
        return any(it.kind == "work" or it.values["closing"] == "1" or (it.values["active"], it.values["ref"]) == ("1", "1") for it in slots)

    def is_here(self) -> bool:
        """Whether this is the line at which they part."""
        return self.there is not None


# ---- at the line where they part


def asked_wrongly(look: Look) -> str | None:
    """The answer of an op that asks."""
    if not look.is_here() or not look.answer:
        return None
    op = look.words[0]
    if op == "timeout" and look.there == "timeout = 0" and look.has_to_poll():
        return POLLED
    if op in ("active", "alive", "timeout") and look.has("ready"):
        return SET_ASIDE
    if op == "due":
        return DUE
    if op in ("alive", "timeout") and look.has("closing-yet"):
        return CLOSED
    if op == "timeout" and look.has("idle-yet"):
        return IDLE
    return None


def refused_here(look: Look) -> str | None:
    """An op that is refused here and not there."""
    if not look.is_here() or not look.answer:
        return None
    if look.answer == "EBUSY" and look.words[0] == "cancel":
        return CANCEL
    if look.answer == "EINVAL" and look.words[0] in ("start", "again", "send"):
        return CLOSING
    return None


def closed_loop(look: Look) -> str | None:
    return LOOP_CLOSED if look.there == "the loop is closed" else None


def ended_early(look: Look) -> str | None:
    """The run ends here behind its first timers, and goes on there, or ends as alive."""
    ends = look.line.startswith("end ") and look.where() == "first"
    return FIRST if look.is_here() and ends and look.library.order() != "1.44" else None


# ---- before that line, or at it


def timers_left(look: Look) -> str | None:
    """The section of timers is left while a timer is due."""
    if look.line != "pending" and not look.line.startswith("end "):
        return None
    return HEAP if look.where() in ("first", "timers") and any(int(it.values["due"]) <= look.number("now") for it in look.due_timers()) else None


def stopped_by_again(look: Look) -> str | None:
    if look.words[0] != "again" or look.answer != "ok":
        return None
    slot = look.slot()
    return AGAIN if slot and slot.values["repeat"] == "0" and (slot.values["active"] == "1" or slot.name in look.has("ready")) else None


def left_a_wake(look: Look) -> str | None:
    """A send whose call comes in the same section, or whose handle is closed before it."""
    slot = look.slot() if look.words[0] in ("send", "close") and look.answer == "ok" else None
    if slot is None or slot.kind != "async":
        return None
    if look.words[0] == "close":
        return WAKE if slot.values["pending"] == "1" else None
    in_turn = look.where() == "done" or (look.where() == "async" and slot.name in look.has("async-yet"))
    return WAKE if in_turn and slot.values["pending"] == "0" else None


def made_behind_requests(look: Look) -> str | None:
    if look.words[0] != "init" or look.words[-1] != "async" or look.answer in ("EBOUND", "EFULL"):
        return None
    return MADE if look.where() == "done" else None


def entered_late(look: Look) -> str | None:
    """A run whose first look at the clock comes in the one and not in the other."""
    if look.words[0] != "run" or look.number("now") == look.number("clock"):
        return None
    behind = look.walk.lines[look.step + 1] if look.step < look.walk.length else ""
    if look.words[1] == "default":
        return ENTRY if look.number("stop") and behind == "end 1" else None
    return ENTRY if behind == "end 0" else None


def polled_late(look: Look) -> str | None:
    late = look.words[0] == "poll" and look.words[1] not in ("0", "infinite") and look.number("clock") > look.number("now")
    return POLL if late else None


def in_the_older_order(look: Look) -> str | None:
    """Where libuv before 1.45 comes to its timers, or looks at the clock, at another place."""
    if look.library.order() != "1.44" or (look.words[0] != "run" and look.line != "timers"):
        return None
    if not look.due_timers() and look.number("now") == look.number("clock"):
        return None
    mode = look.words[1] if look.words[0] == "run" else look.mode()
    if mode == "default":
        return ORDER if look.line == "timers" and (look.is_last_section() or not look.is_alive()) else None
    return ORDER if look.words[0] == "run" or mode == "nowait" else None


# Those that explain the line at which the two part, and those that are a reason from then on.
HERE = [asked_wrongly, refused_here, closed_loop, ended_early]
BEFORE = [timers_left, stopped_by_again, left_a_wake, made_behind_requests, entered_late, polled_late, in_the_older_order]


def parting(walk: Walk, led: Led, there: list[str], library: Library) -> Parting | None:
    """Where the lines of uvt and these of libuv part first, or None where all that uvt has are the same."""
    at = next((at for at, line in enumerate(led.lines) if at >= len(there) or there[at] != line), None)
    if at is None:
        return None
    last = led.step_of(at)
    look = Look(walk, last, library, there[at] if at < len(there) else "")
    here = [Cause(last, heading) for rule in HERE if (heading := rule(look))]
    if here:
        return Parting(at, here[:1])
    causes: dict[str, Cause] = {}
    for step in range(1, min(last, walk.length) + 1):
        look = Look(walk, step, library, None)
        for rule in BEFORE:
            if heading := rule(look):
                causes[heading] = Cause(step, heading)
    return Parting(at, sorted(causes.values(), key=lambda it: -it.step))
