"""What became of each callback that a name asked for: by the lines of a session, and by a few of its states."""

from __future__ import annotations

import bisect
import collections
from collections.abc import Sequence
from dataclasses import dataclass, field
from typing import Iterator

from uvt.codes import REFUSED
from uvt.looks import Look, Seen, seen_at
from uvt.session_lines import OfName
from uvt.walk import Walk

WATCHERS = ("idle", "prepare", "check")
# What is called again and again while it is active, from its start on.
STARTED = (*WATCHERS, "io")


@dataclass(slots=True)
class Wait:
    """A callback that was asked for, and what became of that."""

    # `timer`, `idle`, `prepare`, `check`, `async`, `io`, `work`, or `close` for a close callback
    what: str
    id: str
    # the step that asked for it: an op, or the call of a timer that repeats, or of a watcher or a handle of I/O, which stays active
    asked: int
    # of a timer: when it is due, by the loop's time
    due: int | None = None
    # sends and starts that came while it was asked for already
    more: Sequence[int] = ()
    # of a request: the step at which worker K took it, and that at which it was finished or cancelled
    taken: tuple[int, int] | None = None
    finished: int | None = None
    cancelled: int | None = None
    # `called`, `stopped`, `closed`, `started again`, or `open` where the session ends first, and the step
    how: str = "open"
    ended: int | None = None
    # which call of the name it is, from 1
    call: int = 0

    def end(self) -> int:
        """The step that ended it: of one that didn't stay open."""
        assert self.ended is not None
        return self.ended

    def when(self) -> int:
        """When it was due: of a timer."""
        assert self.due is not None
        return self.due

    def taken_by(self) -> tuple[int, int]:
        """When a worker took it, and which: of a request that one took."""
        assert self.taken is not None
        return self.taken

    def through(self) -> int:
        """When it was done: of a request that was."""
        assert self.finished is not None
        return self.finished


@dataclass
class Refusal:
    """An op of the name that was refused."""

    step: int
    op: str
    code: str


@dataclass
class History:
    """All that the session has of a name."""

    name: str
    # (step, id, kind) of each `init` and `queue` that answered with an id
    made: list[tuple[int, str, str]] = field(default_factory=list)
    waits: list[Wait] = field(default_factory=list)
    refusals: list[Refusal] = field(default_factory=list)
    # the steps of `unref` and `ref`
    refs: list[tuple[int, str]] = field(default_factory=list)
    # the steps of `again` of a timer that wasn't active and doesn't repeat
    nothing: list[int] = field(default_factory=list)

    def kind(self) -> str | None:
        return self.made[-1][2] if self.made else None

    # of `call`, `after` and `closed` how many came, and the step of the first one
    counts: collections.Counter[str] = field(default_factory=collections.Counter)
    first_call: dict[str, int] = field(default_factory=dict)

    def came(self, what: str, step: int) -> int:
        """A callback comes: the how-manieth it is."""
        self.first_call.setdefault(what, step)
        self.counts[what] += 1
        return self.counts[what]


KINDS_OF_CALLS = {"close": "closed", "work": "after"}


def kind_of_call(what: str) -> str:
    return KINDS_OF_CALLS.get(what, "call")


class Follower:
    """Goes along the lines of a session, and keeps what they say of a name: at first which slots are wanted where, and then, when these are known,
    the rest."""

    def __init__(self, walk: Walk, name: str) -> None:
        self.walk = walk
        self.name = name
        self.history = History(name)
        self.id = ""
        self.kind = ""
        # of a timer: by its ops
        self.repeat = "0"
        self.slots: dict[int, Seen | None] = {}
        # what is asked for and didn't come yet: the handle's or request's callback, and a close callback
        self.open: Wait | None = None
        self.closing: Wait | None = None

    def looks(self) -> Iterator[Look]:
        """The slots that are wanted: of a timer that starts, or that repeats as it is called; of what may be called again and isn't."""
        found, timers, last = self.walk.of_name.get(self.name, OfName()), self.walk.steps_of("timers"), self.walk.length + 1
        id = kind = ""
        repeat = "0"
        for at, (step, words) in enumerate(found):
            word = words[0]
            if word in ("init", "queue") and words[-1] not in REFUSED:
                id, kind, repeat = words[-1], words[2], "0"
            elif word != "call":
                repeat = repeat_of(words, repeat)
            is_last = at + 1 == len(found.steps)
            behind = last if is_last else found.steps[at + 1]
            if kind == "timer" and (repeat != "0" if word == "call" else word in ("start", "again") and words[-1] == "ok"):
                # (its section may set it aside to be called, in a step without a line)
                section = bisect.bisect_right(timers, step)
                yield Look(self.name, id, step, max(step, min(behind, timers[section] if section < len(timers) else last) - 1))
            elif kind in STARTED and word == "call" and (is_last or found.words[at + 1][0] != "call"):
                yield Look(self.name, id, step, behind - 1)

    def follow(self, slots: dict[int, Seen | None]) -> History:
        """The slots are those that were wanted, by their steps."""
        self.slots = slots
        for step, words in self.walk.of_name.get(self.name, ()):
            self.see(step, words)
        return self.history

    def see(self, step: int, words: list[str]) -> None:
        # (most lines are calls)
        if words[0] == "call" and words[1] == self.name and len(words) == 3:
            self.called(step)
            return
        match words:
            case ["closed", self.name, _]:
                self.end_close(step)
            case ["after", self.name, *_]:
                self.end(step, "called")
            case ["out", "take", worker, self.name, _] if self.open:
                self.open.taken = (step, int(worker))
            case ["out", "finish", _, self.name, _] if self.open:
                self.open.finished = step
            case ["out", op, self.name, "=", code]:
                self.op(step, [op, self.name], code)
            case [_, self.name, *_, "=", answer]:
                self.op(step, words[:-2], answer)

    # ---- what begins and ends

    def is_active(self, step: int) -> bool:
        slot = self.slots[step]
        return slot is not None and slot.name == self.name and slot.is_active

    def begin(self, step: int, what: str) -> None:
        slot = self.slots[step] if what == "timer" else None
        due = slot.due if slot else None
        self.open = Wait(what, self.id, step, due)
        self.history.waits.append(self.open)

    def end(self, step: int, how: str) -> None:
        if self.open:
            self.open.how, self.open.ended = how, step
            self.open.call = self.history.came(kind_of_call(self.open.what), step) if how == "called" else 0
            self.open = None

    def end_close(self, step: int) -> None:
        if self.closing:
            self.closing.how, self.closing.ended = "called", step
            self.closing.call = self.history.came("closed", step)
            self.closing = None

    def called(self, step: int) -> None:
        """(A timer that doesn't repeat isn't active behind its call. What else is called once more, and nobody started it in between, stayed
        active.)"""
        self.end(step, "called")
        if self.kind == "timer" and self.repeat != "0" and self.is_active(step):
            self.begin(step, self.kind)
        elif self.kind in STARTED and (step not in self.slots or self.is_active(step)):
            self.begin(step, self.kind)

    # ---- ops

    def op(self, step: int, words: list[str], answer: str) -> None:
        if answer in REFUSED:
            self.history.refusals.append(Refusal(step, " ".join(words), answer))
            return
        self.repeat = repeat_of([*words, answer], self.repeat)
        match words[0]:
            case "init" | "queue":
                self.id, self.kind, self.repeat = answer, words[2] if words[0] == "init" else "work", "0"
                self.history.made.append((step, answer, self.kind))
                if self.kind == "work":
                    self.begin(step, "work")
            case "start" if self.kind in STARTED:
                self.ask(step)
            case "start" | "again":
                self.restart(step)
            case "stop":
                self.end(step, "stopped")
            case "send":
                self.ask(step)
            case "close":
                self.end(step, "closed")
                self.closing = Wait("close", self.id, step)
                self.history.waits.append(self.closing)
            case "cancel" if self.open:
                self.open.cancelled = step
            case "ref" | "unref":
                self.history.refs.append((step, words[0]))

    def ask(self, step: int) -> None:
        """A start of a watcher or of a handle of I/O, or a send: where it is asked for already nothing new begins."""
        if self.open and isinstance(self.open.more, list):
            self.open.more.append(step)
        elif self.open:
            self.open.more = [step]
        else:
            self.begin(step, self.kind)

    def restart(self, step: int) -> None:
        """A start of a timer, or `again`, which only stops one that doesn't repeat."""
        active = self.is_active(step)
        if not active and not self.open:
            self.history.nothing.append(step)
        self.end(step, "started again" if active else "stopped")
        if active:
            self.begin(step, "timer")


def repeat_of(words: list[str], before: str) -> str:
    """A timer's repeat behind this op."""
    match words:
        case ["start", _, _, repeat, *_, "ok"] | ["repeat", _, repeat, *_, "ok"]:
            return repeat
    return before


def follow(walk: Walk, names: list[str]) -> dict[str, History]:
    """What became of each callback of these names."""
    followers = {name: Follower(walk, name) for name in names}
    slots: dict[str, dict[int, Seen | None]] = collections.defaultdict(dict)
    for look, slot in seen_at(walk, [look for it in followers.values() for look in it.looks()]):
        slots[look.name][look.first] = slot
    return {name: it.follow(slots[name]) for name, it in followers.items()}
