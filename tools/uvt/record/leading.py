"""The loop of a recording as it is made: its conversation with `uvt debug`, its steps, and its clock."""

from __future__ import annotations

import collections
from dataclasses import dataclass, field
from typing import Callable

from uvt.codes import SECTIONS
from uvt.conversation import Conversation, Script
from uvt.record.ahead import FAR, LOOK, Ahead
from uvt.record.fast import END, NOW
from uvt.record.items import Call, Done, End, Finish, Item, Op, Poll, Program, Run, Send, Take
from uvt.record.events import NO_CLOCK
from uvt.record.units import Units

# Where a loop is whose poll was left by a callback of I/O, before its next step.
POLLED = "polled"
# So many sends and finishes may be put off.
CHECKS = 16


class Stopped(Exception):
    """The loop doesn't go on as the program did; what it does stands behind."""

    def __init__(self, model: str) -> None:
        self.model = model


@dataclass
class Outcome:
    """A recording, and how far it goes."""

    recording: list[str]
    callbacks: int
    of: int
    steps: int
    # why it stops before the log does: the item, and what the loop would do; or a sentence of its own
    why: str = ""
    item: Item | None = None
    # ops whose answer is another one than in the log
    answers: list[str] = field(default_factory=list)
    ends: int = 0
    wakes: int = 0
    # the sends, takes and finishes that the log has: when any other one happened nobody knows
    known: set[int] = field(default_factory=set)
    # of these the clock, where it was another one than at their step
    times: dict[int, int] = field(default_factory=dict)
    # of these the sends of other loops of the program: who sends
    by: dict[int, str] = field(default_factory=dict)
    # the ticks of time that went by when no callback of the program was under way
    outside: set[int] = field(default_factory=set)
    # the line of each step
    lines: list[str] = field(default_factory=list)

    def stops_at(self) -> Item:
        """The item at which it stops: of one that stops before the log does."""
        assert self.item is not None
        return self.item


class Leader:
    """The steps that stand, and what is asked next."""

    def __init__(self, program: Program, workers: int, wake: bool, tell: Callable[[int, int], None] = lambda *_: None) -> None:
        self.program, self.items, self.wake = program, program.items, wake
        self.workers = workers
        self.is_before_45 = program.is_before(45)
        self.talk = Conversation(Script(program.script(workers, wake)))
        self.tell = tell
        # commands that are asked with the next one: what the answer begins with, the op, and is it a tick when no callback is under way?
        self.queue: list[tuple[str, str, Op | None, bool]] = []
        # the steps that stand, and their lines; and where the clock was to go on: behind how many steps, to which time of which item
        self.did: list[str] = []
        self.said: list[str] = []
        self.trail: list[tuple[int, int, str, bool]] = []
        # is a callback of the program under way, by the log?
        self.in_call = False
        self.where, self.clock = "main", 0
        self.at = 0
        # how many steps stood, and which item came next, when all was as in the log
        self.kept, self.kept_at = 0, 0
        # the requests that are under way, and of these the ones that a worker has, and that are through
        self.queued: set[str] = set()
        self.taken: dict[str, int] = {}
        self.finished: set[str] = set()
        # of a request the step at which it was taken; and the clock where its work was through
        self.taken_at: dict[str, int] = {}
        self.ready: dict[str, int] = {}
        # of these the ones whose step is put off until the poll in which they call back
        self.later_on: set[str] = set()
        self.outcome = Outcome([], 0, program.callbacks(), 0)
        self.senders = {it.text.split(" ")[1] for it in self.items if isinstance(it, Op) and it.text.startswith("send ")}
        self.ahead, self.units = Ahead(self.items), Units(self.items)
        # how many of the after callbacks have come
        self.after_at = 0
        # sends and finishes before which all was kept; those that are to come only where what they call does, and the clock of such sends
        self.checks: collections.deque[tuple[str, int, int, dict[str, object]]] = collections.deque(maxlen=CHECKS)
        self.lazy: set[int] = set()
        # (of each name, with the call before which they come)
        self.sent_late: dict[str, tuple[tuple[int, int, str], ...]] = {}
        # how many of these have come
        self.came_late = 0
        # sends that nothing is called for any more, and that came when the poll was left already: so behind the begin of the next callback
        # behind that poll, which is the last one before the handle closes
        self.uncalled: tuple[tuple[int, Send], ...] = ()

    # ---- the conversation

    def later(self, command: str, wanted: str, item: Op | None = None, outside: bool = False) -> None:
        """A command whose answer decides nothing: it begins so."""
        self.queue.append((command, wanted, item, outside))

    def ask(self, commands: list[str]) -> list[str]:
        """Asks what waits in the queue, and then these. Answers the line of each, `` where it has none."""
        waiting, self.queue = self.queue, []
        answers = []
        lengths = []
        all_of_them = [it[0] for it in waiting] + commands
        for command, lines in zip(all_of_them, self.talk.ask_each(all_of_them)):
            answers.append(lines[0] if lines else "")
            lengths.append(self.talk.length)
            if self.talk.length > len(self.did):
                self.did.append(command)
                self.said.append(answers[-1])
        for (_, wanted, item, outside), answer, length in zip(waiting, answers, lengths):
            if not answer.startswith(wanted):
                self.at = self.items.index(item) if item else self.kept_at
                raise Stopped(f"has `{answer}` there" if answer else "has a step without a line there")
            if item:
                self.compare(item, answer[len(wanted) :])
            self.kept = length
            if outside:
                self.outcome.outside.add(length)
        return answers[len(waiting) :]

    def compare(self, item: Op, answer: str) -> None:
        """The answer of an op beside that of the log."""
        if item.answer != "id" and answer != item.answer and item.answer:
            self.outcome.answers.append(f"`{item.text}` returns {answer} here, and {item.answer} in the program (line {item.line} of the log)")

    def flush(self) -> None:
        if self.queue:
            self.ask([])

    def move(self, length: int) -> None:
        """Takes steps back."""
        if self.talk.length > length:
            for step in range(length + 1, self.talk.length + 1):
                self.outcome.known.discard(step)
                self.outcome.outside.discard(step)
                self.outcome.times.pop(step, None)
                self.outcome.by.pop(step, None)
            self.talk.ask(f"back {self.talk.length - length}")
            del self.did[length:], self.said[length:]

    def took(self, commands: list[str], lines: list[str], outside: list[int]) -> None:
        """These steps were done, with these lines."""
        self.outcome.outside.update(len(self.did) + it for it in outside)
        self.did += commands
        self.said += lines
        self.kept = len(self.did)

    def take_back(self) -> None:
        """What was done behind those is taken back."""
        self.move(len(self.did))

    def know(self, step: int, clock: int, by: str = "") -> None:
        """This step is one that the log has, by this clock, and of a send by that loop."""
        self.outcome.known.add(step)
        if by:
            self.outcome.by[step] = by
        if clock != self.clock or step != self.talk.length:
            self.outcome.times[step] = clock

    # ---- steps and times

    def time_of(self, at: int, which: str) -> int:
        """A time of an item, to which the clock may go on."""
        item = self.items[at]
        if which == END:
            return self.end_time(at)
        return item.now if which == NOW else item.clock

    def tick_to(self, at: int, which: str) -> None:
        self.trail.append((self.talk.length + len(self.queue), at, which, not self.in_call))
        self.tick(self.time_of(at, which))

    def tick(self, time: int) -> None:
        if time > self.clock:
            self.later(f"tick {time - self.clock}", "out tick", outside=not self.in_call)
            self.clock = time

    def see(self, line: str) -> None:
        """Where the loop is, by the line of its step."""
        word = line.split(" ")[0]
        if word in SECTIONS:
            self.where = word
        elif word == "run":
            self.where = "entry"
        elif word == "end":
            self.where = "main"

    def distance(self, section: str) -> int:
        """How many steps there may be to a callback of that section, or to the poll before it."""
        where = "poll" if self.where == POLLED else self.where
        if where not in SECTIONS or self.where == section:
            return 1
        far, to_poll = ((SECTIONS.index(it) - SECTIONS.index(where)) % len(SECTIONS) or len(SECTIONS) for it in (section, "poll"))
        return to_poll if to_poll <= far else far + 1

    def steps(self, count: int, wanted: str = "poll ") -> list[str]:
        """Lines of the next steps, up to one that isn't that of a section, or is of the poll, or begins so. What comes behind it is taken
        back."""
        before = self.talk.length + sum(1 for it in self.queue if not it[0].startswith("back"))
        answers = self.ask(["loop"] * count)
        for at, line in enumerate(answers):
            self.see(line)
            if line and (line.split(" ")[0] not in SECTIONS or line.startswith(("poll ", wanted))):
                self.move(min(self.talk.length, before + at + 1))
                return answers[: at + 1]
        return answers

    def end_time(self, at: int) -> int:
        item = self.items[at]
        if self.is_before_45 and self.ahead.has_end_near(at) and self.starts_behind_end(item.now, self.items[at + 1 : at + FAR]):
            return NO_CLOCK
        # (up to the next item that looks at the clock, or shows that this was looked at, and has a later time)
        for other in self.items[at + 1 : at + FAR]:
            if other.now > item.now and isinstance(other, LOOK):
                return min(item.clock, other.now)
        return item.clock

    def starts_behind_end(self, now: int, ahead: list[Item]) -> bool:
        """Does the run end by the same time, and the main program start a timer by it then? The last iteration looks at the clock
        behind its callbacks, which libuv's doesn't up to 1.44: so the clock must not go on before."""
        ended = False
        for other in ahead:
            match other:
                case Call() | Poll() | Run() | End() if other.now > now or ended:
                    return False
                case End():
                    ended = True
                case Op() if ended and other.text.split(" ")[0] in ("start", "again"):
                    return True
        return False

    def tick_within(self, item: Take | Finish | Send, at: int) -> None:
        """The clock goes on to where it was as something came from outside, if nothing before that looks at it."""
        # (a run that begins has its time of before: the first that looks is in it)
        ahead = self.items[at + 1 : at + FAR]
        later = (it for it in ahead if isinstance(it, (Call, Poll, End, Done)) or isinstance(it, Op) and it.text == "updatetime")
        next_one = next(later, None)
        if next_one is not None and item.clock != NO_CLOCK:
            self.tick(min(item.clock, next_one.clock if isinstance(next_one, Done) else next_one.now))
