"""A log of node as it would be if each timer and immediate of JavaScript were a handle of libuv's own.

node has one timer of the loop for all timers of JavaScript, and a check and an idle handle for all immediates. Here the lines J say when each
of these was asked for, called and cleared; and the events of the loop are written anew, with a handle for each, and without node's own.

  - A timer is due when node's is: from when node counts it (`_idleStart`), and its ms. An interval is started again as its callback begins.
  - node keeps timers of as many ms in a list, and calls a list to its end before the next one. Where that changes the order, a timer stands
    as due when its list comes to it.
  - An immediate is a check handle that its callback stops. libuv calls the last one that was started first, node the first one: so those
    that wait are started again behind each other one. What keeps the loop from waiting is node's idle handle, as in the program.

A handle whose timer is over stands for the next one of the same function, from the same line.
"""

from __future__ import annotations

import bisect
import copy
import itertools
import re
from dataclasses import dataclass, field

from uvt.record.javascript import REPEATS, UNREFERENCED, is_program, place_of
from uvt.record.events import NO_CLOCK, Event, Events
from uvt.record.log import Address, Log

FIRST = 10_000_000  # the number of the first handle, behind all that a log has
WAITING = 64  # so many immediates may wait at a time
HANDLE = re.compile(r"%(\d+)")


class CantLift(Exception):
    """Why a log can't be written so, in a sentence."""


class NothingToLift(CantLift):
    """JavaScript has no timer and no immediate."""


@dataclass
class Call:
    """A call of a timer or an immediate: at which event, in which call of node's own, and of a timer when it is due."""

    at: int
    inside: int
    due: int = 0


@dataclass
class Asked:
    """What JavaScript asked for."""

    id: int
    kind: str
    key: tuple[str, str, str]
    delay: int
    at: int
    calls: list[Call] = field(default_factory=list)
    handle: int = 0
    referenced: bool = True
    over: bool = False
    # is it cleared; is it said when it is referenced; and is it seen not to be as it is called?
    gone: bool = False
    told: bool = False
    unseen_unref: bool = False

    def keeps_nothing(self) -> bool:
        """Is it unreferenced from its start on? (Of node's own, except for those of promises, that is taken to be so where nobody saw it.)"""
        own = self.key[1].startswith("node:") and not self.key[1].startswith("node:timers/promises")
        return not self.told and (self.unseen_unref or own and not self.calls)

    def is_timer(self) -> bool:
        return self.kind != "immediate"


@dataclass
class Own:
    """node's own handles in this loop, by their numbers: 0 where there is none."""

    timer: int = 0
    check: int = 0
    idle: int = 0
    others: set[int] = field(default_factory=set)

    def drops(self, id: int) -> bool:
        return id == self.timer or id in self.others

    def calls_javascript(self, id: int) -> bool:
        return id in (self.timer, self.check)


def own_handles(events: Events) -> Own:
    """node makes them in this order, before anything else of their kinds: a timer, a check and an idle handle, and then a prepare and a check
    handle around each poll."""
    found: dict[str, list[int]] = {}
    for it in events:
        if it.type == "O" and it.words.startswith("init "):
            _, number, kind, *_ = it.words.split(" ")
            found.setdefault(kind, []).append(int(number[1:]))
    if not all(found.get(it) for it in ("timer", "check", "idle", "prepare")) or len(found["check"]) < 2:
        raise CantLift("it hasn't the handles that node makes for its timers and immediates")
    return Own(found["timer"][0], found["check"][0], found["idle"][0], {found["prepare"][0], found["check"][1]})


class Lift:
    """Writes the events of a loop anew."""

    def __init__(self, log: Log, loop: int) -> None:
        self.log, self.events = log, log.loops[loop]
        self.own = own_handles(self.events)
        self.asked: dict[int, Asked] = {}
        self.behind = 0  # of node's times those of the log
        self.out: list[Event] = []
        self.free: dict[tuple[str, str, str], list[int]] = {}
        self.addresses: dict[int, Address] = {}
        self.made = 0
        # behind a start of a timer those that are started once more, each with which of its calls that is for
        self.again: dict[tuple[int, int], list[tuple[Asked, int]]] = {}
        self.waiting: list[Asked] = []  # immediates, in the order in which they are to be called
        self.idle_active = False
        self.ended = -1  # the event at which the last run ended with nothing left
        # ops that come before the first callback of a call of node's own
        self.held: list[Event] = []
        # the event at which a call of node's own began; the one that is under way; and is a callback of JavaScript's open?
        self.inside = -1
        self.under: Asked | None = None
        self.open = False
        self.fresh: list[tuple[Asked, Event]] = []  # timers whose start waits until node has looked at its time

    # ---- what there is

    def look_through(self) -> None:
        """Who was asked for and called when; in which call of node's own."""
        inside, starts = -1, []
        for at, event in enumerate(self.events):
            words = event.words.split(" ")
            if event.type == "B" and words[0] == "on" and int(words[1]) in (self.own.timer, self.own.check):
                inside = at
            elif event.type == "E" and int(words[0]) in (self.own.timer, self.own.check):
                inside = -1
            elif event.type == "J" and words[0] == "new":
                self.asked[int(words[1])] = Asked(int(words[1]), words[2], self.key(words), int(words[5]), at)
            elif event.type == "J" and words[0] == "run" and (it := self.asked.get(int(words[1]))):
                if inside < 0:
                    raise CantLift(f"at line {event.line} of the log a timer is called by somebody else than node")
                it.calls.append(Call(at, inside, int(words[2]) + int(words[3]) if len(words) > 3 else 0))
                starts += [(it, int(words[2]))] if len(words) > 3 else []
                flags = int(words[4]) if len(words) > 4 else 0
                it.kind = "interval" if flags & REPEATS else it.kind
                it.unseen_unref |= bool(flags & UNREFERENCED)
            elif event.type == "J" and words[0] in ("gone", "ref") and (it := self.asked.get(int(words[1]))):
                it.gone |= words[0] == "gone"
                it.told |= words[0] == "ref"
            elif event.type == "r" and words[0] == "0":
                self.ended = at
        self.find_behind(starts)

    def key(self, words: list[str]) -> tuple[str, str, str]:
        """What it is called by: its function, where that begins, and where it was asked for."""
        function, at = place_of(self.log, int(words[3])), place_of(self.log, int(words[4].split("<")[0]))
        name = function.function if function.function not in ("(anonymous)", "-") else ""
        if not is_program(function) and is_program(at):
            return name, function.where, at.where
        return name, function.where, at.where if is_program(at) else "-"

    def find_behind(self, starts: list[tuple[Asked, int]]) -> None:
        """node counts its times from another one than the log. At each start it has looked at its time: what fits most of these."""
        times = sorted({it.now for it in self.events if it.type == "O" and it.words.startswith("updatetime")})
        counts: dict[int, int] = {}
        for _, start in starts[:200]:
            for time in times[:400]:
                counts[time - start] = counts.get(time - start, 0) + 1
        # (a timer isn't counted from before it was asked for)
        least = max((self.events[it.at].clock - start for it, start in starts if start == it.calls[0].due - it.delay), default=0)
        counts = {it: count for it, count in counts.items() if it >= least} or {least: 1}
        best = max(counts.values())
        self.behind = min(it for it, count in counts.items() if count == best)
        for it in self.asked.values():
            for call in it.calls:
                call.due += self.behind if it.is_timer() else 0

    def put_in_order(self) -> None:
        """By node's lists: none is due before one that is called before it, and none while a call of node's own goes by that leaves it out.
        Of those that are due at once libuv calls the one first that was started first: one that node calls later is started once more."""
        calls = [(call, it, which) for it in self.asked.values() if it.is_timer() for which, call in enumerate(it.calls)]
        calls.sort(key=lambda row: row[0].at)
        last: dict[int, tuple[int, tuple[int, int], tuple[int, int]]] = {}
        ends = self.ends()
        for call, it, which in calls:
            begun = it.at if which == 0 else it.calls[which - 1].at
            # (it may have been started in such a call)
            first = max(0, bisect.bisect_left(ends, (begun, 0, 0)) - 1)
            for begin, end, now in itertools.takewhile(lambda it: it[0] < call.inside, itertools.islice(ends, first, None)):
                call.due = max(call.due, now + 1) if end > begun else call.due
            started, anchor = (begun, 0), (it.id, which)
            due, before, where = last.get(call.inside, (0, (-1, 0), anchor))
            call.due = max(call.due, due)
            if call.due == due and started < before:
                started, anchor = (before[0], before[1] + 1), where
                self.again.setdefault(where, []).append((it, which))
            last[call.inside] = call.due, started, anchor

    def ends(self) -> list[tuple[int, int, int]]:
        """The calls of node's timers: where they begin and end, and the loop's time then."""
        found, begin = [], -1
        for at, event in enumerate(self.events):
            if event.type == "B" and event.words.startswith(f"on {self.own.timer} "):
                begin = at
            elif event.type == "E" and event.words.split(" ")[0] == str(self.own.timer) and begin >= 0:
                found.append((begin, at, event.now))
        return found

    # ---- events

    def op(self, like: Event, text: str) -> None:
        self.out.append(Event("O", like.now, NO_CLOCK, f"{text} = ok", like.line))

    def handle_for(self, it: Asked, like: Event) -> int:
        """A handle that is free, or a new one."""
        kind = "timer" if it.is_timer() else "check"
        free = self.free.setdefault((kind, *it.key[1:]), [])
        if free:
            return free.pop()
        number = FIRST + self.made
        self.made += 1
        name, where, at = it.key
        if where == "-" or where.startswith("node:"):
            where = at
        file = where.rpartition(":")[0]
        name = re.sub(r"^bound_", "", name) or re.sub(r"\W", "_", where.rpartition("/")[2].replace(":", "_"))
        symbol = f"{re.sub('[+@]', '_', name)}@{where}" if where != "-" else name or "-"
        origin = f"{'an immediate' if kind == 'check' else 'a timer'} of JavaScript" + (f", started at {at}" if at != "-" else ", of node's own")
        self.addresses[number] = Address(0, symbol, file or "-", origin)
        self.op(like, f"init %{number} {kind}")
        self.out.append(Event("C", like.now, NO_CLOCK, f"{number} {number} {kind}", like.line))
        if kind == "check":
            self.op(like, f"unref %{number}")
        return number

    def start_timer(self, it: Asked, like: Event, which: int) -> None:
        """Its next activation: up to when its call is due, or without one its ms."""
        due = it.calls[which].due if which < len(it.calls) else like.now + max(1, it.delay)
        self.op(like, f"start %{it.handle} {max(0, due - like.now)} 0")
        for other, its in self.again.get((it.id, which), ()):
            self.op(like, f"start %{other.handle} {max(0, other.calls[its].due - like.now)} 0")

    def start_fresh(self, like: Event) -> None:
        for it, _ in self.fresh:
            self.start_timer(it, like, 0)
            if it.keeps_nothing():
                self.op(like, f"unref %{it.handle}")
                it.referenced = False
        self.fresh = []

    def start_immediate(self, it: Asked, like: Event) -> None:
        self.op(like, f"start %{it.handle}")
        for other in reversed(self.waiting):
            self.op(like, f"stop %{other.handle}")
            self.op(like, f"start %{other.handle}")
        self.waiting.append(it)
        if len(self.waiting) > WAITING:
            raise CantLift(f"at line {like.line} of the log more than {WAITING} immediates wait at a time")

    def begin(self, it: Asked, event: Event, call: int) -> None:
        """A callback of JavaScript begins, as one of the loop's."""
        self.close_call(event)
        # (what node did first, a look at the time among it, is a part of the first one)
        begun = self.events[self.inside].clock if self.held else event.clock
        self.out.append(Event("B", event.now, begun, f"on {it.handle} {'timer' if it.is_timer() else 'check'}", event.line))
        self.open, self.under = True, it
        self.out += self.held
        self.held = []
        if not it.is_timer():
            self.waiting = [other for other in self.waiting if other is not it]
            self.op(event, f"stop %{it.handle}")
        if it.is_timer() and (call + 1 < len(it.calls) or it.kind == "interval" and not self.cleared_itself(it)):
            self.start_timer(it, event, call + 1)
        elif call + 1 == len(it.calls):
            self.give_back(it)

    def cleared_itself(self, it: Asked) -> bool:
        """Was an interval cleared in its last call, of which earlier recorders say nothing? The loop couldn't have ended else."""
        return not it.gone and it.referenced and self.ended > it.calls[-1].at

    def close_call(self, event: Event) -> None:
        """The one before ends, as the next begins or node's own call ends: what it left to ticks and promises came behind it."""
        if not self.open or not self.under:
            return
        self.out.append(Event("E", event.now, event.clock, str(self.under.handle), event.line))
        self.open, self.under = False, None

    def give_back(self, it: Asked) -> None:
        """It is over: its handle may stand for another one."""
        it.over = True
        if it.referenced or not it.is_timer():
            self.free[("timer" if it.is_timer() else "check", *it.key[1:])].append(it.handle)

    def read_javascript(self, at: int, event: Event) -> None:
        words = event.words.split(" ")
        it = self.asked.get(int(words[1])) if words[0] in ("new", "run", "gone", "ref") else None
        if words[0] == "run" and it:
            which = next((k for k, call in enumerate(it.calls) if call.at == at), None)
            if which is None or not it.handle:
                raise CantLift(f"at line {event.line} of the log a timer is called that nobody had asked for")
            self.begin(it, event, which)
        self.out.append(event)
        if words[0] == "new" and it:
            it.handle = self.handle_for(it, event)
            if it.is_timer():
                self.fresh.append((it, event))
            else:
                self.start_immediate(it, event)
        elif words[0] == "gone" and it and not it.over:
            self.clear(it, event)
        elif words[0] == "ref" and it and it.is_timer() and not it.over:
            self.start_fresh(event)
            self.op(event, f"{'ref' if words[2] == '1' else 'unref'} %{it.handle}")
            it.referenced = words[2] == "1"

    def clear(self, it: Asked, event: Event) -> None:
        self.start_fresh(event)
        self.op(event, f"stop %{it.handle}")
        self.waiting = [other for other in self.waiting if other is not it]
        self.give_back(it)

    def read_op(self, event: Event) -> None:
        number = HANDLE.search(event.words)
        id = int(number[1]) if number else -1
        if self.own.drops(id):
            return
        if id == self.own.idle and event.words.split(" ")[0] in ("start", "stop"):
            if (event.words.split(" ")[0] == "start") == self.idle_active:
                return
            self.idle_active = not self.idle_active
        if self.inside >= 0 and not self.open:
            self.held.append(event)
            return
        self.out.append(event)
        if event.words.startswith("updatetime"):
            self.start_fresh(event)

    def read(self, at: int, event: Event) -> None:
        words = event.words.split(" ")
        if self.fresh and event.type in "BERrPp":
            self.start_fresh(event)
        if event.type == "B" and words[0] == "on" and self.own.calls_javascript(int(words[1])):
            self.inside = at
        elif event.type == "E" and self.inside >= 0 and self.own.calls_javascript(int(words[0])):
            self.end_of_own(event)
        elif event.type in "BE" and self.own.drops(int(words[event.type == "B"])):
            return
        elif event.type in "CV" and self.own.drops(int(words[0])):
            return
        elif event.type == "O":
            self.read_op(event)
        elif event.type == "J" and words[0] in ("new", "run", "ran", "gone", "ref"):
            self.read_javascript(at, event)
        elif event.type != "K":
            self.out.append(event)

    def end_of_own(self, event: Event) -> None:
        """A call of node's own ends. That of its check handle comes behind the immediates: libuv calls what was started last first."""
        self.close_call(event)
        self.inside = -1
        if event.words.split(" ")[0] == str(self.own.check):
            self.out.append(Event("B", event.now, event.clock, f"on {self.own.check} check", event.line))
            self.out += [*self.held, event]
        else:
            self.out += [it for it in self.held if not it.words.startswith("updatetime")]
        self.held = []

    def lifted(self) -> list[Event]:
        self.look_through()
        self.put_in_order()
        for at, event in enumerate(self.events):
            self.read(at, event)
        return self.out


def lift(log: Log, loop: int) -> tuple[Log, int]:
    """A log with this loop alone, written so; and how many handles stand for timers and immediates. A CantLift where it can't be."""
    lifting = Lift(log, loop)
    events = lifting.lifted()
    if not lifting.made:
        raise NothingToLift("JavaScript asked for no timer and no immediate")
    found = copy.copy(log)
    found.loops = {loop: Events(events)}
    found.addresses = {**log.addresses, **lifting.addresses}
    return found, lifting.made
