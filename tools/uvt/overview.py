"""What stands out in a session, without a name: who took long, who was late, when the pool was full, who kept the loop alive, who spun.

Each line has its step, and the last one says what to ask next. What is said of a name is what `why` says of it.
"""

from __future__ import annotations

import functools
from dataclasses import dataclass

from uvt import machine
from uvt.arrivals import LEFT, behind, came, waited
from uvt.beginnings import at_least
from uvt.javascript_pieces import LEAST, at, fitted
from uvt.places import read_place
from uvt.waits import Wait, follow
from uvt.took import Took
from uvt.walk import Walk
from uvt.causes import FIFTH, MAIN, MANY, few, in_javascript, named, one_main, sentence
from uvt.notes import some, times
from uvt.why import Why
from uvt.why_uncalled import KINDS
from uvt.why_work import HALF, SLOW
from uvt.why_javascript import WhyJavaScript
from uvt.why_requests import longest
from uvt.spins import LINES, Spins

# Of so many calls that were late it is looked at who was in the way.
GROUPED = 20_000
# So many names are listed at the most.
NAMES = 40


@dataclass(slots=True)
class Late:
    """A call of a name, and how long it waited; and how much of that isn't the machine's."""

    name: str
    took: int
    wait: Wait
    own: int = -1

    def weight(self) -> tuple[int, int]:
        return (self.took if self.own < 0 else self.own), self.took


def head(walk: Walk) -> list[str]:
    calls = len(walk.calls)
    return [f"{times(calls, 'callback')}, {times(walk.length, 'step')}, {walk.clock(walk.length)} ms", *walk.notes.loud()[:MANY]]


def long_callbacks(walk: Walk) -> list[str]:
    # (what others had of the processor isn't the program's)
    found = sorted((it for it in walk.tooks if it.is_callback()), key=lambda it: (by_itself(walk, it), it.took()), reverse=True)
    if walk.notes.javascript:
        return in_node(walk, found)
    found = found[:LINES]
    return [
        f"{it.took()} ms{it.on_processor()}: {named(it).rstrip(',')}, from step {it.first} to {it.last}, at {it.pieces[0][0]} ms"
        + (in_javascript(walk, it, it.pieces[0][0], it.pieces[-1][1]) or it.did())
        for it in found
    ]


def by_itself(walk: Walk, took: Took) -> int:
    return took.took() - machine.part(walk, took, took.pieces[0][0], took.pieces[-1][1])


def in_node(walk: Walk, found: list[Took]) -> list[str]:
    """The same of node: what JavaScript did in them, and of node's own those that took a fifth of all."""
    whole, rows = sum(it.took() for it in found), []
    for it in found:
        begin, end = it.pieces[0][0], it.pieces[-1][1]
        told = walk.notes.javascript.told(begin, end)
        if it.took() >= LEAST and (told or FIFTH * it.took() >= whole):
            what = sentence(walk, it, begin, end) if told else f"{named(it)}, from step {it.first} to {it.last}"
            rows.append(f"{it.took()} ms: {what}, at {begin} ms")
    return rows[:LINES]


def main_program(walk: Walk) -> list[str]:
    """What JavaScript did before the first run of the loop."""
    found = [it for it in one_main(walk.tooks) if it.what == MAIN and walk.notes.javascript.told(it.pieces[0][0], it.pieces[-1][1])]
    return [f"{it.took()} ms, from step {it.first} to {it.last}" + in_javascript(walk, it, it.pieces[0][0], it.pieces[-1][1]) for it in found]


class Overview(Spins):
    """All names of a session, each as `why` sees it."""

    def __init__(self, walk: Walk) -> None:
        self.walk = walk
        names = [it for it in walk.script.names() if it in walk.of_name and not walk.notes.is_nodes_own(it)]
        self.whys = {name: Why(walk, name, history) for name, history in follow(walk, names).items()}
        self.least = 2 if walk.notes.names else 1
        self.next: list[tuple[int, str]] = []
        # the latest timer of JavaScript: who has that asks about it first
        self.first = ""

    # ---- who was late

    @functools.cached_property
    def all_called(self) -> dict[str, list[tuple[str, Wait]]]:
        """All that was called, by what it is."""
        found: dict[str, list[tuple[str, Wait]]] = {}
        for name, why in self.whys.items():
            for it in why.history.waits:
                if it.how == "called":
                    found.setdefault(it.what, []).append((name, it))
        return found

    def called(self, what: str) -> list[tuple[str, Wait]]:
        return self.all_called.get(what, [])

    def away(self, wait: Wait) -> int:
        return self.walk.clock(wait.end()) - self.walk.happened(wait.asked)

    def worst(self, found: list[Late]) -> list[Late]:
        kept = sorted((it for it in found if it.took >= self.least), key=Late.weight, reverse=True)[:LINES]
        self.next += [(it.took, it.name) for it in kept[:1]]
        return kept

    def told(self, late: Late, kind: str) -> str:
        """Its answer's first line, as `why` has it."""
        return f"{late.name}, {self.whys[late.name].first_line(late.wait)}{kind}"

    def timers(self) -> list[str]:
        late = [
            Late(name, took, it)
            for name, it in self.called("timer")
            if (took := self.walk.clock(it.end()) - it.when()) >= self.least and not self.whys[name].too_soon(it)
        ]
        if self.walk.notes.names:
            owns = machine.owns(self.walk, map(self.span, late))
            for it in late:
                it.own = owns[self.span(it)]
        machines = [it for it in late if self.is_machines(it)]
        return self.by_program([it for it in late if not self.is_machines(it)]) + self.by_machine(machines)

    def span(self, late: Late) -> tuple[int, int]:
        """From when on a timer was late, and up to when."""
        return late.wait.when(), self.walk.clock(late.wait.end())

    def is_machines(self, late: Late) -> bool:
        """Did the machine alone make it late: for nine tenths, or except for so little that it isn't told? (Without a recording nobody knows.)"""
        return late.own >= 0 and (late.own < self.least or 10 * late.own <= late.took)

    def by_machine(self, late: list[Late]) -> list[str]:
        if not late:
            return []
        longest = max(late, key=lambda it: it.took)
        names = few(list(dict.fromkeys(it.name for it in late)))
        self.next.append((0, longest.name))
        by = f"up to {longest.took} ms, at step {longest.wait.ended}" if len(late) > 1 else f"{longest.took} ms, at step {longest.wait.ended}"
        return [f"for want of a processor, or woken late by the system: {times(len(late), 'call')} of {names}, late by {by}"]

    def soon(self) -> list[str]:
        """The timers that were started late in a long callback, and came too soon."""
        found = [(early, name, it) for name, it in self.called("timer") if self.is_much(early := self.whys[name].too_soon(it), it)]
        found.sort(key=lambda it: -it[0])
        return [f"{name}, {self.whys[name].first_line(it)}" for _, name, it in found[:LINES]] + (
            [f"and {times(len(found) - LINES, 'more call')}"] if len(found) > LINES else []
        )

    def is_much(self, early: int, wait: Wait) -> bool:
        """Is it a fourth of the time for which it was started?"""
        return early > 0 and 4 * early >= wait.when() - self.walk.state(wait.asked).numbers["now"]

    def by_program(self, late: list[Late]) -> list[str]:
        if len(late) <= LINES:
            return [self.told(it, "") for it in self.worst(late)]
        groups: dict[tuple[str, int], list[Late]] = {}
        known: dict[tuple[int, int], tuple[str, int]] = {}
        for it in sorted(late, key=Late.weight, reverse=True)[:GROUPED]:
            if (span := self.span(it)) not in known:
                known[span] = self.culprit(*span)
            groups.setdefault(known[span], []).append(it)
        self.worst(late)
        least = "at least " if len(late) > GROUPED else ""
        return [self.told(it[0], "") + self.others(it[1:], least) for it in list(groups.values())[:LINES]]

    def culprit(self, begin: int, end: int) -> tuple[str, int]:
        """Where most of the time went by that a timer was late."""
        took = max(self.walk.causes(begin, end), key=lambda it: it.between(begin, end))
        return took.what, took.first

    def others(self, late: list[Late], least: str) -> str:
        """The other calls that are late by the same."""
        names = list(dict.fromkeys(it.name for it in late))
        by = f"{late[-1].took} ms" if late[-1:] and late[-1].took == late[0].took else f"{late[-1].took} to {late[0].took} ms" if late else ""
        return f"; by the same {least}{times(len(late), 'more call')} by {by}: {few(names)}" if late else ""

    def javascript(self) -> list[str]:
        """Those that JavaScript started, of which node has many on one timer of the loop."""
        if not self.walk.notes.javascript:
            return []
        asked = WhyJavaScript(self.walk)
        rows = asked.latest(self.least, LINES)
        self.first = rows[0][1] if rows else ""
        return [text for _, _, text in rows] + asked.never()

    def sends(self) -> list[str]:
        seen = [Late(name, self.away(it), it) for name, it in self.called("async") if it.asked not in self.walk.notes.guessed]
        return [f"{it.took} ms: {self.told(it, '')}" for it in self.worst(seen)]

    def io(self) -> list[str]:
        """Nobody knows when something came. What is known is how long the loop hadn't looked, and what it did behind the poll first."""
        found = []
        for name, it in self.called("async"):
            if it.asked in self.walk.notes.guessed and self.walk.notes.is_io(name):
                found.append(Late(name, self.whys[name].unseen_for(it), it))
        for name, it in self.called("io"):
            left = came(self.walk, it).where == LEFT
            found.append(Late(name, self.whys[name].unseen_for(it) if left else behind(self.walk, it), it))
        return [self.came(it) for it in self.worst(found)]

    def came(self, late: Late) -> str:
        """How long something may have waited for the loop, and what the loop did meanwhile."""
        wait = late.wait
        if wait.what == "io" and came(self.walk, wait).where != LEFT:
            return self.told(late, "")
        between = self.walk_between(wait, late)
        return f"{late.took} ms that the loop hadn't looked: {late.name}, step {wait.ended}, call {wait.call}: {between}"

    def walk_between(self, wait: Wait, late: Late) -> str:
        end = self.walk.clock(wait.end())
        return self.whys[late.name].delay(end - late.took, end)

    def unwoken(self) -> list[str]:
        """Whose callbacks waited for the next poll, since nobody had woken the one that a callback of I/O left."""
        found = [(it, others) for it in self.walk.left_by_io if (others := [name for name in waited(self.walk, it) if name in self.whys])]
        self.next += [(1, others[0]) for _, others in found[:1]]
        return [
            f"{few(others)}: the callback of {self.walk.calls[it.call][1]} left the poll of step {it.poll} at step {it.call}, and nobody had"
            " woken it by then"
            for it, others in found[:LINES]
        ]

    def requests(self) -> list[str]:
        found = [Late(name, self.away(it), it) for name, it in self.called("work")]
        return [
            f"{at_least(self.walk.notes, it.wait.asked)}{it.took} ms from its queueing to its callback: {self.request(it)}, step {it.wait.ended}:"
            f" {self.parts(it)}"
            for it in self.worst(found)
        ]

    def request(self, late: Late) -> str:
        """Its name; with the line of JavaScript that asked for it, where that is known."""
        place = self.walk.notes.javascript.asked.get((late.name, late.wait.call))
        return f"asked for {at(place)} ({late.name})" if place else late.name

    def parts(self, late: Late) -> str:
        """Where a request's time went."""
        wait, walk = late.wait, self.walk
        if wait.cancelled:
            return "cancelled"
        taken, finished = wait.taken[0] if wait.taken else None, wait.finished
        if taken is None or finished is None or {taken, finished} & walk.notes.guessed:
            full = walk.pool.full_between(wait.asked, wait.end())
            known = sum(walk.happened(it.last) - walk.happened(it.first) for it in full)
            return f"for {known} ms each worker had other work" if known else "when a worker took it and was through nobody knows"
        waited = walk.happened(taken) - walk.happened(wait.asked)
        ran = walk.happened(finished) - walk.happened(taken)
        least = at_least(walk.notes, wait.asked)
        rule = f" ({HALF})" if waited > 1 and walk.notes.kind(late.name) in SLOW else ""
        return f"{least}{waited} ms it waited for a worker{rule}, {ran} ms it ran, {late.took - waited - ran} ms it waited for the loop"

    # ---- the rest

    def full(self) -> list[str]:
        kept = sorted(self.walk.pool.fulls, key=lambda it: self.walk.happened(it.last) - self.walk.happened(it.first), reverse=True)
        rows = [(self.walk.happened(it.first), self.walk.happened(it.last), it) for it in kept[:LINES]]
        return [
            f"{end - begin} ms: from {begin} to {end} ms, from step {it.first} to {it.last}: {few(it.names)}"
            for begin, end, it in rows
            if end > begin
        ]

    def alive(self) -> list[str]:
        """Who is active and referenced where the session ends, or else where the loop waited last."""
        walk = self.walk
        ends = read_place(walk.state(walk.length).place).mode is not None
        waited = [it.first for it in walk.tooks if it.is_poll()]
        step = walk.length if ends else waited[-1] if waited else 0
        state = walk.state(step)
        names = [
            (it.name, it.kind)
            for it in state.slots
            if it.name and (it.kind == "work" or it.values.get("active") == "1" and it.values.get("ref") == "1")
        ]
        kept = [f"{name} ({self.kind(name, kind)})" for name, kind in names if name in self.whys]
        if len(kept) < len(names):
            # (of node's own one is for all the timers of JavaScript)
            kept = [f"{it.text()} (timer)" for it in walk.notes.javascript.alive(walk.clock(step))] + kept
        if not kept:
            return []
        if ends and names[0][0] in self.whys:
            self.next.append((0, names[0][0]))
        where = "at the end, where the run is under way still" if ends else f"in the last poll that waited, at step {step}"
        blocked = ", and the poll waits" if ends and walk.after == "blocked" else ""
        return [f"{where}{blocked}: {few(kept)}"]

    def kind(self, name: str, kind: str) -> str:
        return self.walk.notes.kind(name) or KINDS.get(kind, kind).split(" ", 1)[1]

    def never(self) -> list[str]:
        """Timers, sends and requests that never came, and handles that nobody uses."""
        found = []
        for name, why in self.whys.items():
            kind = why.history.kind()
            if kind and not any(why.history.counts[it] for it in (("after",) if kind == "work" else ("call", "closed"))):
                found.append(f"{name} ({self.kind(name, kind)})")
        return [few(found)] if found else []

    def busy(self) -> list[str]:
        """Who was in the way where the loop was to be closed."""
        found = []
        for step in self.walk.steps_of("closeloop"):
            if self.walk.line(step) == "closeloop = EBUSY":
                left = [(it.name, it.values.get("closing") == "1", self.kind(it.name, it.kind)) for it in self.walk.state(step).slots if it.name]
                said = [f"{name} ({kind}{', closed, and its close callback is to come' if closing else ''})" for name, closing, kind in left]
                found.append(f"step {step}: uv_loop_close returns EBUSY, for {few(said)} {'is' if len(said) == 1 else 'are'} there still")
        return found[:LINES]

    def answer(self, ask: str) -> list[str]:
        language = self.walk.notes.javascript.language
        lines, asked_for = head(self.walk), [it for it in self.walk.script.names() if not self.walk.notes.is_nodes_own(it)]
        for title, rows in (
            ("the longest callbacks", long_callbacks(self.walk)),
            ("the main program", main_program(self.walk)),
            (f"the latest timers of {language}", self.javascript()),
            ("the latest timers", self.timers()),
            ("timers that came too soon", self.soon()),
            ("the latest sends", self.sends()),
            ("I/O", self.io()),
            ("who waited for the next poll", self.unwoken()),
            ("the longest requests", self.requests()),
            ("the longest writes, connects and shutdowns", longest(self.walk)),
            ("the pool was full", self.full()),
            ("what kept the loop alive", self.alive()),
            ("who spun", self.spins()),
            ("never called", self.never()),
            ("the loop was not closed", self.busy()),
        ):
            lines += [title, *(f"    {it}" for it in rows)] if rows else []
        late = max(self.next, default=(0, ""))[1]
        name = self.first or late or next(iter(self.whys), "")
        functions = self.walk.notes.javascript.names()
        lines += [f"functions of {language}: {some(functions, NAMES)}"] if functions else []
        lines += [f"names: {some(asked_for, NAMES)}"] if asked_for else []
        lines += [f"ask next: {ask.replace('NAME', name)}"] if name else []
        return [row for line in lines for row in fitted(line)] if self.walk.notes.javascript else lines
