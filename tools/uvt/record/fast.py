"""Long logs: what a program does again and again is asked of `uvt debug` by the steps that led through it the first time.

Between two callbacks the follower looks for the steps. Where the same items come once more, the same steps are asked at once, for many
callbacks together, without waiting for an answer. The lines of each callback's steps are compared with those of the first time; from the
first one on that went otherwise, the steps are taken back, and the follower looks for them again. So nothing is taken on trust.
"""

from __future__ import annotations

import itertools
from dataclasses import dataclass, field
from typing import TYPE_CHECKING

from uvt.conversation import BAD
from uvt.record.units import Units

if TYPE_CHECKING:
    from uvt.record.follow import Follower

# So many callbacks are asked together at the most.
MOST = 1024
# No command, whose answer BAD stands behind those of each unit.
NOTHING = "?"
# Which time of an item: that of the loop, of the clock, or that to which the clock goes on as its callback ends.
NOW, CLOCK, END = "now", "clock", "end"
# By what a way is known again: where the loop is, and what happens in the unit.
Key = tuple[str, int]


@dataclass
class Tick:
    """The clock goes on to a time of this item of a unit."""

    item: int
    which: str
    outside: bool


@dataclass
class Steps:
    """The steps from one tick to the next: their commands, their lines, and which of these have to be the same to the end."""

    commands: list[str]
    lines: list[str]
    whole: list[bool]


@dataclass
class Asked:
    """The steps through a unit, as they are asked."""

    # the clock behind them
    clock: int
    commands: list[str] = field(default_factory=list)
    # how the line of each is to begin, `` where it is to have none; and whether it has nothing behind that
    wanted: list[str] = field(default_factory=list)
    whole: list[bool] = field(default_factory=list)
    # which of them, from 1, are ticks when no callback is under way
    outside: list[int] = field(default_factory=list)

    def add(self, steps: Steps) -> None:
        self.commands += steps.commands
        self.wanted += steps.lines
        self.whole += steps.whole

    def go_on(self, tick: Tick, time: int) -> None:
        self.commands.append(f"tick {time - self.clock}")
        self.wanted.append(f"out tick {time - self.clock}")
        self.whole.append(True)
        self.outside += [len(self.commands)] if tick.outside else []
        self.clock = time

    def text(self) -> str:
        """What is sent of it, with the end of its answer."""
        return "\n".join([*self.commands, NOTHING])

    def lines(self, said: list[str]) -> list[str] | None:
        """The line of each of its steps. None where it went otherwise."""
        answers = iter(said)
        lines = said if "" not in self.wanted else [next(answers, "") if it else "" for it in self.wanted]
        if len(lines) != len(self.wanted) or lines is not said and next(answers, None) is not None:
            return None
        right = all(map(str.startswith, lines, self.wanted))
        same = list(itertools.compress(lines, self.whole)) == list(itertools.compress(self.wanted, self.whole))
        return lines if right and same else None


@dataclass
class Way:
    """The steps through a unit, and where the loop is behind it."""

    parts: list[Tick | Steps]
    where: str
    wakes: int
    # to whom is sent on it in a thread's place
    sends: set[str]
    # the same where the clock stays where it is, what is sent of it, and its answer of the last time, with the lines of its steps
    still: Asked
    text: str
    answer: list[str] = field(default_factory=list)
    lines: list[str] = field(default_factory=list)


def alike(line: str) -> str:
    """What of a line has to be the same the next time: numbers of slots, and how long a poll waits, may be others."""
    words = line.split(" ")
    if words[0] in ("call", "closed"):
        return f"{words[0]} {words[1]} "
    if words[0] == "poll":
        return "poll "
    return line.rsplit(" = ", 1)[0] + " = " if words[0] == "init" else line


def add_step(steps: Steps, command: str, line: str) -> None:
    """A step that the loop does, or a send, and how its line begins."""
    steps.commands.append(command)
    steps.lines.append(line)
    steps.whole.append(not line.endswith(" "))


class Ways:
    """The ways that are known, each by what happens on it."""

    def __init__(self, follower: Follower, units: Units) -> None:
        self.follower, self.units = follower, units
        self.ways: dict[Key, Way] = {}
        self.many = 4
        # a unit that went otherwise than the last time
        self.slow_until = 0

    # ---- a way is learnt

    def learn(self, unit: int, where: str, length: int, late: int) -> None:
        """Keeps how the follower came through this unit, from where the loop was and from so many steps on, where so many sends had come late. (A
        send that came late belongs to this time alone.)"""
        follower, at, end = self.follower, self.units.begins[unit], self.units.ends[unit]
        if follower.came_late > late:
            return
        ticks, wakes = iter(follower.trail), 0
        parts: list[Tick | Steps] = []
        tick = next(ticks, None)
        for step in range(length, follower.talk.length + 1):
            while tick is not None and tick[0] <= step:
                parts.append(Tick(tick[1] - at, tick[2], tick[3]))
                tick = next(ticks, None)
            if step < follower.talk.length and not follower.did[step].startswith("tick "):
                steps = parts[-1] if parts else None
                if not isinstance(steps, Steps):
                    steps = Steps([], [], [])
                    parts.append(steps)
                add_step(steps, follower.did[step], alike(follower.said[step]))
                wakes += follower.did[step] == "send wake"
        still = Asked(0)
        for it in parts:
            if isinstance(it, Steps):
                still.add(it)
        sends = {it.split(" ")[1] for it in still.commands if it.startswith("send ")}
        if all(0 <= it.item < end - at for it in parts if isinstance(it, Tick)):
            self.ways[where, self.units.what[unit]] = Way(parts, follower.where, wakes, sends, still, still.text())

    # ---- and gone again

    def run(self, unit: int) -> int:
        """Goes along the units from this one on as far as their ways are known and lead through. Answers the item behind them."""
        begins = self.units.begins
        at = begins[unit]
        if at < self.slow_until:
            return at
        while (ways := self.known(unit)) and (many := self.go(unit, ways)):
            unit += many
            at = self.units.ends[unit - 1]
            # (what lies between two units has no way)
            if unit == len(begins) or begins[unit] != at:
                break
        return at

    def known(self, unit: int) -> list[Way]:
        """The ways of this unit and those behind it, as many as are known and may be asked together."""
        follower, units, known = self.follower, self.units, self.ways
        late, uncalled = follower.sent_late.keys(), follower.uncalled
        where, begin, found = follower.where, units.begins[unit], list[Way]()
        for at, end, what in units.rows(unit, self.many):
            way = known.get((where, what))
            # (where a send waits for its call, that is the one that comes; and one that nothing is called for comes behind a callback's begin)
            if way is None or at != begin or late and not way.sends.isdisjoint(late) or uncalled and any(poll < end for poll, _ in uncalled):
                break
            found.append(way)
            begin, where = end, way.where
        return found

    def asked(self, at: int, way: Way, clock: int) -> Asked:
        """The steps of a unit that begins at this item, with those of the clock."""
        asked = Asked(clock)
        for part in way.parts:
            if isinstance(part, Steps):
                asked.add(part)
            elif (time := self.follower.time_of(at + part.item, part.which)) > asked.clock:
                asked.go_on(part, time)
        return asked

    def go(self, first: int, ways: list[Way]) -> int:
        """Asks the units from this one on, by these ways together, and answers how many went as they were to."""
        follower, latest, begins = self.follower, self.units.latest, self.units.begins
        asked: list[Asked | None] = []
        texts: list[str] = []
        clock = follower.clock
        for unit, way in enumerate(ways, first):
            # (no time of it is a later one: the clock stays where it is)
            if latest[unit] <= clock:
                asked.append(None)
                texts.append(way.text)
                continue
            its = self.asked(begins[unit], way, clock)
            asked.append(its)
            texts.append(its.text())
            clock = its.clock
        done = self.compared(ways, asked, follower.talk.ask_all(texts))
        follower.take_back()
        self.many = min(MOST, 2 * self.many) if done == len(ways) else max(1, done)
        if not done:
            self.slow_until = begins[first] + 1
            return 0
        follower.where = ways[done - 1].where
        follower.clock = next((it.clock for it in reversed(asked[:done]) if it), follower.clock)
        follower.outcome.callbacks += done
        follower.outcome.wakes += sum(it.wakes for it in ways[:done])
        if done < len(ways):
            self.slow_until = self.units.ends[first + done - 1] + 1
        return done

    def compared(self, ways: list[Way], asked: list[Asked | None], answers: list[str]) -> int:
        """Takes the steps of these units, up to the first one that went otherwise. Answers how many they are."""
        follower, behind = self.follower, 0
        for number, (way, its) in enumerate(zip(ways, asked)):
            begin = behind
            if its is None and way.answer and answers[begin : (behind := begin + len(way.answer))] == way.answer:
                follower.took(way.still.commands, way.lines, way.still.outside)
                continue
            behind = answers.index(BAD, begin) + 1
            lines = (its or way.still).lines(answers[begin : behind - 1])
            if lines is None:
                return number
            if its is None:
                way.answer, way.lines = answers[begin:behind], lines
            follower.took((its or way.still).commands, lines, its.outside if its else [])
        return len(ways)
