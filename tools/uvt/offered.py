"""What a recording brings along for a search: what came from outside, how often, and how long each callback took.

Where a step stands is what the program itself answers, step by step."""

from __future__ import annotations

import re
from collections import Counter
from dataclasses import dataclass, field

from uvt.conversation import Conversation, Fault, Script
from uvt.session_lines import LISTS, SECTIONS

# The words of lines that say that the loop is in no callback.
NOT_IN_A_CALL = {*SECTIONS, "poll", "run", "end"}
FROM_OUTSIDE = ("io", "send", "cancel")
STEPS = ("loop", "take", "finish", "tick", *FROM_OUTSIDE)


@dataclass
class Offered:
    """What came, each with how often."""

    # (`send`, NAME), (`io`, NAME), (`cancel`, NAME)
    came: Counter[tuple[str, str]] = field(default_factory=Counter)
    # the time that went by in no callback and in no wait, in ms
    ticks: Counter[int] = field(default_factory=Counter)
    # what a poll waited until something ended it, in ms: what it waited up to its deadline isn't counted
    waits: Counter[int] = field(default_factory=Counter)
    # the ms of a call: of a list (`on`, `after`) and a name, the call's number from 1
    takes: Counter[tuple[str, str, int]] = field(default_factory=Counter)
    # how often each callback was called
    calls: Counter[tuple[str, str]] = field(default_factory=Counter)
    # the ms that close callbacks took
    closed: int = 0
    clock: int = 0
    # of one recording the lines that say what came, in its order; and what is no step, `` where each is one
    recorded: list[str] = field(default_factory=list)
    other: str = ""

    def lines(self, given: list[str]) -> list[str]:
        """The lines that say it, except for what these lines say already."""
        said = [f"may {word} {name} {times}" for (word, name), times in sorted(self.came.items())]
        said += ["may wait"] + [f"may wait {ms} {times}" for ms, times in sorted(self.waits.items())]
        said += [f"may tick {ms} {times}" for ms, times in sorted(self.ticks.items())]
        said += self.taken(given)
        return said + ([] if any(it.startswith("most clock ") for it in given) else [f"most clock {self.clock}"])

    def taken(self, given: list[str]) -> list[str]:
        """The lines that say how long callbacks took, except where these lines say it."""
        if any(it.startswith("takes ") for it in given):
            return []
        return [f"takes {name} @{call} {ms}" for (_, name, call), ms in sorted(self.takes.items()) if ms]

    def near(self, given: list[str]) -> list[str]:
        """The lines behind `may differ`, except for what these lines say already: what came, that the clock goes on where the loop waits, how long
        callbacks took, and how far the clock went."""
        if self.other:
            raise Fault(f"an order may differ from steps alone, and `{self.other}` is none")
        said = self.recorded + [it for it in ["may wait"] if it not in given] + self.taken(given)
        return said + ([] if any(it.startswith("most clock ") for it in given) else [f"most clock {self.clock}"])

    def sentence(self) -> str:
        """What is offered, for a person."""
        counts = Counter({word: sum(it for (it_word, _), it in self.came.items() if it_word == word) for word in FROM_OUTSIDE})
        parts = [
            many(counts["io"], "callback of I/O", "callbacks of I/O"),
            many(counts["send"], "send", "sends"),
            many(counts["cancel"], "cancel", "cancels"),
            many(sum(self.waits.values()), "wait that something ended", "waits that something ended"),
            many(sum(self.ticks.values()), "time that went by in no callback", "times that went by in no callback"),
            many(len(+self.takes), "callback that took time", "callbacks that took time"),
        ]
        return (
            f"no line says `may`, so what came in the recording may come at other places: {', '.join(it for it in parts if it) or 'nothing'}; "
            f"the clock goes to {self.clock} ms, and a callback's time goes by at its end"
        )


def many(number: int, one: str, more: str) -> str:
    return "" if not number else f"{number} {one if number == 1 else more}"


def single(steps: list[str]) -> list[str]:
    """The steps one by one."""
    one = []
    for it in steps:
        words = it.split(" ")
        one += ["loop"] * int(words[1]) if words[0] == "loop" and len(words) > 1 else [it]
    return one


@dataclass
class Spent:
    """A time that went by: in which call of a callback, or in none; what of it isn't the wait of a poll up to its deadline, and whether some is; and
    whether the loop was blocked in its poll so long, until something ended that."""

    ms: int
    call: tuple[str, str, int] | None = None
    closed: bool = False
    rest: int = 0
    waited: bool = False
    blocked: bool = False


def blocked_at(talk: Conversation, lengths: list[int]) -> set[int]:
    """Behind how many of the steps that stand the loop is blocked, of these numbers. No more steps than the least of them stand then."""
    found: set[int] = set()
    for length in sorted(lengths, reverse=True):
        talk.ask(f"back {talk.length - length}")
        if talk.ask("loop") == ["refused blocked"]:
            found.add(length)
        else:
            talk.ask("back 1")
    return found


def spent(script: Script, steps: list[str]) -> tuple[list[list[str]], dict[int, Spent], Counter[tuple[str, str]]]:
    """The lines of each step, the times that went by, by the numbers of their steps, and how often each callback was called. Of a wait up to the
    deadline all is the wait, also where a worker took a request meanwhile; one that is ended by what came is a time in which the loop was blocked."""
    found: dict[int, Spent] = {}
    calls: Counter[tuple[str, str]] = Counter()
    within: tuple[str, str] | None = None
    # the times of the poll that nothing has ended yet, and each of those that might be a wait
    open_poll: list[int] | None = None
    waits: list[tuple[int, list[int]]] = []
    talk = Conversation(script)
    try:
        said = list(talk.ask_each(steps))
        for number, (step, lines) in enumerate(zip(steps, said)):
            word, _, argument = step.partition(" ")
            first = lines[0].split(" ")[0] if lines else ""
            if first in LISTS and word in ("loop", "io"):
                within = LISTS[first], lines[0].split(" ")[1]
                calls[within] += 1
            elif first in NOT_IN_A_CALL and word == "loop":
                within = None
            if word in ("loop", "finish", *FROM_OUTSIDE):
                open_poll = [] if first == "poll" and word == "loop" else None
            if word != "tick":
                continue
            ms = int(argument)
            if within:
                closed = within[0] == "closed"
                found[number] = Spent(ms, None if closed else (*within, calls[within]), closed)
                continue
            found[number] = Spent(ms, rest=ms)
            if open_poll is not None:
                waits.append((number, list(open_poll)))
                open_poll.append(number)
        short: list[int] = []
        for (number, before), state in zip(waits, talk.states_at([number for number, _ in waits])):
            deadline = re.search(r" poll (\d+)$", state.place)
            left = int(deadline[1]) - state.numbers["clock"] if deadline else 0
            if 0 < left <= found[number].ms:
                found[number].rest, found[number].waited = found[number].ms - left, True
                for it in before:
                    found[it].rest = 0
            elif left > found[number].ms or state.place.endswith(" poll infinite"):
                short.append(number)
        for number in blocked_at(talk, [it for it in short if found[it].rest]):
            found[number].blocked = True
    finally:
        talk.close()
    return said, found, calls


def offered(script: Script, steps: list[str]) -> Offered:
    """What came in these steps."""
    found = Offered()
    lines, times, found.calls = spent(script, steps)
    found.recorded = recorded_lines(steps, lines, times)
    found.other = next((it for it in steps if it.split(" ")[0] not in STEPS), "")
    for step in steps:
        word, _, argument = step.partition(" ")
        if word in FROM_OUTSIDE:
            found.came[word, argument] += 1
    for it in times.values():
        found.clock += it.ms
        if it.call:
            found.takes[it.call] += it.ms
        elif it.closed:
            found.closed += it.ms
        elif it.rest:
            (found.waits if it.blocked else found.ticks)[it.rest] += 1
    return found


def recorded_lines(steps: list[str], all_lines: list[list[str]], times: dict[int, Spent]) -> list[str]:
    """What came from outside in these steps, a line for each in their order, with its place: so many polls, and so many steps of the loop behind
    the last of them, behind the place of the one before it. A wait up to a poll's deadline is such a step, and what callbacks took is said by
    `takes`."""
    said: list[str] = []
    polls = taken = 0
    for number, (step, lines) in enumerate(zip(steps, all_lines)):
        if step == "loop":
            if lines and lines[0].startswith("poll "):
                polls, taken = polls + 1, 0
            else:
                taken += 1
            continue
        time = times.get(number)
        if time and time.waited:
            taken += 1
        if time and not time.rest:
            continue
        what = step if not time else f"{'wait' if time.blocked else 'tick'} {time.rest}"
        said.append(f"recorded {polls} {taken} {what}")
        polls = taken = 0
    return said


def never_called(script: Script, calls: Counter[tuple[str, str]]) -> list[str]:
    """The names with a callback that the recording has no call of, so that nobody knows what it does."""
    waiting = dict.fromkeys(("on" if op[0] == "init" else "after", op[1]) for op in script.ops() if op[0] in ("init", "queue") and len(op) > 2)
    return [name for which, name in waiting if not calls[which, name]]
