"""What a log of a program says by itself, before a loop is led through it: which callbacks took long, and what waited long for the loop.

A timer is due its ms behind the loop's time of its start, as libuv's pages say. Who is to blame for what is for `why` to say, of a recording.
"""

from __future__ import annotations

import heapq
import re
from dataclasses import dataclass, field

from uvt.notes import harmless

# So many lines has each part.
LINES = 5
# What waited less than so many ms isn't told.
LEAST = 2
HEAD = re.compile(r"uvt-log [12] 1\.\S+ \d+ \d+ ")
KINDS = {"closed": "close callback", "after": "after callback"}


@dataclass(order=True, slots=True)
class Long:
    """A callback, or a wait for one: how long, from when on, whose, and which line of the log begins it."""

    took: int
    begin: int
    line: int
    id: int
    # the callback's word in the log: `timer`, `read`, `after`, `closed`
    what: str = field(compare=False)
    # of a wait: what it waited from on
    since: str = field(default="", compare=False)


@dataclass
class Glance:
    """A loop of a log."""

    names: Names
    callbacks: int = 0
    first: int | None = None
    last: int = 0
    longest: list[Long] = field(default_factory=list)
    waited: list[Long] = field(default_factory=list)
    # the callback under way: when it began, at which line, of which object, its word; and how many are in it
    call: tuple[int, int, int, str] | None = None
    depth: int = 0
    # of timers: when they are due, and their repeats; of others: since when they wait
    due: dict[int, int] = field(default_factory=dict)
    repeats: dict[int, int] = field(default_factory=dict)
    since: dict[int, tuple[int, str]] = field(default_factory=dict)
    # and the clock as they were started, where the loop's time was an earlier one
    started: dict[int, int] = field(default_factory=dict)

    def see(self, type: str, now: int, words: list[str], line: int) -> None:
        match type, words:
            case "O", ["start", id, ms, repeat, "=", "ok"]:
                self.due[int(id[1:])], self.repeats[int(id[1:])] = now + int(ms), int(repeat)
                self.started.pop(int(id[1:]), None)
            case "q", [clock, id] if int(id) in self.due:
                self.started[int(id)] = int(clock)
            case "O", ["repeat", id, repeat, "=", "ok"]:
                self.repeats[int(id[1:])] = int(repeat)
            case "O", ["again", id, "=", "ok"]:
                self.start_again(int(id[1:]), now)
            case "O", ["stop" | "close", id, "=", "ok"]:
                self.due.pop(int(id[1:]), None)
            case "S", [clock, id, *_]:
                self.since.setdefault(int(id), (int(clock), "it was sent to"))
            case "F", [clock, id, *_]:
                self.since[int(id)] = int(clock), "it was through"

    def start_again(self, id: int, now: int) -> None:
        """A timer starts with its repeat; one that has none is stopped."""
        self.due.pop(id, None)
        if self.repeats.get(id):
            self.due[id] = now + self.repeats[id]

    def begin(self, now: int, clock: int, id: int, what: str, line: int) -> None:
        self.depth += 1
        if self.depth > 1:
            return
        self.callbacks += 1
        self.first = clock if self.first is None else self.first
        self.call = clock, line, id, what
        if what == "timer" and id in self.due:
            # (reckoned from its start one may be called too soon)
            started, due = self.started.pop(id, 0), self.due[id]
            self.keep(self.waited, clock - due if due >= started else 0, due, line, id, what, "it was due")
            self.start_again(id, now)
        elif id in self.since and what in ("async", "after"):
            begin, since = self.since.pop(id)
            self.keep(self.waited, clock - begin, begin, line, id, what, since)

    def end(self, clock: int) -> None:
        self.depth -= self.depth > 0
        if self.depth or not self.call:
            return
        self.last = max(self.last, clock)
        self.keep(self.longest, clock - self.call[0], *self.call)
        self.call = None

    @staticmethod
    def keep(best: list[Long], took: int, begin: int, line: int, id: int, what: str, since: str = "") -> None:
        if took >= LEAST and len(best) < LINES:
            heapq.heappush(best, Long(took, begin, line, id, what, since))
        elif took >= LEAST and took > best[0].took:
            heapq.heapreplace(best, Long(took, begin, line, id, what, since))

    # ---- in words

    def told(self, it: Long) -> str:
        return f"{it.took} ms: {self.names.callback(it.id, it.what)}, at {it.begin} ms, line {it.line} of the log"

    def told_wait(self, it: Long) -> str:
        in_it = [(min(long.begin + long.took, it.begin + it.took) - max(long.begin, it.begin), long) for long in self.longest]
        most, long = max(in_it, key=lambda row: row[0], default=(0, None))
        why = f": {most} ms of them in {self.names.callback(long.id, long.what)}" if long and most >= LEAST else ""
        return f"{it.took} ms behind {it.begin} ms, when {it.since}: {self.names.callback(it.id, it.what)}, line {it.line} of the log{why}"

    def answer(self) -> list[str]:
        count = f"{self.callbacks} callback{'s' * (self.callbacks != 1)}"
        lines = [f"{count}, {max(0, self.last - (self.first or 0))} ms, by the log alone"]
        for title, rows, say in (("the longest callbacks", self.longest, self.told), ("who waited for the loop", self.waited, self.told_wait)):
            lines += [title, *(f"    {say(it)}" for it in sorted(rows, reverse=True))] if rows else []
        return lines


@dataclass
class Names:
    """What the objects and callbacks of a loop are called, by the log's lines."""

    # of all loops: places in the program's files
    symbols: dict[int, str]
    variables: dict[int, tuple[int, int]] = field(default_factory=dict)
    functions: dict[tuple[int, str], int] = field(default_factory=dict)

    def see(self, type: str, words: list[str]) -> None:
        match type, words:
            case "V", [id, place, *size]:
                self.variables[int(id)] = int(place), int(size[0]) if size else 0
            case "C", [id, place, *what]:
                self.functions.update({(int(id), it): int(place) for it in what})

    def callback(self, id: int, what: str) -> str:
        """`on_beat (app.c:12), of beat`: the function, and the variable of its handle or request, as far as they are known."""
        symbol, _, source = self.symbols.get(self.functions.get((id, what), -1), "").partition("@")
        function = f"{symbol} ({source})" if source else symbol
        name = self.variable(id)
        kind = KINDS.get(what, f"callback ({what})")
        if function and function != "-":
            return f"{function}, of {name}" if name else function
        return f"the {kind} of {name or f'number {id}'}"

    def variable(self, id: int) -> str:
        place, size = self.variables.get(id, (-1, 0))
        found = re.fullmatch(r"(.+)\+(\d+)/(\d+)", self.symbols.get(place, ""))
        if not found:
            return ""
        offset, whole = int(found[2]), int(found[3])
        if size and whole > size and whole % size == 0 and offset % size == 0:
            return f"{found[1]}[{offset // size}]"
        return f"{found[1]}+{offset}" if offset else found[1]


def take(loop: Glance, words: list[str], number: int) -> None:
    """A line of this loop."""
    type = words[1]
    # (where the program called libuv stands behind what it asked)
    if type in "OS" and words[-1].startswith("@"):
        words = words[:-1]
    if type == "B":
        what = words[6] if words[4] == "on" and len(words) > 6 else words[4]
        loop.begin(int(words[2]), int(words[3]), int(words[5]), what, number)
    elif type == "E":
        loop.end(int(words[3]))
    elif type in "VC":
        loop.names.see(type, words[3:])
    else:
        loop.see(type, int(words[2]), words[3:], number)


def glances(data: bytes) -> dict[int, Glance]:
    """All loops of a log that had a callback, by their numbers."""
    loops: dict[int, Glance] = {}
    symbols: dict[int, str] = {}
    for number, line in enumerate(harmless(data.decode("utf-8", "replace")).split("\n"), 1):
        words = line.split(" ")
        try:
            if words[:2] == ["-", "A"]:
                symbols[int(words[2])] = words[4]
            elif len(words) > 3 and words[1] in "OBESFVCq":
                if (loop := int(words[0])) not in loops:
                    loops[loop] = Glance(Names(symbols))
                take(loops[loop], words, number)
        except (IndexError, ValueError):
            # (a log may be cut, or have a wrong line)
            continue
    return {loop: it for loop, it in sorted(loops.items()) if it.callbacks}


def is_log(data: bytes) -> bool:
    return HEAD.match(data[:200].decode("ascii", "replace")) is not None


def told(data: bytes) -> list[str]:
    """All loops in words."""
    found = glances(data)
    lines: list[str] = []
    for loop, it in found.items():
        lines += [f"loop {loop}: {line}" if at == 0 and len(found) > 1 else line for at, line in enumerate(it.answer())]
    return lines or ["the log has no callback"]
