"""What was seen of the JavaScript of a program, piece by piece: places, resources, spans, looks; and the words for each."""

from __future__ import annotations

import re
from dataclasses import dataclass, replace

# How a function came to be called, by node's own functions below it, in a person's words.
HOW = {
    "timer": "a timer",
    "immediate": "an immediate",
    "tick": "process.nextTick",
    "promise": "a promise",
    "main": "the main program",
    "event": "an event",
}
KINDS = {
    "timer": "a timer",
    "interval": "an interval",
    "immediate": "an immediate",
    "soon": "a call_soon",
    "task": "a step of a task",
    "callback": "a callback",
}
# What files that are no part of the program begin with: node's own, and those that come with Python.
OUTSIDE = ("node:", "python:")
# Files of node whose timers a program asks for by these names.
BY_NAME = {"node:internal/abort_controller:": "AbortSignal.timeout", "node:timers/promises:": "setTimeout of timers/promises"}
# What node does as soon as a callback of JavaScript is over.
AT_ONCE = ("tick", "promise")
# So little isn't told, in ms; and so many parts at the most.
LEAST = 2
PARTS = 3
# So many columns a line of an answer about JavaScript has, and so many signs of the program's text stay at the least.
COLUMNS = 120
OF_TEXT = 24
# Of the word of a step's line the list of its callbacks, and which of a name's counts is that.
LISTS = {"call": ("on", 0), "after": ("after", 1), "closed": ("closed", 2)}
PLACE = re.compile(r"\S+:\d+")


@dataclass(frozen=True)
class Place:
    """A function, and where it begins; or where something was asked for, and in which function."""

    function: str
    where: str

    def text(self) -> str:
        name = self.function.replace("_", " ") if self.function.startswith("bound_") else self.function
        return f"{name} ({self.where})" if self.where != "-" else name

    def words(self) -> str:
        """As it stands in a line of the notes."""
        return f"{self.function} {self.where}"

    def is_(self, name: str) -> bool:
        """Is it what a person typed: a function's name, or FILE:LINE?"""
        return name == self.function or self.where == name or self.where.endswith("/" + name)


NOWHERE = Place("-", "-")


def fold_at(line: str, begin: int, end: int) -> int:
    """Where a line that is too long is cut, so that the rest goes below: 0 where it can't be. From `begin` to `end` stands the program's text."""
    least = len(line) - len(line.lstrip()) + COLUMNS // 3
    found = [
        it for it in re.finditer(r"[;,:]? ", line[: COLUMNS + 2]) if it.start() > least and it.end() - 1 <= COLUMNS and not begin < it.start() < end
    ]
    parts = [it.end() - 1 for it in found if it[0] in ("; ", ", ") or it[0] == ": " and it.end() == begin]
    words = [it.start() for it in found]
    return parts[-1] if parts else words[-1] if words else 0


def fitted(line: str) -> list[str]:
    """A line of an answer, in as many columns as a person reads. A long text of the program's is cut, and what is left goes below."""
    indent, found = " " * (len(line) - len(line.lstrip()) + 4), []
    while len(line) > COLUMNS:
        begin, end = line.find("`"), line.rfind("`")
        room = COLUMNS - begin - 4
        if 0 <= begin and end >= COLUMNS and room >= OF_TEXT:
            line, end = f"{line[: begin + 1 + room]}..{line[end:]}", begin + room + 3
        cut = fold_at(line, begin, end)
        if not cut or len(line) <= COLUMNS:
            break
        found.append(line[:cut])
        line = indent + line[cut:].lstrip()
    return [*found, line]


def length(looks: list[Look]) -> int:
    return sum(it.end - it.begin for it in looks)


def longest(looks: list[Look], what: str) -> str:
    """The line, or what was called, in which most of these looks are."""
    by: dict[str, list[Look]] = {}
    for it in looks:
        by.setdefault(getattr(it.under, what), []).append(it)
    return max(by, key=lambda it: length(by[it]))


def how_much(took: int, whole: int) -> str:
    """A part of a time, in words: V8 may count what a function does to the one that calls it, so a part in ms would be more than is known."""
    return "nearly all" if 10 * took >= 9 * whole else "most" if 2 * took >= whole else "a third or more"


def at(place: Place) -> str:
    """`at app.js:12, in save`."""
    return f"at {place.where}" + (f", in {place.function}" if place.function not in ("(anonymous)", "-") else "")


@dataclass(frozen=True)
class Origin:
    """Where something was asked for: the program's functions that had called the one that asked, the innermost first; the callback of the loop, and
    the timer or immediate (-1: none) whose callback was under way."""

    callers: tuple[Place, ...]
    call: tuple[str, str, int]
    within: int

    def words(self) -> str:
        return " ".join([*map(str, self.call), str(self.within), *(it.words() for it in self.callers)])


def read_origin(words: list[str]) -> Origin:
    list, name, call, within, *places = words
    return Origin(tuple(Place(*it) for it in zip(places[::2], places[1::2])), (list, name, int(call)), int(within))


@dataclass
class Resource:
    id: int
    kind: str
    function: Place
    # where it was asked for, when, and of a timer its ms
    at: Place
    when: int
    delay: int
    # of one that repeats and was there before the recording begins, when it was called last by then
    before: int | None = None
    # when and where it was cleared, where it was; whether it keeps node alive, and where that was said
    gone: int | None = None
    gone_at: Place = NOWHERE
    referenced: bool = True
    referenced_at: Place = NOWHERE
    origin: Origin | None = None
    # were its ms counted anew before it was called?
    put_off: bool = False

    def what(self) -> str:
        delay = f" of {self.delay} ms" if self.kind in ("timer", "interval") else ""
        return KINDS.get(self.kind, self.kind) + delay

    def in_nodes_name(self) -> str:
        """Of a timer that the program asks for by another name than setTimeout: that name."""
        return next((name for file, name in BY_NAME.items() if self.function.where.startswith(file)), "")

    def is_programs(self) -> bool:
        """Does the program ask for it, and not node for itself? (A function that is bound has no place: that goes by who asked for it.)"""
        where = self.at.where if self.function.where == "-" else self.function.where
        return not where.startswith(OUTSIDE) or bool(self.in_nodes_name())

    def named(self) -> str:
        """Its function; of one of node's, or of V8's, that the program asks for how it does, and where."""
        name = self.in_nodes_name() or (self.function.function if self.function.where == "-" and self.function.function != "-" else "")
        return f"{name} ({self.at.where})" if name and self.at.where != "-" else self.function.text()

    def asked(self) -> str:
        """Where it was asked for, in words."""
        if self.at.where != "-":
            return f"started {at(self.at)}"
        # (it was there before the recorder came)
        if self.kind in ("timer", "interval") and self.function.where != "-" and not self.function.where.startswith(OUTSIDE):
            return "nobody saw where it was started"
        return "of node's own" if self.kind in ("interval", "immediate") or self.kind == "timer" and self.function.where.startswith("node:") else ""


@dataclass
class Span:
    """A callback of a resource, in a callback of the loop: its list, its name and which call it is, `main` of the main program."""

    id: int
    call: tuple[str, str, int]
    begin: int
    end: int
    # of a timer
    due: int | None
    # was it under way still as the log ends? Then its end is the last time at which that was seen
    is_open: bool = False

    def when(self) -> int:
        """When it was due: of one of which that is known."""
        assert self.due is not None
        return self.due


@dataclass(frozen=True)
class Under:
    """What was under way: how the program's function came to be called, that function, the innermost one of the program with its line, and
    what of node or V8 that one had called."""

    how: str
    outer: Place
    inner: Place
    line: str
    top: str

    def words(self) -> str:
        """As it stands in a line of the notes."""
        return f"{self.how} {self.outer.words()} {self.inner.words()} {self.line} {self.top}"


def read_under(words: list[str]) -> Under:
    how, outer, where, inner, place, line, top = words
    return Under(how, Place(outer, where), Place(inner, place), line, top)


@dataclass
class Look:
    begin: int
    end: int
    under: Under


@dataclass
class Part:
    """A function of the program that took time, in one of its calls or in several: how it came to be called; how much of that lies in the time that
    is asked about, and how long it took in all, in ms; and in which times that was, in thousandths of a ms."""

    how: str
    who: Place
    took: int
    whole: int
    pieces: list[tuple[int, int]]
    # is the whole known by looks alone?
    about: bool = False
    # of a timer or an immediate what it is; `` of what no such called
    what: str = ""
    # of these how often it was called; of others in how many callbacks of the loop it was
    calls: int = 1

    def with_other(self, other: Part) -> Part:
        pieces, calls = self.pieces + other.pieces, self.calls + other.calls
        return replace(self, took=self.took + other.took, whole=self.whole + other.whole, pieces=pieces, about=self.about or other.about, calls=calls)


def together(parts: list[Part]) -> list[Part]:
    """These, of each function one, the longest first."""
    found: dict[tuple[str, Place, str], Part] = {}
    for it in parts:
        key = it.how, it.who, it.what
        found[key] = found[key].with_other(it) if key in found else it
    return sorted(found.values(), key=lambda it: -it.took)
