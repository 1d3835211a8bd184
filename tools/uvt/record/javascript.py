"""What the hook in node told of the JavaScript (lines J of a log), as a recording's notes have it."""

from __future__ import annotations

import bisect
import re
from pathlib import Path

from uvt.javascript import JavaScript
from uvt.javascript_pieces import Look, NOWHERE, OUTSIDE, Origin, Place, Resource, Span, Under
from uvt.record.events import Event
from uvt.record.log import Log

# node's functions that call what JavaScript asked for.
HOWS = {
    "listOnTimeout": "timer",
    "processImmediate": "immediate",
    "runMicrotasks": "promise",
    "runNextTicks": "tick",
    "processTicksAndRejections": "tick",
    "executeUserEntryPoint": "main",
    "Module.load": "main",
    # (of the hook in Python)
    "uvt_called": "timer",
    "run_forever": "event",
}
# Callbacks of the loop itself in Python, each due as many ms behind what asked for it as it says there.
LOOPS_OWN = ("timer", "soon", "task")
BETWEEN = ("tick", "timer", "immediate")
COLLECTOR = "(garbage_collector)"
SHOWN = 70
# What a line at which a timer is called says of it.
REPEATS, UNREFERENCED, PUT_OFF = 1, 2, 4
# The hook's own file; and its functions that stand between a timer and its callback.
HOOK = "/record/node/hook.js:"
PASSED = {"uvt_called", "get", "set", "ref", "unref", "refresh"}


# What isn't known where a node lacks one of these methods of V8's, by the classes that they are of; the others are for looks.
WITHOUT = (
    (("AddGCPrologueCallback", "AddGCEpilogueCallback"), "how long the collector took"),
    (("StackTrace", "StackFrame"), "where something was asked for"),
    (("8Function",), "where a function begins"),
    # (without it a place costs more, and is as well known)
    (("GetStackSample",), ""),
)


def in_words(symbol: str) -> str:
    """`v8::CpuProfiler::Dispose` of a name of the linker."""
    found, rest = [], re.sub(r"^_ZNK?", "", symbol)
    while number := re.match(r"\d+", rest):
        begin, end = number.end(), number.end() + int(number[0])
        found.append(rest[begin:end])
        rest = rest[end:]
    return "::".join(found) or symbol


def lacked(log: Log) -> list[str]:
    """What a node lacks of V8, and what isn't known for that, in a sentence each."""
    found: dict[str, list[str]] = {}
    for it in log.lacks:
        what = next((what for names, what in WITHOUT if any(name in it for name in names)), "which functions were under way")
        found.setdefault(what, []).append(in_words(it))
    return [f"this node has no {', '.join(names)}: so {what} isn't known" for what, names in found.items() if what]


def place_in_file(log: Log, number: int) -> Place:
    """A function with its file and line, the file as it is seen from where the program was started."""
    function, _, where = log.places.get(number, "").rpartition(" ")
    where = where.removeprefix("file://")
    return Place(function, where.removeprefix(f"{log.home}/") if log.home else where) if function else NOWHERE


def place_of(log: Log, number: int) -> Place:
    """The same in the source that a person wrote, where the file's map tells that."""
    place = place_in_file(log, number)
    return Place(place.function, log.maps.place(place.where))


def line_of(log: Log, number: int, line: int) -> int:
    """A line of the file of a place, in that source."""
    return log.maps.line(place_in_file(log, number).where, line)


def is_program(place: Place) -> bool:
    """Does this function stand in the program, and not in node, V8 or the recorder's hook?"""
    return place.where != "-" and not place.where.startswith(OUTSIDE) and HOOK not in place.where


def how_of(frames: list[tuple[Place, int]]) -> str:
    """How the innermost of these came to be called, by node's own functions below it; `` where these don't tell."""
    return next((HOWS[it.function] for it, _ in frames if it.function in HOWS), "")


def ended(begin: int, last: int, end: int, callbacks: list[tuple[int, int]]) -> int:
    """Where a look ends, of which V8 looked at `last` for the last time, and at `end` at something else, in thousandths of a ms. It counts up to
    there, which may come late: what was under way in a callback of the loop was over as that ended, and what was between two of them as the next
    one began. (In the ms in which one ends and the next one begins it is that in which the look began.)"""
    for time in (begin, last):
        at = bisect.bisect_right(callbacks, time // 1000, key=lambda it: it[0])
        over = 1000 * (callbacks[at - 1][1] + 1) if at else 0
        if last < over:
            return min(end, over)
    return min(end, 1000 * (callbacks[at][0] + 1)) if at < len(callbacks) else end


class Stacks:
    """What is under way, by the number of a stack."""

    def __init__(self, log: Log) -> None:
        self.log = log
        self.known: dict[int, Under | None] = {}

    def frames(self, number: int) -> list[tuple[Place, int]]:
        """From the innermost one on, each with the line at which it was found most."""
        found: list[tuple[Place, int]] = []
        while number >= 0 and (row := self.log.stacks.get(number)) and len(found) < 1000:
            number, place, line = row
            found.append((place_of(self.log, place), line_of(self.log, place, line)))
        return found

    def without_hook(self, number: int) -> int:
        """The first of this stack and those below it whose function is none of the recorder's hook; -1 where there is none."""
        while (row := self.log.stacks.get(number)) and HOOK in place_of(self.log, row[1]).where:
            number = row[0]
        return number if row else -1

    def under(self, number: int) -> Under | None:
        """None where that is nothing of the program."""
        if number not in self.known:
            self.known[number] = self.read(self.frames(number))
        return self.known[number]

    @staticmethod
    def read(frames: list[tuple[Place, int]]) -> Under | None:
        frames = [it for it in frames if it[0].function not in PASSED or HOOK not in it[0].where]
        if any(HOOK in place.where for place, _ in frames):
            hook = Place("the_recorder", "-")
            return Under("hook", hook, hook, "0", "-")
        own = [at for at, (place, _) in enumerate(frames) if is_program(place)]
        return Stacks.of(frames, own) if own else None

    @staticmethod
    def of(frames: list[tuple[Place, int]], own: list[int]) -> Under:
        inner, outer = own[0], own[-1]
        below = [place.function for place, _ in frames[outer + 1 :]]
        # (V8 calls what a promise has at the end of a callback by itself: below it there is nothing)
        how = next((HOWS[it] for it in below if it in HOWS), "event" if below else "promise")
        # (of node's or V8's functions in between the one that the program called)
        top = frames[inner - 1][0].function if inner else "-"
        return Under(how, frames[outer][0], frames[inner][0], str(frames[inner][1]) if inner == 0 else "0", top)


class Reader:
    """Reads the lines J of a loop, in order, with the callback of the loop that is under way at each."""

    def __init__(self, log: Log) -> None:
        self.log = log
        self.found = JavaScript()
        self.stacks = Stacks(log)
        self.open: dict[int, tuple[tuple[str, str, int], int, int | None, int]] = {}
        # of node's own times those of the log: as the recorder says, and of earlier ones never less than what a timer's line says
        self.behind: int | None = None
        self.is_said = False
        self.rows: list[tuple[int, tuple[str, str, int], int, int, int | None, int]] = []
        # the last callback of JavaScript that ended, and in which of the loop
        self.last: tuple[int, tuple[str, str, int]] | None = None
        # when the loop's first callback began
        self.begun: int | None = None
        # of a look since when, how long, how late the next one came, 0 where that is in time or nobody knows, and its stack
        self.raw: list[tuple[int, int, int, int]] = []
        # those that were asked for before the recording begins
        self.before: set[int] = set()

    def read(self, event: Event, call: tuple[str, str, int]) -> None:
        words = event.words.split(" ")
        id = int(words[1])
        resource = self.found.resources.get(id)
        match words[0]:
            # (it was asked for before the recording begins, or that is said once more)
            case "was" if not resource:
                at, *_ = (place_of(self.log, int(it)) for it in words[4].split("<"))
                when = event.clock - int(words[6])
                self.before.add(id)
                kind, before = ("interval", event.clock - int(words[7])) if len(words) > 7 else (words[2], None)
                self.found.resources[id] = Resource(id, kind, place_of(self.log, int(words[3])), at, when, int(words[5]), before)
            case "new":
                at, *callers = (place_of(self.log, int(it)) for it in words[4].split("<"))
                self.found.resources[id] = Resource(id, words[2], place_of(self.log, int(words[3])), at, event.clock, int(words[5]))
                self.found.resources[id].origin = self.origin(callers, call)
            case "run":
                start = int(words[2]) if len(words) > 2 else None
                delay = int(words[3]) if len(words) > 3 else 0
                self.open[id] = call, event.clock, start, delay
                if resource and start is not None:
                    flags = int(words[4]) if len(words) > 4 else 0
                    if not flags & PUT_OFF:
                        self.reckon(resource, start, bool(flags & REPEATS))
                    resource.kind = "interval" if flags & REPEATS else resource.kind
                    resource.referenced &= not flags & UNREFERENCED
                    resource.put_off |= bool(flags & PUT_OFF)
            case "ran" if it := self.open.pop(id, None):
                self.last = id, call
                self.rows.append((id, it[0], it[1], event.clock, it[2], it[3]))
            case "gone" if resource:
                resource.gone, resource.gone_at = event.clock, place_of(self.log, int(words[2]))
            case "ref" if resource:
                resource.referenced, resource.referenced_at = words[2] == "1", place_of(self.log, int(words[3]))
            case "thread":
                self.found.thread = id
                if len(words) > 2:
                    self.behind, self.is_said = int(words[2]), True
            case "busy":
                self.raw.append((int(words[2]), int(words[3]), int(words[4]) if len(words) > 4 else 0, id))
            case "gc":
                # (in thousandths of a ms)
                self.found.collections.append((id, id + int(words[2])))

    def reckon(self, resource: Resource, start: int, repeats: bool) -> None:
        """What a timer's start says of node's times, where the recorder said nothing: it was no earlier than it was asked for. (One that repeats
        counts from its last call: of one that was there before nobody knows which that was.)"""
        if not self.is_said and not (repeats and resource.id in self.before):
            self.behind = max(self.behind if self.behind is not None else -(1 << 60), resource.when - start)

    def due(self, resource: Resource, start: int | None, delay: int) -> int | None:
        """When a call was due; None where that isn't known. (Python's timers are the loop's own, and no time of node's is said of them.)"""
        if start is None:
            return resource.when + resource.delay if resource.kind in LOOPS_OWN else None
        return start + self.behind + delay if self.behind is not None else None

    def origin(self, callers: list[Place], call: tuple[str, str, int]) -> Origin:
        # (node does what is left by a timer's callback, its ticks and promises, before it calls the next one)
        behind = self.last[0] if self.last and self.last[1] == call else -1
        return Origin(tuple(it for it in callers if is_program(it)), call, next(reversed(self.open), behind))

    def read_by(self, event: Event, name: str, call: int, inside: tuple[str, str, int]) -> None:
        """Which line asked for a request of the pool, and in which callback."""
        place, *callers = (place_of(self.log, int(it)) for it in event.words.split(" ")[2].split("<"))
        self.found.asked[name, call] = place
        self.found.origins[name, call] = self.origin(callers, inside)

    def done(self, callbacks: list[tuple[int, int]]) -> JavaScript:
        """All of it; with when each callback of the loop began and ended, in ms."""
        for id, call, begin, end, start, delay in self.rows:
            if resource := self.found.resources.get(id):
                self.found.add(Span(id, call, begin, end, self.due(resource, start, delay)))
        last: Look | None = None
        for begin, took, late, number in sorted(self.raw):
            end = ended(begin, begin + took - late, begin + took, callbacks) if late else begin + took
            frames = self.stacks.frames(number)
            self.keep(begin, end, number, frames)
            if last and frames and frames[0][0].function == COLLECTOR:
                # (what the collector takes is taken from whom it interrupts)
                last.end = ended(last.begin, last.end - 1, end, callbacks) if begin - last.end < 2000 else last.end
                continue
            under = self.stacks.under(number)
            # (a look counts up to the next one, which may come late)
            end = min(end, 1000 * self.begun) if under and under.how == "main" and self.begun is not None else end
            if end <= begin:
                continue
            if under and last and last.under == under and begin - last.end < 100:
                last.end = end
            elif under:
                last = Look(begin, end, under)
                self.found.looks.append(last)
            elif last and frames and last.under.how in BETWEEN and begin - last.end < 100 and how_of(frames) == last.under.how:
                # (what node does between two of these is theirs)
                last.end = end
            else:
                last = None
        for id, (call, begin, start, delay) in self.open.items():
            if resource := self.found.resources.get(id):
                self.found.add(Span(id, call, begin, max(begin, self.found.seen()), self.due(resource, start, delay), True))
        self.read_sources()
        self.found.home = self.log.home if self.found else ""
        self.found.language = self.log.language
        return self.found

    def keep(self, begin: int, end: int, number: int, frames: list[tuple[Place, int]]) -> None:
        """The whole stack, for a flame."""
        is_main = self.begun is not None and how_of(frames) == "main"
        end = min(end, 1000 * self.begun) if is_main and self.begun is not None else end
        if end <= begin or any(HOOK in place.where and place.function not in PASSED for place, _ in frames):
            return
        number = self.stacks.without_hook(number)
        if number < 0:
            return
        kept = self.found.busy
        if kept and kept[-1][2] == number and begin - kept[-1][1] < 100:
            kept[-1] = kept[-1][0], end, number
        else:
            kept.append((begin, end, number))
        while number >= 0 and number not in self.found.stacks and (row := self.log.stacks.get(number)):
            below, place, line = row
            below = self.stacks.without_hook(below)
            self.found.stacks[number] = below, place_of(self.log, place), line_of(self.log, place, line)
            number = below

    def read_sources(self) -> None:
        """The lines at which the program was found most, from its files where these are there."""
        texts: dict[str, list[str]] = {}
        for look in self.found.looks:
            where = JavaScript.line_of(look.under.inner, look.under.line)
            file, _, line = where.rpartition(":")
            if look.under.line == "0" or where in self.found.source:
                continue
            if file not in texts:
                try:
                    texts[file] = Path(file).read_text(encoding="utf-8", errors="replace").splitlines()
                except (OSError, ValueError):
                    texts[file] = []
            if 0 < int(line) <= len(texts[file]):
                text = " ".join(texts[file][int(line) - 1].split())
                self.found.source[where] = text if len(text) <= SHOWN else text[: SHOWN - 3] + "..."
