"""Which part of a log is followed: what is asked for, or of a long one that around its longest callback, or of a ring that was kept apart that around
what it was kept for."""

from __future__ import annotations

from dataclasses import dataclass, replace

from uvt.record.events import Events
from uvt.record.log import Late, Log
from uvt.record.window import NoPart, begin_of, starts_of, window
from uvt.record.worst import Stall, around

# So many callbacks of a log are followed, where no other number is asked for: some ten seconds, and as much memory as 100,000 callbacks take.
MOST = 100_000
# So much stands before what a ring was kept for, in ms.
BEFORE = 1000


@dataclass
class Part:
    """Which part of a log is asked for."""

    # in ms of the loop's time: from there on, or the last ones
    begin: int | None = None
    last: int | None = None
    # how many callbacks at the most; and whether, of more than these, the ones around the longest are taken
    most: int = MOST
    worst: bool = False

    def is_all(self) -> bool:
        return self.begin is None and self.last is None


@dataclass
class Chosen:
    """A part of a loop's events."""

    events: Events
    # the loop's time where it begins, None where that is where the loop does
    begin: int | None = None
    # where it is cut, in a sentence
    cut: str = ""

    def again_line(self) -> int:
        """The line of the log for which the ops stand that make what there was by then; -1 where none do."""
        if self.begin is None:
            return -1
        run = next((at for at, it in enumerate(self.events.said) if it.type == "R"), 0)
        return next((it.line for it in self.events[:run] if it.type == "O"), -1)

    def began(self) -> str:
        return (
            "" if self.begin is None else f"it begins at {self.begin} ms of the loop's time, with what there was then, and its times count from there"
        )


def is_all_of(events: Events) -> bool:
    """Is the first line of this loop in what was kept of a ring? (That stands with the words, too.)"""
    return [it.type for it in events[:2]] == ["L", "L"]


def behind_the_first(events: Events, part: Part) -> tuple[Events, Part]:
    """Nothing before the first place at which all of it was written down can be followed."""
    known = [at for at in starts_of(events) if begin_of(events, at) >= 0]
    if not known:
        raise NoPart("no recording can begin in what was kept of it: there is no place where all that the loop had was written down")
    first = events[known[0] - 1].now
    if part.begin is not None:
        return events, replace(part, begin=max(part.begin, first))
    rest = events[begin_of(events, known[0]) :]
    if part.worst and len(rest.places_of("B")) > part.most:
        return rest, part
    return events, replace(part, begin=first)


def stall_of(events: Events, late: Late) -> Stall:
    """The callback for which a ring was kept apart, or with which that was over."""
    number, open_at = -1, Stall(0, 0, -1)
    for at, (it, clock) in enumerate(zip(events.said, events.clocks)):
        if it.type == "B":
            number += 1
            open_at = Stall(at, number, late.took)
            if late.what != "callback" and clock >= late.clock and (late.id < 0 or it.words.split(" ")[1] == str(late.id)):
                return open_at
        elif it.type == "E" and late.what == "callback" and clock >= late.clock:
            return open_at
    return open_at


def of_late(log: Log, loop: int, late: Late, part: Part) -> Part:
    """A second before what took long, in the time of this loop."""
    begin = late.begin() + log.behind(late.loop) - log.behind(loop) - BEFORE
    return replace(part, begin=max(0, begin))


def chosen(log: Log, loop: int, part: Part) -> Chosen:
    """The part of a loop's events that is asked for."""
    events, kept = log.loops[loop], log.late if part.is_all() and part.worst else None
    if kept:
        part = of_late(log, loop, kept, part)
    is_cut = log.turned and part.last is None and (part.begin is None or kept is not None) and not is_all_of(events)
    if is_cut:
        events, part = behind_the_first(events, part)
    if kept and kept.loop == loop and part.begin is not None and count_from(events, part.begin) > part.most:
        return Chosen(*around(log, events, part.most, is_cut, stall_of(events, kept)))
    if part.begin is None and part.worst and len(events.places_of("B")) > part.most:
        return Chosen(*around(log, events, part.most, is_cut))
    time, found = part.begin if part.last is None else max(0, events[-1].now - part.last), Chosen(events)
    if time is not None and not (kept and not is_cut and is_at_beginning(events, time)):
        found = Chosen(*window(events, time, log.form))
    calls = found.events.places_of("B")
    if len(calls) > part.most:
        found.cut = (
            f"the log has {len(calls)} callbacks, and the first {part.most} were taken: --most N takes another number,"
            " --last SECONDS or --from MS another part"
        )
        found.events = found.events[: calls[part.most]]
    return found


def is_at_beginning(events: Events, time: int) -> bool:
    """Is there no place before this time where a recording can begin, but the loop's first event?"""
    return time == 0 or not any(events[at - 1].now <= time and begin_of(events, at) >= 0 for at in starts_of(events))


def count_from(events: Events, time: int) -> int:
    return sum(it.type == "B" and now >= time for it, now in zip(events.said, events.nows))
