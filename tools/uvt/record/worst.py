"""The part of a long log that has the longest stall: found by the log's clocks, before anything is followed."""

from __future__ import annotations

from dataclasses import dataclass

from uvt.record.events import NO_CLOCK, Events
from uvt.record.log import Log
from uvt.record.window import NoPart, starts_of, window


@dataclass
class Stall:
    """A callback: the event that begins it, which of the callbacks it is, from 0, and how many ms it took."""

    at: int
    number: int
    took: int


def worst_of(events: Events) -> Stall:
    """The callback that took longest; the first one where none took any."""
    best, depth, number, begun = Stall(0, 0, -1), 0, -1, 0
    clocks = events.clocks
    for at, it in enumerate(events.said):
        if it.type == "B":
            number += 1
            if not depth:
                begun, first = at, number
            depth += 1
        elif it.type == "E" and depth:
            depth -= 1
            if not depth and NO_CLOCK not in (clocks[at], clocks[begun]) and clocks[at] - clocks[begun] > best.took:
                best = Stall(begun, first, clocks[at] - clocks[begun])
    return best


def function_of(log: Log, events: Events, at: int) -> str:
    """Which function of the program this callback is, in words; `` where nobody knows."""
    callback, id, *what = events[at].words.split(" ")
    wanted = what[0] if callback == "on" else callback
    for it in reversed(events.said[:at]):
        if it.type == "C" and (words := it.words.split(" "))[0] == id and wanted in words[2:]:
            address = log.addresses.get(int(words[1]))
            source = address.source() if address else ""
            return f", in {address.name()}" + (f" ({source})" if source else "") if address and address.symbol != "-" else ""
    return ""


def around(log: Log, events: Events, most: int, is_cut: bool, stall: Stall | None = None) -> tuple[Events, int | None, str]:
    """As many callbacks as are wanted, with the longest one (or this one) among them, from a place where a recording can begin; at which time of the
    loop it begins, None where that is its own beginning; and which part that is, in a sentence. Which callback is the longest is said at once. With
    `is_cut` these events aren't the loop's first ones: the recording begins where all that there was is written down, then."""
    calls = events.places_of("B")
    longest, stall = stall is None, stall or worst_of(events)
    took = f"{stall.took} ms at {events[stall.at].clock} ms{function_of(log, events, stall.at)}" if stall.took >= 0 else "no time that is known"
    part, begin, before = begun_near(events, stall, [most // 2, most // 10, 1] if stall.number >= most else [], most, log.form)
    if begin is None and is_cut:
        part, begin = window(events, events[starts_of(events)[0] - 1].now, log.form)
        before = callbacks_before(part, events.lines[stall.at])
    begun = part.places_of("B")
    # (where a recording can't begin near to it there are some more)
    count = min(len(begun), max(most, before + most // 4))
    # (said at once: to follow them takes longer)
    if longest:
        print(f"the longest of {len(calls)} callbacks took {took}; the {count} around it are followed", flush=True)
    said = (
        f"the log has {len(calls)} callbacks, and the {count} around {'the longest one' if longest else 'what it was kept for'} were taken:"
        " --most N takes the first N, --last SECONDS or --from MS another part"
    )
    return part[: begun[count]] if len(begun) > count else part, begin, said


def callbacks_before(events: Events, line: int) -> int:
    return sum(it.type == "B" and its < line for it, its in zip(events.said, events.lines))


def begun_near(events: Events, stall: Stall, distances: list[int], most: int, form: int) -> tuple[Events, int | None, int]:
    """The events from a place on that lies so many callbacks before this one, at first, and then nearer; all of them where no recording can begin
    there. With that the time at which it begins, and how many callbacks stand before this one then."""
    calls = events.places_of("B")
    part, begin, before = events, None, stall.number
    for distance in distances:
        try:
            part, begin = window(events, events.nows[calls[stall.number - distance]], form)
        except NoPart:
            continue
        before = callbacks_before(part, events.lines[stall.at])
        if before < most:
            break
    return part, begin, before
