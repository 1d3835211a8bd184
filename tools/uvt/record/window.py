"""A part of a log: from a time on, or the last seconds. It begins where the recorder wrote down all that the loop had (lines K).

There the script makes what there was, as it was, and what comes behind is followed as ever.
"""

from __future__ import annotations

import itertools
from collections.abc import Iterable, Iterator

from uvt.conversation import Fault
from uvt.record.events import NO_CLOCK, TIMER_OWN, WATCHERS, Event, Events, Said


class NoPart(Fault):
    """A loop of which no recording can begin there."""


def starts_of(events: Events) -> list[int]:
    """Where the recorder wrote down all of it: the places behind these lines, with a poll next."""
    return [at + 1 for at, it in enumerate(events.said) if it.type == "K" and it.words == "end"]


FIRST = (" idle", " prepare")


def all_before(events: Events, at: int) -> int:
    """Where the last line in front of this place stands that says that all is written down."""
    said = events.said
    return next(it for it in range(at - 1, -1, -1) if said[it].type == "K" and said[it].words == "all")


def front_of(events: Events, at: int) -> tuple[int, int]:
    """Of all that was written down with its end in front of this place: its own line, and the first one that belongs to it."""
    all_at = all_before(events, at)
    front = all_at
    # (in a ring the places, the callbacks and what an interpreter is to call stand in front of it)
    while front and (events[front - 1].type in "CV" or was(events[front - 1])):
        front -= 1
    return all_at, front


def called_before(events: Events, front: int, end: int) -> tuple[int, bool]:
    """The first event of the callbacks of idle and prepare handles in front of what was written down between these places; and whether they can't be
    taken as they are: they ask something, which stands in that too, or it is of a loop that waited, and they stand in front of its poll."""
    at, asks = front, next((it.type == "p" for it in itertools.islice(events.said, end, None) if it.type in "Pp"), False)
    if asks:
        return at, asks
    while at and (events[at - 1].type == "E" or events[at - 1].type == "B" and events[at - 1].words.endswith(FIRST)):
        begun = next((it for it in range(at - 1, -1, -1) if events.said[it].type == "B"), 0)
        if not events[begun].words.endswith(FIRST):
            break
        asks |= any(it.type == "O" for it in events.said[begun:at])
        at = begun
    return at, asks


def begin_of(events: Events, at: int) -> int:
    """The first event of the iteration whose poll comes next: the callbacks of idle and prepare handles before it, where these ask nothing. -1 where
    none can begin there."""
    all_at, front = front_of(events, at)
    begin, asks = called_before(events, front, at)
    # (a timer that is due already, since one of these has started it: it would be called in front of them)
    if any(is_due(it) for it in events.said[all_at:at]):
        return -1
    # (the first events of a ring: of the iteration there may have been more)
    is_first = all(it.type in "CVL" or was(it) for it in itertools.islice(events.said, begin))
    if is_first and any(is_called_first(it) for it in events.said[all_at:at]):
        return -1
    return front if asks else begin


def is_due(event: Said) -> bool:
    words = event.words.split(" ")
    return event.type == "K" and len(words) > 5 and words[1:3] == ["timer", "1"] and words[5] == "0"


def called_again(events: Events, at: int) -> list[Event]:
    """Where the callbacks of idle and prepare handles in front of the poll can't be taken as they are: those of the handles that are active behind
    them, without what they ask. The last one that was started comes first."""
    all_at, front = front_of(events, at)
    if not called_before(events, front, at)[1]:
        return []
    rows = [it.words.split(" ") for it in events.said[all_at + 1 : at - 1] if is_called_first(it)]
    rows.sort(key=lambda it: (it[1], -int(it[7])))
    line = events.lines[all_at]
    return [Event(type, 0, 0, words, line) for id, kind, *_ in rows for type, words in (("B", f"on {id} {kind}"), ("E", id))]


def was(event: Event | Said) -> bool:
    """Does it tell again what an interpreter had asked for, or in which thread it is?"""
    return event.type == "J" and event.words.startswith(("was ", "thread "))


def is_called_first(event: Said) -> bool:
    """Is it the line of all that there was of a handle that is called before the poll?"""
    words = event.words.split(" ")
    return event.type == "K" and len(words) > 2 and words[1] in ("idle", "prepare") and words[2] == "1"


def made_again(events: Events, at: int, form: int) -> list[Event]:
    """The ops that make what there was. (In logs of form 1 REF of a watcher is whether it counts, and it makes it unreferenced.)"""
    all_at = all_before(events, at)
    rows = sorted((it.words.split(" ") for it in events.said[all_at + 1 : at - 1]), key=lambda it: int(it[0]))
    may_start, ops = (TIMER_OWN - {"async", "timer"}) | (WATCHERS if form > 1 else set()), []
    for id, kind, *_ in rows:
        ops.append(f"init %{id} {kind} = ok" if kind in TIMER_OWN | WATCHERS else f"queue %{id} {kind} = ok")
    for id, kind, active, _, closing, due, repeat, _ in sorted(rows, key=lambda it: int(it[7])):
        if kind == "timer" and active == "1":
            ops.append(f"start %{id} {due} {repeat} = ok")
        elif kind == "timer" and repeat != "0":
            ops.append(f"repeat %{id} {repeat} = ok")
        elif kind in may_start and active == "1":
            ops.append(f"start %{id} = ok")
    for id, kind, _, referenced, closing, *_ in rows:
        if kind in TIMER_OWN | (WATCHERS if form > 1 else set()) and referenced == "0":
            ops.append(f"unref %{id} = ok")
        elif kind in WATCHERS and form == 1 and referenced == "1":
            ops.append(f"ref %{id} = ok")
        if closing == "1":
            ops.append(f"close %{id} = ok")
    return [Event("O", 0, NO_CLOCK, it, events.lines[all_at]) for it in ops]


def moved(event: Event, now: int) -> Event:
    """Its times count from there."""
    if event.type == "J" and event.words.startswith(("busy ", "gc ")):
        words = event.words.split(" ")
        begin = 2 if words[0] == "busy" else 1
        words[begin] = str(max(0, int(words[begin]) - 1000 * now))
        event = event._replace(words=" ".join(words))
    elif event.type == "J" and event.words.startswith("thread ") and event.words.count(" ") == 2:
        word, thread, behind = event.words.split(" ")
        event = event._replace(words=f"{word} {thread} {int(behind) - now}")
    return event._replace(now=max(0, event.now - now), clock=event.clock if event.clock == NO_CLOCK else max(0, event.clock - now))


def with_poll(events: Iterable[Event]) -> Iterator[Event]:
    """(All of a loop that waits is written down behind its poll, and the poll once more.)"""
    front = True
    for it in events:
        yield it._replace(type="P") if front and it.type == "p" else it
        front &= was(it)


def window(events: Events, time: int, form: int) -> tuple[Events, int]:
    """The events from this time of the loop on, or from a little before; and the time at which they begin."""
    known = [at for at in starts_of(events) if begin_of(events, at) >= 0]
    before = [at for at in known if events.nows[at - 1] <= time]
    if not before:
        nothing = ", since nothing of it was written down (a short log, or an old one)"
        first = f": it is possible from {events[known[0] - 1].now} ms on" if known else nothing
        raise NoPart(f"no recording can begin at {time} ms of the log{first}")
    at = before[-1]
    now, begin = events[at - 1].now, begin_of(events, at)
    mode = next((it.words.split(" ")[0] for it in reversed(events.said[:begin]) if it.type == "R"), "default")
    places = [events[it] for it in events[:at].places_of("CV")]
    line = events.lines[at - 1]
    kept = with_poll(it for it in events[begin:] if it.type != "K" and (it.type not in "CV" or it.line > line))
    run = Event("R", 0, NO_CLOCK, mode, line)
    # (in which thread of node's it is, and which time node has)
    thread = [moved(events[it], now) for it in events[:begin].places_of("J") if events.said[it].words.startswith("thread ")][-1:]
    rows = [places, thread, made_again(events, at, form), [run], called_again(events, at), (moved(it, now) for it in kept)]
    return Events(itertools.chain.from_iterable(rows)), now
