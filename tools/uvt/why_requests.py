"""What became of a stream's requests, and which calls changed nothing, by the notes of a recording. The requests are writes, connects, shutdowns,
and datagrams that are sent.

Each was asked for at a place and a time, and libuv called it back, or hasn't yet. What is said of the time between rests on where the clock went on.
"""

from __future__ import annotations

from uvt.notes import Request, listed
from uvt.walk import Walk

# So many of a stream are told one by one; and so many of all.
EACH, OF_ALL = 4, 5
# In ms: what was under way for less is no part of an overview.
LEAST = 2
WHAT = {"write": "write", "connect": "connect", "shutdown": "shutdown", "send": "datagram"}
# Why it isn't done while the loop waits.
WAITS = {
    "write": "the system had no room for all of it",
    "send": "the system had no room for it",
    "connect": "it wasn't answered",
    "shutdown": "what was written before wasn't done",
}


def is_done(it: Request) -> bool:
    return it.done >= 0


def is_cancelled(it: Request) -> bool:
    return it.status == "ECANCELED"


def away(walk: Walk, it: Request) -> int:
    """How long it was under way, in ms."""
    return (it.done if is_done(it) else walk.clock(walk.length)) - it.asked


def thing(it: Request) -> str:
    """`a write of 512 bytes`."""
    many = f" of {it.bytes} byte{'s' * (it.bytes != 1)}" if it.what in ("write", "send") else ""
    return f"a {WHAT.get(it.what, it.what)}{many}"


def under_way(those: list[Request]) -> str:
    """What is under way at a time: `write 512`, `2 writes 1024`, `connect`; `` where nothing is."""
    told = []
    for what, word in WHAT.items():
        if found := [it for it in those if it.what == what]:
            bytes = f" {sum(it.bytes for it in found)}" if what in ("write", "send") else ""
            told.append(f"{word}{bytes}" if len(found) == 1 else f"{len(found)} {word}s{bytes}")
    return ", ".join(told)


def asked(walk: Walk, it: Request) -> str:
    """When it was asked for, and where."""
    places = walk.notes.places
    place = f", {places[it.place]}" if 0 <= it.place < len(places) else ""
    inside = walk.calls.get(it.asked_step)
    function = walk.notes.function(*inside) if inside else ""
    # (a place says its function: that of the callback is told where it is another one)
    is_told = inside is None or function and function.split(" ")[0] in place.split(" ")
    within = "" if is_told or inside is None else f", in the callback of {inside[1]}" + (f", {function}" if function else "")
    return f"asked for at {it.asked} ms{place}{within}"


def cancelled(walk: Walk, it: Request) -> str:
    """By which close."""
    closes = [at for at in walk.steps_between("close", 1, it.done_step) if walk.line(at) == f"close {it.stream} = ok"]
    return f": the close at step {closes[-1]} cancelled it, {walk.by(closes[-1])}" if closes else ""


def meanwhile(walk: Walk, it: Request) -> str:
    """Who took the time until it was called back: the poll, in which it waited for the system; or the longest callback."""
    if it.done - it.asked < LEAST:
        return ""
    causes = [(took.between(it.asked, it.done), took) for took in walk.causes(it.asked, it.done)]
    polls = sum(ms for ms, took in causes if took.is_poll())
    ms, longest = max(((ms, took) for ms, took in causes if took.is_callback()), key=lambda row: row[0], default=(0, None))
    told = [f"for {polls} of these ms the loop waited in the poll, and {WAITS[it.what]}"] if polls >= LEAST and it.what in WAITS else []
    if longest and ms >= LEAST:
        told.append(f"{longest.what}{f', {longest.function},' if longest.function else ''} took {ms} of them")
    return f": {'; '.join(told)}" if told else ""


def sentence(walk: Walk, it: Request) -> str:
    """What became of one."""
    head = f"{thing(it)}, {asked(walk, it)}"
    if not is_done(it):
        return f"{head}, is under way still"
    later = f"{it.done - it.asked} ms later, at step {it.done_step}"
    if is_cancelled(it):
        return f"{head}, was cancelled {later}{cancelled(walk, it)}"
    if it.status != "ok":
        return f"{head}, failed {later}, with {it.status}"
    return f"{head}, was done {later}{meanwhile(walk, it)}"


def worst(walk: Walk, found: list[Request]) -> list[Request]:
    """Those that weren't done, or not well, and then those that took longest."""
    return sorted(found, key=lambda it: (is_done(it) and it.status == "ok", -away(walk, it)))


def of_stream(walk: Walk, name: str) -> list[str]:
    """What there is to say of the requests of this name."""
    found = [it for it in walk.notes.requests if it.stream == name]
    if not found:
        return []
    counts = []
    for what, word in WHAT.items():
        if these := [it for it in found if it.what == what]:
            size = f", {sum(it.bytes for it in these)} bytes" if what in ("write", "send") else ""
            counts.append(f"{len(these)} {word}{'s' * (len(these) != 1)}{size}")
    told = [it for it in worst(walk, found) if len(found) <= EACH or not is_done(it) or it.status != "ok" or away(walk, it) >= LEAST][:EACH]
    return [f"    its requests: {'; '.join(counts)}", *(f"        {sentence(walk, it)}" for it in told)]


# Why a function changes nothing, and says that all is well.
NOTHING = {"uv_timer_again": "the timer doesn't repeat"}


def nothings(walk: Walk, name: str) -> list[str]:
    """The calls of this name that changed nothing."""
    found: dict[tuple[str, int], list[int]] = {}
    for other, function, step, place in walk.notes.nothings:
        if other == name:
            found.setdefault((function, place), []).append(step)
    lines = []
    for (function, place), steps in found.items():
        where = f" {walk.notes.places[place]}," if 0 <= place < len(walk.notes.places) else ""
        inside = [f"step {it}" for it in steps if it]
        more = [f"{len(inside) - EACH} more"] if len(inside) > EACH else []
        within = f", in the callback of {listed([*inside[:EACH], *more])}" if inside else ""
        times = f", {len(steps)} times" if len(steps) > 1 else ""
        lines.append(f"    {function}{where} did nothing{times}{within}: {NOTHING.get(function, 'nobody knows why')}")
    return lines


def longest(walk: Walk) -> list[str]:
    """Those of all streams that were cancelled, failed, or took long."""
    found = [it for it in worst(walk, walk.notes.requests) if away(walk, it) >= LEAST or not is_done(it) or it.status != "ok"]
    return [f"{away(walk, it)} ms: {it.stream}, {sentence(walk, it)}" for it in found[:OF_ALL]]
