"""A run in the Trace Event Format, for Perfetto and chrome://tracing: the loop with its sections and callbacks, the workers of the pool, the sends,
and the requests.

A ms of the clock is as long as it says; a step takes a microsecond of it, or less where a ms has more than a thousand. Where the clock stands still
the rest of the ms is empty. What is shown is read off the lines of a session and its notes: no state of the loop is asked for.
"""

from __future__ import annotations

import itertools
from typing import Iterator

from uvt.codes import SECTIONS
from uvt.trace_javascript import CALLBACKS, FLAME, JAVASCRIPT, MAIN, JavaScriptTrace
from uvt.waits import History, Wait, follow
from uvt.walk import Walk

LOOP = 1
# The tracks of the loop's process: the loop's thread, what comes from outside, and the workers behind these.
THREAD, OUTSIDE, WORKERS = 1, 2, 10
CATEGORIES = {"on": "callback", "after": "after callback", "closed": "close callback"}
Event = dict[str, object]


class Times:
    """Of each step when it begins and ends, in microseconds."""

    def __init__(self, walk: Walk) -> None:
        self.clocks = walk.clocks
        # of each step, which one of its ms it is, from 0, and how long each of that ms is
        self.place: list[int] = []
        self.unit: dict[int, float] = {}
        for clock, steps in itertools.groupby(range(walk.length + 1), lambda it: walk.clocks[it]):
            count = sum(1 for _ in steps)
            self.place += range(count)
            self.unit[clock] = min(1.0, 1000 / count)

    def begin(self, step: int) -> float:
        clock = self.clocks[step]
        return round(1000 * clock + self.place[step] * self.unit[clock], 3)

    def end(self, step: int) -> float:
        clock = self.clocks[step]
        return round(1000 * clock + (self.place[step] + 1) * self.unit[clock], 3)


class Trace:
    """The events of a session."""

    def __init__(self, walk: Walk) -> None:
        self.walk, self.times = walk, Times(walk)
        self.histories: dict[str, History] = follow(walk, [it for it in walk.script.names() if it in walk.of_name])
        self.events: list[Event] = []
        self.tracks: dict[int, str] = {}
        self.ids = itertools.count(1)
        # the slices of the loop's track that are open, from the outermost on
        self.open: list[str] = []
        # where the clock went on in a callback: the last step of that, by the one that begins it
        self.took = {it.first: it.last for it in walk.tooks if it.is_callback()}
        # the calls of timers that were late
        self.late = {it.end(): it for _, it in self.called("timer") if walk.clock(it.end()) > it.when()}

    def called(self, what: str) -> Iterator[tuple[str, Wait]]:
        return ((name, it) for name, found in self.histories.items() for it in found.waits if it.what == what and it.how == "called")

    def add(self, ph: str, ts: float, tid: int, name: str, cat: str = "", **rest: object) -> None:
        self.tracks.setdefault(tid, "")
        self.events.append({"ph": ph, "ts": ts, "pid": LOOP, "tid": tid, "name": name, **({"cat": cat} if cat else {}), **rest})

    # ---- the loop's thread: the main program and its runs, the sections in these, and the callbacks in these

    def begin(self, ts: float, name: str, cat: str, args: dict[str, object]) -> None:
        self.open.append(name)
        self.add("B", ts, THREAD, name, cat, args=args)

    def close(self, ts: float, depth: int) -> None:
        """Ends the slices of this depth and those in them."""
        while len(self.open) > depth:
            self.add("E", ts, THREAD, self.open.pop())

    def loop(self) -> None:
        walk, times, ends = self.walk, self.times, 0
        for step in range(1, walk.length + 1):
            line, now = walk.lines[step], times.begin(step)
            word = line.split(" ", 1)[0]
            if ends and (step > ends or step in walk.calls):
                self.close(times.end(ends), 2)
                ends = 0
            if step in walk.calls:
                self.close(now, 2)
                self.callback(step, now)
                ends = max(walk.last_of(step), self.took.get(step, 0))
            elif walk.steps[step - 1] != "loop":
                continue
            elif word == "run":
                self.close(now, 0)
                self.begin(now, line, "run", {"step": step})
                self.begin(now, "beginning", "section", {"step": step})
            elif word in SECTIONS:
                self.close(now, 1)
                self.begin(now, word, "section", {"step": step} | ({"timeout": line.split(" ")[1]} if word == "poll" else {}))
            elif word == "end":
                self.close(now, 0)
            elif not self.open:
                self.begin(now, "the main program", "main", {"step": step})
        self.close(times.end(walk.length), 0)

    def callback(self, step: int, now: float) -> None:
        kind, name, call = self.walk.calls[step]
        function = self.walk.notes.function(kind, name, call)
        args: dict[str, object] = {"step": step, "name": name, "call": call}
        args |= {"function": function} if function else {}
        args |= {"came": came} if (came := self.walk.notes.came(name, call)) and self.walk.steps[step - 1].startswith("io ") else {}
        if late := self.late.get(step):
            args["late"] = f"{self.walk.clock(step) - late.when()} ms"
        what = self.walk.notes.in_node(name, kind, call)
        shown = what.words if what else f"{name}: {function}" if function else name
        self.begin(now, shown, CATEGORIES[kind], args)

    # ---- beside it: the pool, the requests, the sends, the timers that are late

    def when(self, step: int) -> float:
        """When a take, a finish or a queueing happened: by the notes where these know better."""
        known = self.walk.notes.times.get(step)
        return self.times.begin(step) if known is None else 1000.0 * known

    def pool(self) -> None:
        ends: dict[int, float] = {}
        rows = [(self.when(it.taken[0]), name, it, it.taken) for name, found in self.histories.items() for it in found.waits if it.taken]
        for begin, name, it, (taken, worker) in sorted(rows, key=lambda row: row[0]):
            tid = WORKERS + worker
            self.tracks[tid] = f"worker {worker}"
            begin = max(begin, ends.get(tid, 0.0))
            ends[tid] = max(begin, self.when(it.finished) if it.finished else self.times.end(self.walk.length))
            guessed = {taken, it.finished} & self.walk.notes.guessed
            self.add("X", begin, tid, name, "pool", dur=round(ends[tid] - begin, 3), args={"step": taken, "seen": not guessed})

    def span(self, cat: str, name: str, begin: float, end: float, **args: object) -> None:
        """Something that is under way beside the loop, from one time to another."""
        number = f"0x{next(self.ids):x}"
        self.add("b", begin, THREAD, name, cat, id=number, args=args)
        self.add("e", max(begin, end), THREAD, name, cat, id=number)

    def requests(self) -> None:
        last = self.times.end(self.walk.length)
        for name, found in self.histories.items():
            for it in found.waits:
                if it.what == "work":
                    end = self.times.begin(it.ended) if it.ended else last
                    self.span("request", name, self.when(it.asked), end, step=it.asked, outcome="cancelled" if it.cancelled else it.how)
        for request in self.walk.notes.requests:
            end = 1000.0 * request.done if request.done >= 0 else last
            self.span("stream", f"{request.what} of {request.stream}", 1000.0 * request.asked, end, bytes=request.bytes, status=request.status)

    def late_timers(self) -> None:
        for step, it in self.late.items():
            name = self.walk.calls[step][1]
            self.span(
                "late timer", f"{name} is due", 1000.0 * it.when(), self.times.begin(step), step=step, late=f"{self.walk.clock(step) - it.when()} ms"
            )

    def sends(self) -> None:
        """An arrow from each send to the call that it is for."""
        for name, it in self.called("async"):
            for step in (it.asked, *it.more):
                number, outside = next(self.ids), self.walk.steps[step - 1] != "loop"
                begin = self.times.begin(step)
                if outside:
                    self.tracks[OUTSIDE] = "from outside"
                    args: dict[str, object] = {"step": step, "seen": step not in self.walk.notes.guessed}
                    args |= {"by": by} if (by := self.walk.notes.by.get(step)) else {}
                    self.add("X", begin, OUTSIDE, f"send {name}", "send", dur=round(self.times.end(step) - begin, 3), args=args)
                self.add("s", begin, OUTSIDE if outside else THREAD, "send", "send", id=number)
                self.add("f", self.times.begin(it.end()), THREAD, "send", "send", id=number, bp="e")

    def named(self) -> list[Event]:
        """What the tracks are called, and in which order they stand."""
        loop = f"loop {self.walk.notes.loop}" if self.walk.notes.names else "the loop"
        names = {THREAD: "callbacks"} | {tid: name for tid, name in sorted(self.tracks.items()) if name}
        found: list[Event] = [metadata(LOOP, 0, "process_name", name=loop)]
        for tid, name in names.items():
            found += [metadata(LOOP, tid, "thread_name", name=name), metadata(LOOP, tid, "thread_sort_index", sort_index=tid)]
        return found

    def all(self) -> list[Event]:
        self.loop()
        self.pool()
        self.requests()
        self.late_timers()
        self.sends()
        events = [*self.named(), *self.events, *of_javascript(self.walk, self.times, self.histories)]
        # (DevTools takes them in their order; of slices that begin at once the outer one comes first)
        return sorted(events, key=in_order)


def in_order(event: Event) -> tuple[bool, float, float]:
    dur = event.get("dur", 0.0)
    ts = event["ts"]
    return event["ph"] != "M", float(ts) if isinstance(ts, (int, float)) else 0.0, -float(dur) if isinstance(dur, (int, float)) else 0.0


def metadata(pid: int, tid: int, what: str, **args: object) -> Event:
    return {"ph": "M", "ts": 0, "pid": pid, "tid": tid, "name": what, "args": args}


def of_javascript(walk: Walk, times: Times, histories: dict[str, History]) -> list[Event]:
    """What JavaScript did, on a page's thread."""
    javascript = walk.notes.javascript
    if not javascript:
        return []
    found = [
        metadata(JAVASCRIPT, 0, "process_name", name=javascript.language),
        metadata(JAVASCRIPT, MAIN, "thread_name", name="CrRendererMain"),
        metadata(JAVASCRIPT, FLAME, "thread_name", name="functions that were found under way"),
        metadata(JAVASCRIPT, CALLBACKS, "thread_name", name="callbacks"),
    ]
    return [*found, *JavaScriptTrace(walk, times).all({name: it.waits for name, it in histories.items()})]


def trace_events(walk: Walk) -> dict[str, object]:
    """All of it, as the format's object."""
    return {"traceEvents": Trace(walk).all(), "displayTimeUnit": "ms"}
