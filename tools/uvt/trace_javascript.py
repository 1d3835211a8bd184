"""What JavaScript did, in the Trace Event Format: as Chrome's DevTools write it of a page, so that their Performance panel shows it as a program's
main thread; and a flame of slices for Perfetto, which has no samples.

The main thread has a task for each callback of the loop, in it the calls of timers, each with the line that started it, and V8's samples. A track of
its own has the timers that were late, each with the sentence of `why`; others have the workers of the pool, and which line asked for a request. (In
Python and Lua it is the same.)
"""

from __future__ import annotations

import bisect
import collections
import itertools
import json
from dataclasses import dataclass, field
from typing import TYPE_CHECKING, Iterator

from uvt.javascript_pieces import LEAST, OUTSIDE, Place, Span, at
from uvt.trace_sources import Sources, split
from uvt.waits import Wait
from uvt.why_javascript import WhyJavaScript

if TYPE_CHECKING:
    from uvt.trace_event import Times
    from uvt.walk import Walk

Event = dict[str, object]
# The process of JavaScript, and its tracks: the one that DevTools know as a page's, the flame, the callbacks, and those that DevTools alone show.
JAVASCRIPT, MAIN, FLAME, CALLBACKS = 2, 1, 2, 3
DEVTOOLS, TIMELINE, USER = "devtools.timeline", "disabled-by-default-devtools.timeline", "blink.user_timing"
ASYNC = "v8.inspector"
PROFILER = "disabled-by-default-v8.cpu_profiler"
# So many late timers have their sentence, the latest.
SENTENCES = 200
# A sample may lie so far before or behind its callback, in thousandths of a ms: the clock of callbacks has whole ms.
SLACK = 1000
# So far lie two samples apart where nothing changes.
EACH = 1000
ROOT, PROGRAM, IDLE = 1, 2, 3
# When a profile begins: DevTools take 0 for no time at all.
START = 1_000_000


@dataclass
class Task:
    """A callback of the loop, or the main program."""

    step: int
    name: str
    begin: float
    end: float
    spans: list[Span] = field(default_factory=list)


class JavaScriptTrace:
    """The events of a session's JavaScript."""

    def __init__(self, walk: Walk, times: Times) -> None:
        self.walk, self.times, self.js = walk, times, walk.notes.javascript
        self.sources = Sources(self.js)
        self.ids = itertools.count(1)
        self.events: list[Event] = []
        self.tasks = list(self.all_tasks())
        self.begins = [it.begin for it in self.tasks]
        self.called: set[int] = set()
        self.of_step = {it.step: it for it in self.tasks}
        # of a callback of the loop that a request of the pool has: the request; and the times at which an arrow begins or ends
        self.done: dict[int, tuple[str, Wait]] = {}
        self.arrows: set[float] = set()

    def add(self, ph: str, ts: float, name: str, cat: str, tid: int = MAIN, **rest: object) -> None:
        self.events.append({"ph": ph, "ts": round(ts, 3), "pid": JAVASCRIPT, "tid": tid, "name": name, "cat": cat, **rest})

    # ---- the main thread

    def all_tasks(self) -> Iterator[Task]:
        walk, times = self.walk, self.times
        took = {it.first: it.last for it in walk.tooks if it.is_callback()}
        first = walk.words.get("run", [walk.length])[0]
        yield Task(0, "the main program", 0.0, times.begin(first))
        for step, (kind, name, call) in walk.calls.items():
            what = walk.notes.in_node(name, kind, call)
            begin, end = times.begin(step), times.end(max(walk.last_of(step), took.get(step, 0)))
            yield Task(step, what.words if what else name, begin, end)

    def main(self) -> None:
        by_call = {call: step for step, call in self.walk.calls.items()}
        for span in self.js.spans:
            if task := self.of_step.get(by_call.get(span.call, 0)):
                task.spans.append(span)
        for task in self.tasks:
            args = {"step": task.step, "callback": task.name}
            self.add("X", task.begin, "RunTask", TIMELINE, dur=round(task.end - task.begin, 3), args=args)
            last = task.begin
            if task.step in self.done and not task.spans:
                self.request(task)
            for span in sorted(task.spans, key=lambda it: it.begin):
                begin = min(task.end, max(last, 1000.0 * span.begin))
                last = min(task.end, max(begin, 1000.0 * span.end))
                self.call(task, span, begin, last)

    def call(self, task: Task, span: Span, begin: float, end: float) -> None:
        resource = self.js.resources[span.id]
        who = self.js.who(span)
        data = {"frame": "uvt", "timerId": span.id}
        dur = round(end - begin, 3)
        if resource.kind in ("timer", "interval"):
            told = {"data": data, "function": who.text(), "asked for": resource.asked(), "step": task.step}
            self.add("X", begin, "TimerFire", DEVTOOLS, dur=dur, args=told)
        if resource.id not in self.called:
            self.called.add(resource.id)
            self.arrow(1000.0 * resource.when, begin, dur, resource.what())
        frame = self.sources.called(who)
        args = {"data": data | frame, "what": f"{resource.what()} {resource.asked()}".strip(), "step": task.step}
        self.add("X", begin, "FunctionCall", DEVTOOLS, dur=dur, args=args)

    def task_at(self, when: float) -> Task:
        """The last callback that has begun by then: the clock has whole ms."""
        at = bisect.bisect_right(self.begins, when + SLACK - 1)
        return self.tasks[max(0, at - 1)]

    def free(self, when: float) -> float:
        """A time at which no arrow begins or ends: DevTools know these by their times."""
        while round(when, 3) in self.arrows:
            when += 0.1
        self.arrows.add(round(when, 3))
        return round(when, 3)

    def arrow(self, asked: float, begin: float, dur: float, what: str) -> None:
        """From who asked for a callback to that."""
        task, id = self.task_at(asked), next(self.ids)
        asked, begin = self.free(min(max(asked, task.begin), task.end)), self.free(begin)
        if asked >= begin:
            return
        # (a slice there would end the functions that are under way)
        self.add("I", asked, "v8::Debugger::AsyncTaskScheduled", ASYNC, s="t", args={"taskName": what})
        self.add("s", asked, "asked for", ASYNC, id=id)
        self.add("X", begin, "v8::Debugger::AsyncTaskRun", ASYNC, dur=dur, args={"taskName": what})
        self.add("f", begin, "asked for", ASYNC, id=id, bp="e")

    def request(self, task: Task) -> None:
        """The callback of a request of the pool, and what was found in it."""
        name, wait = self.done[task.step]
        place = self.js.asked.get((name, wait.call))
        looks = self.js.under(round(task.begin) // 1000, -(-round(task.end) // 1000))
        self.arrow(
            1000.0 * self.walk.happened(wait.asked), task.begin, round(task.end - task.begin, 3), f"{name}, asked for {at(place)}" if place else name
        )
        if looks:
            data = {"frame": "uvt"} | self.sources.called(looks[0][0].outer)
            told = {"data": data, "what": f"{name}, asked for {at(place)}" if place else name, "step": task.step}
            self.add("X", task.begin, "FunctionCall", DEVTOOLS, dur=round(task.end - task.begin, 3), args=told)

    def asked(self) -> None:
        """Who started each timer: an event within the callback that did."""
        for it in self.js.resources.values():
            if it.kind not in ("timer", "interval"):
                continue
            task = self.task_at(1000.0 * it.when)
            when = min(max(1000.0 * it.when, task.begin), task.end)
            data = {
                "timerId": it.id,
                "timeout": it.delay,
                "singleShot": it.kind == "timer",
                "frame": "uvt",
                "stackTrace": [self.sources.called(it.at)],
            }
            self.add("I", when, "TimerInstall", DEVTOOLS, s="t", args={"data": data, "function": it.function.text()})

    # ---- samples

    def placed(self) -> list[tuple[float, float, int]]:
        """What was under way and when, without the little that lies before or behind its callback."""
        found: list[tuple[float, float, int]] = []
        tasks, at, last = self.tasks, 0, 0.0
        for begin, end, stack in sorted(self.js.busy):
            first, behind = max(float(begin), last), float(end)
            while at + 1 < len(tasks) and tasks[at].end <= first:
                at += 1
            task = tasks[at]
            if first < task.begin:
                if behind - SLACK <= task.begin and behind <= task.begin:
                    continue
                first = task.begin if task.begin - first <= SLACK else first
            if first < task.end < behind <= task.end + SLACK:
                behind = task.end
            if (
                first >= task.end
                and first - task.end <= SLACK
                and (at + 1 == len(tasks) or behind <= tasks[at + 1].begin)
                and behind - task.end <= SLACK
            ):
                continue
            if behind > first:
                found.append((first, behind, stack))
                last = behind
        return found

    def chain(self, stack: int) -> list[tuple[Place, int]]:
        """The functions of a stack, from the outermost on, each with the line at which it was."""
        found: list[tuple[Place, int]] = []
        while stack >= 0 and stack in self.js.stacks and len(found) < 1000:
            stack, place, line = self.js.stacks[stack]
            found.append((place, line))
        return found[::-1]

    def samples(self) -> tuple[list[dict[str, object]], list[int], list[int], list[int]]:
        """What DevTools make their flame, their tree and their table of functions of: nodes, and of each sample its node, how long it comes behind
        the one before, and its line."""
        nodes: list[dict[str, object]] = []
        numbers: dict[tuple[int, Place], int] = {}
        for number, name in ((ROOT, "(root)"), (PROGRAM, "(program)"), (IDLE, "(idle)")):
            frame = {"functionName": name, "scriptId": "0", "url": "", "lineNumber": -1, "columnNumber": -1, "codeType": "other"}
            nodes.append({"id": number, "callFrame": frame} | ({"parent": ROOT} if number != ROOT else {}))
        taken: list[int] = []
        deltas: list[int] = []
        lines: list[int] = []
        now = 0

        def sample(when: float, node: int, line: int) -> None:
            nonlocal now
            taken.append(node)
            lines.append(line)
            deltas.append(max(0, round(when) - now))
            now = max(now, round(when))

        rows = self.placed()
        for (begin, end, stack), after in zip(rows, [*(it[0] for it in rows[1:]), None]):
            node, line = ROOT, 0
            for place, line in self.chain(stack):
                key = node, place
                if key not in numbers:
                    numbers[key] = len(nodes) + 1
                    kind = "other" if place.where == "-" else "JS"
                    nodes.append({"id": numbers[key], "parent": node, "callFrame": self.sources.frame(place) | {"codeType": kind}})
                node = numbers[key]
            # (a sample holds until the next one: so in a long time there are several)
            for when in (begin, *range(int(begin) + EACH, int(end), EACH)):
                sample(when, node, line)
            if after is None or after > end:
                sample(max(begin, end - 1), node, line)
                sample(end, IDLE, 0)
        return nodes, taken, deltas, lines

    def profile(self) -> None:
        nodes, taken, deltas, lines = self.samples()
        self.add("P", 0, "Profile", PROFILER, id="0x1", args={"data": {"startTime": 0}})
        chunk = {"cpuProfile": {"nodes": nodes, "samples": taken}, "timeDeltas": deltas, "lines": lines}
        self.add("P", sum(deltas), "ProfileChunk", PROFILER, id="0x1", args={"data": chunk})

    def flame(self) -> None:
        """The same as slices: those of a function that go on from one sample to the next are one."""
        open: list[tuple[Place, float]] = []
        last = 0.0

        def end(depth: int, when: float) -> None:
            while len(open) > depth:
                place, begin = open.pop()
                self.add("X", begin, place.text(), self.js.language, FLAME, dur=round(when - begin, 3))

        for begin, behind, stack in self.placed():
            chain = [place for place, _ in self.chain(stack)]
            same = 0
            while begin - last < 100 and same < min(len(open), len(chain)) and open[same][0] == chain[same]:
                same += 1
            end(same, last if begin - last >= 100 or same < len(open) else begin)
            start = max(begin, last)
            open += [(it, start) for it in chain[same:]]
            last = behind
        end(0, last)

    # ---- tracks that DevTools show by the marks and measures of a page

    def measure(self, track: str, name: str, begin: float, end: float, color: str, told: str, rows: list[tuple[str, str]], group: str = "") -> None:
        number = {"local": f"0x{next(self.ids):x}"}
        shown = {"dataType": "track-entry", "track": track, "color": color, "tooltipText": told, "properties": [list(it) for it in rows]}
        shown |= {"trackGroup": group} if group else {}
        detail = json.dumps({"devtools": shown})
        self.add("b", begin, name, USER, id2=number, args={"detail": detail, **dict(rows)})
        self.add("e", max(begin, end), name, USER, id2=number)

    def late(self) -> None:
        answers = WhyJavaScript(self.walk)
        found = [it for it in self.js.spans if it.due is not None and answers.late(it) >= LEAST and self.js.resources[it.id].is_programs()]
        for span in sorted(found, key=answers.late, reverse=True)[:SENTENCES]:
            resource, late = self.js.resources[span.id], answers.late(span)
            why, below = answers.delay(span)
            name = f"{resource.named()} is late by {late} ms"
            rows = [("why", why), *[("where", it) for it in below[:1]], ("timer", ", ".join(filter(None, [resource.what(), resource.asked()])))]
            rows += [("asked for", chain)] if (chain := answers.origins.chain(resource.id)) else []
            rows += [("due", f"{span.due} ms"), ("called", f"{span.begin} ms, {answers.where(span)}")]
            self.measure("late timers", name, 1000.0 * (span.due or 0), 1000.0 * span.begin, "error", f"late by {late} ms: {why}", rows)

    def pool(self, histories: dict[str, list[Wait]]) -> None:
        """The requests that a worker had, each with the line that asked for it; and how long each waited for a worker, and then for the loop."""
        rows = sorted(
            ((self.walk.happened(it.taken[0]), name, it) for name, waits in histories.items() for it in waits if it.taken), key=lambda row: row[0]
        )
        ends: dict[int, float] = {}
        for taken, name, it in rows:
            worker = it.taken[1] if it.taken else 0
            through = self.walk.happened(it.finished) if it.finished else self.walk.clock(self.walk.length)
            asked, called = self.walk.happened(it.asked), self.walk.clock(it.ended) if it.ended else None
            if {it.taken[0] if it.taken else 0, it.finished} & self.walk.notes.guessed:
                continue
            place = self.js.asked.get((name, it.call))
            told = [("asked for", at(place))] if place else []
            told += [("waited for a worker", f"{max(0, taken - asked)} ms"), ("ran", f"{through - taken} ms")]
            told += [("waited for the loop", f"{called - through} ms")] if called is not None else []
            begin = max(1000.0 * taken, ends.get(worker, 0.0))
            ends[worker] = max(begin, 1000.0 * through)
            words = f"{name}, asked for {at(place)}" if place else name
            self.measure(f"worker {worker}", name, begin, ends[worker], "tertiary-light", words, told, "libuv's pool")

    def callbacks(self) -> None:
        """(A callback may be in another one's time, and the clock has whole ms: so they are no slices of one track.)"""
        for span in self.js.spans:
            resource, end = self.js.resources[span.id], max(span.begin, span.end)
            name, id = self.js.who(span).text(), f"0x{span.id:x}.{next(self.ids):x}"
            self.add("b", 1000.0 * span.begin, name, self.js.language, CALLBACKS, id=id, args={"what": f"{resource.what()} {resource.asked()}"})
            self.add("e", 1000.0 * end, name, self.js.language, CALLBACKS, id=id)

    def all(self, histories: dict[str, list[Wait]]) -> list[Event]:
        self.done = {
            it.ended: (name, it) for name, waits in histories.items() for it in waits if it.what == "work" and it.how == "called" and it.ended
        }
        self.main()
        self.asked()
        self.profile()
        self.flame()
        self.late()
        self.pool(histories)
        self.callbacks()
        page = {
            "frame": "uvt",
            "name": "",
            "processId": JAVASCRIPT,
            "url": self.sources.url(self.file()),
            "isOutermostMainFrame": True,
            "isInPrimaryMainFrame": True,
        }
        data = {"frameTreeNodeId": 1, "persistentIds": True, "frames": [page]}
        begun: Event = {"ph": "I", "ts": 0, "pid": JAVASCRIPT, "tid": MAIN, "name": "TracingStartedInBrowser", "cat": TIMELINE, "s": "t"}
        return [begun | {"args": {"data": data}}, *self.events]

    def file(self) -> str:
        """The program's file: that of the outermost function that was found."""
        for begin, end, stack in self.js.busy:
            for place, _ in self.chain(stack):
                file, _ = split(place.where)
                if file not in ("-", "") and not file.startswith(OUTSIDE):
                    return file
        return next((split(it.at.where)[0] for it in self.js.resources.values() if it.at.where != "-"), "-")


def cpu_profile(walk: Walk, times: Times) -> dict[str, object]:
    """The samples alone, as `node --cpu-prof` writes them: for DevTools and editors."""
    nodes, taken, deltas, lines = JavaScriptTrace(walk, times).samples()
    ticks: dict[int, dict[int, int]] = {}
    hits = collections.Counter(taken)
    children: dict[int, list[int]] = {}
    for node, line in zip(taken, lines):
        if line > 0:
            of = ticks.setdefault(node, {})
            of[line] = of.get(line, 0) + 1
    rows = []
    for it in nodes:
        if isinstance(parent := it.get("parent"), int) and isinstance(id := it["id"], int):
            children.setdefault(parent, []).append(id)
    for it in nodes:
        id = it["id"]
        assert isinstance(id, int)
        row = {"id": id, "callFrame": it["callFrame"], "hitCount": hits.get(id, 0), "children": children.get(id, [])}
        row |= {"positionTicks": [{"line": line, "ticks": count} for line, count in sorted(ticks[id].items())]} if id in ticks else {}
        rows.append(row)
    return {"nodes": rows, "startTime": START, "endTime": START + sum(deltas), "samples": taken, "timeDeltas": deltas}
