"""Two recordings of one program, the one beside the other: what was later in the second, and why, and where the two part.

Callbacks are set beside each other by their names and which call of that it is; where a name has a number that differs from run to run, by their
functions. What others had of the processor is left out, where that is known, and what differs less than the first run does by itself.
"""

from __future__ import annotations

import collections
import difflib
import functools
import re
from collections.abc import Iterator
from dataclasses import dataclass

from uvt.waits import History, Wait, follow
from uvt.took import Took
from uvt.walk import Walk
from uvt.causes import few
from uvt.notes import times
from uvt.why import Why
from uvt.why_asked import CALLS

# A difference of so many ms is one; and so many lines each part has at the most.
LEAST, LINES, BEHIND, NEXT = 3, 5, 4, 3
# So many calls of a function are many: then they are told together.
MANY_CALLS = 20
# The order of so many callbacks is compared beyond the first difference.
IN_ORDER = 4000
ONE = {"on": "call", "after": "after callback", "closed": "close callback"}


@dataclass
class Called:
    """A callback of a run."""

    step: int
    kind: str
    name: str
    number: int
    function: str
    begin: int
    took: int
    # of that what others had of the processor
    others: int
    cause: Took | None
    wait: Wait | None

    def own(self) -> int:
        return self.took - self.others

    def gross(self) -> str:
        """What it took, and what of that is left out as they are compared."""
        return f"{self.took} ms{f', of which others had the processor for {self.others}' if self.others else ''}"

    def told(self) -> str:
        function = f" ({self.function.replace(' (', ', ').rstrip(')')})" if self.function else ""
        return f"{self.name}, {ONE[self.kind]} {self.number}{function}"

    def bare(self) -> str:
        """Its function without its line, which another version of the program may have elsewhere."""
        return f"{'' if self.kind == 'on' else CALLS.get(self.kind, ONE[self.kind]) + ' '}{self.function.split(' (')[0] or self.name}"


class Run:
    """A recording with its callbacks, and who waited for them."""

    def __init__(self, walk: Walk, file: str) -> None:
        self.walk, self.file = walk, file
        names = [it for it in walk.script.names() if it in walk.of_name]
        self.histories: dict[str, History] = follow(walk, names)
        waits = {it.ended: it for history in self.histories.values() for it in history.waits if it.how == "called"}
        tooks = {it.first: it for it in walk.tooks if it.is_callback()}
        self.calls = [self.called(step, *it, tooks.get(step), waits.get(step)) for step, it in sorted(walk.calls.items()) if it[1] != "wake"]
        self.by_key = {(it.kind, it.name, it.number): it for it in self.calls}
        self.whys: dict[str, Why] = {}

    def called(self, step: int, kind: str, name: str, number: int, cause: Took | None, wait: Wait | None) -> Called:
        took = cause.took() if cause else 0
        spent = cause.spent if cause else None
        others = min(max(0, spent.waited), max(0, took - max(0, cause.processor))) if cause and spent and spent.gave >= 0 else 0
        return Called(step, kind, name, number, self.walk.notes.function(kind, name, number), self.walk.clock(step), took, others, cause, wait)

    def is_variable(self, name: str) -> bool:
        """Does its name come from where it lies, so that its number says which it is?"""
        return self.walk.notes.names.get(name, ("", ""))[1].startswith("the variable ")

    def key(self, call: Called) -> tuple[str, str]:
        return call.kind, call.name if self.is_variable(call.name) else numbered(call.name)

    def why(self, name: str) -> Why:
        if name not in self.whys:
            self.whys[name] = Why(self.walk, name, self.histories[name])
        return self.whys[name]

    def from_when(self, call: Called) -> int | None:
        """From when on it might have been called: as a timer is due, an async handle is sent to, a request is queued. None where nobody knows."""
        wait = call.wait
        if wait is None or wait.asked in self.walk.notes.guessed:
            return None
        if wait.what == "timer":
            return wait.due
        return self.walk.clock(wait.asked) if wait.what in ("async", "work") else None

    def late(self, call: Called) -> int:
        begin = self.from_when(call)
        return max(0, call.begin - begin) if begin is not None else 0

    def behind(self, call: Called) -> list[Took]:
        """Where the time went by that it was late."""
        begin = self.from_when(call)
        return self.walk.causes(begin, call.begin) if begin is not None else []

    def worker(self, call: Called) -> tuple[int, int] | None:
        """Of an after callback: how long its request waited for a worker, and how long that had it."""
        wait = call.wait
        if not wait or not wait.taken or not wait.finished or {wait.taken[0], wait.finished} & self.walk.notes.guessed:
            return None
        taken, finished = self.walk.happened(wait.taken[0]), self.walk.happened(wait.finished)
        spent = self.walk.notes.spent.get(("work", call.name, call.number))
        others = min(max(0, spent.waited), finished - taken) if spent and spent.gave >= 0 else 0
        return taken - self.walk.clock(wait.asked), finished - taken - others


def spreads(run: Run, of: str) -> dict[str, int]:
    """By function: how much its calls differ in this run."""
    found: dict[str, list[int]] = collections.defaultdict(list)
    for it in run.calls:
        found[it.bare()].append(it.own() if of == "took" else run.late(it))
    return {function: max(rows) - min(rows) for function, rows in found.items()}


def numbered(text: str) -> str:
    """A name without its number, by which those of one function differ; the same of each name of an op."""
    return re.sub(r"(?<=[a-z])_\d+(?= |$)", "", text)


class Beside:
    def __init__(self, good: Run, bad: Run) -> None:
        self.good, self.bad = good, bad
        self.pairs = list(self.paired())
        self.many = {it for it, count in collections.Counter(it.bare() for it in good.calls).items() if count >= LINES}
        self.noise = spreads(good, "took")
        self.noise_late = spreads(good, "late")

    def paired(self) -> Iterator[tuple[Called, Called]]:
        """Names whose number says nothing are set beside each other by their order among those of their function, where these are as many."""
        counts = [collections.Counter(numbered(it) for it in run.histories) for run in (self.good, self.bad)]
        for it in self.bad.calls:
            other = self.good.by_key.get((it.kind, it.name, it.number))
            base = numbered(it.name)
            if other and (base == it.name or self.good.is_variable(it.name) or counts[0][base] == counts[1][base]):
                yield other, it

    # ---- the whole answer

    def answer(self) -> list[str]:
        good, bad = self.good, self.bad
        lines = [f"{run.file}: {times(len(run.calls), 'callback')}, {run.walk.clock(run.walk.length)} ms" for run in (good, bad)]
        lines += [f"{run.file}: {it}" for run in (good, bad) for it in run.walk.notes.loud()[:LINES]]
        parts = (
            ("what took longer", self.longer()),
            ("what was later", self.later()),
            ("by function", self.functions()),
            ("where they part", self.order()),
        )
        for head, rows in (*parts, ("what is only in one of them", self.alone())):
            lines += [head, *(f"    {it}" for it in rows)] if rows else []
        if not any(rows for _, rows in parts):
            lines.append("nothing took longer or was later than in the first one")
        return lines

    # ---- what took longer, and who waited for that

    @functools.cached_property
    def worse(self) -> list[tuple[int, Called, Called]]:
        found = []
        for good, bad in self.pairs:
            more = bad.own() - good.own()
            if more >= max(LEAST, 2 * self.noise.get(bad.bare(), 0) if self.is_many(good) else LEAST):
                found.append((more, good, bad))
        return sorted(found, key=lambda it: -it[0])

    def is_many(self, call: Called) -> bool:
        return call.bare() in self.many

    def longer(self) -> list[str]:
        rows, told = [], self.worse
        for _, good, bad in told[:LINES]:
            cause = bad.cause
            on, did = (cause.on_processor(), cause.did()) if cause else ("", "")
            rows.append(f"{bad.told()}: took {bad.took} ms{on} (in {self.good.file} {good.gross()}){did}")
            rows += [f"    behind it: {it}" for it in self.waited_for(bad)]
        if len(told) > LINES:
            rows.append(f"and {len(told) - LINES} more")
        return rows + self.longer_requests()

    def longer_requests(self) -> list[str]:
        """The requests of one function are one story: the one that differs most, and how many more do."""
        by: dict[str, list[tuple[int, str]]] = {}
        for more, function, text in sorted(self.workers(), key=lambda it: -it[0]):
            by.setdefault(function, []).append((more, text))
        return [it[0][1] + self.others_of(function, it[1:]) for function, it in list(by.items())[:LINES]]

    def others_of(self, function: str, rows: list[tuple[int, str]]) -> str:
        if not rows:
            return ""
        by = f"{rows[0][0]} ms" if rows[0][0] == rows[-1][0] else f"{rows[-1][0]} to {rows[0][0]} ms"
        return f"; and {times(len(rows), 'more request')} of {function} by {by} more"

    def workers(self) -> Iterator[tuple[int, str, str]]:
        """The requests that waited longer for a worker, or that had one for longer: by how much, and of which function."""
        runs: dict[str, list[tuple[int, int]]] = collections.defaultdict(list)
        for it in self.good.calls:
            if known := self.good.worker(it):
                runs[it.bare()].append(known)
        for good, bad in self.pairs:
            one, two, rows = self.good.worker(good), self.bad.worker(bad), runs[good.bare()]
            parts: list[tuple[int, str]] = []
            for at, what in enumerate(("it waited for a worker", "a worker had it")):
                noise = max(it[at] for it in rows) - min(it[at] for it in rows) if len(rows) >= LINES else 0
                if one and two and two[at] - one[at] >= max(LEAST, 2 * noise):
                    parts.append((two[at] - one[at], f"{what} {two[at]} ms, in {self.good.file} {one[at]} ms{self.worker_did(bad) if at else ''}"))
            if parts:
                function = self.bad.walk.notes.function("work", bad.name, bad.number).split(" (")[0] or numbered(bad.name)
                yield max(it[0] for it in parts), function, f"{bad.name}, request {bad.number}: {'; '.join(text for _, text in parts)}"

    def worker_did(self, call: Called) -> str:
        notes, ran = self.bad.walk.notes, self.bad.worker(call)
        function, spent = notes.function("work", call.name, call.number), notes.spent.get(("work", call.name, call.number))
        did = spent.told(ran[1], notes.processor.get(("work", call.name, call.number), -1)) if spent and ran else ""
        return (f", {function}" if function else "") + did

    def waited_for(self, cause: Called) -> list[str]:
        """Who is late by this callback, and was less so in the first run."""
        rows = []
        for good, bad in self.pairs:
            late, before = self.bad.late(bad), self.good.late(good)
            if late - before >= LEAST and cause.cause in self.bad.behind(bad):
                rows.append(f"{bad.told()}: late by {late} ms, in {self.good.file} {f'by {before} ms' if before else 'on time'}")
        return rows[:BEHIND] + ([f"and {len(rows) - BEHIND} more"] if len(rows) > BEHIND else [])

    # ---- what was later, by something else

    def later(self) -> list[str]:
        told = [it.cause for _, _, it in self.worse if it.cause]
        rows, machine = [], 0
        for good, bad in self.pairs:
            late, before = self.bad.late(bad), self.good.late(good)
            if late - before < LEAST:
                continue
            causes = self.bad.behind(bad)
            if bad.wait and bad.wait.what == "work" and self.bad.worker(bad):
                # (that is told by what its worker did)
                one, two = self.good.worker(good) or (0, 0), self.bad.worker(bad) or (0, 0)
                late -= max(0, sum(two) - sum(one))
            if late - before < LEAST or any(it in told for it in causes):
                continue
            if bad.wait and bad.wait.what == "timer" and causes and all(it.is_poll() for it in causes):
                machine += 1
            elif late - before >= max(LEAST, 2 * self.noise_late.get(bad.bare(), 0) if self.is_many(good) else LEAST):
                begin = bad.begin - late
                rows.append((late - before, begin, bad, f"{bad.told()}: late by {late} ms, in {self.good.file} {before}: "))
        rows.sort(key=lambda it: -it[0])
        found = [text + self.bad.why(bad.name).delay(begin, bad.begin) for _, begin, bad, text in rows[:LINES]]
        return found + ([f"left out: {times(machine, 'call')} that the system alone made later, by a poll that it ended late"] if machine else [])

    # ---- of a server: by function

    def functions(self) -> list[str]:
        both: list[dict[str, list[Called]]] = [collections.defaultdict(list), collections.defaultdict(list)]
        for found, run in zip(both, (self.good, self.bad)):
            for it in run.calls:
                found[it.bare()].append(it)
        rows = []
        for function in {**both[0], **both[1]}:
            good, bad = both[0][function], both[1][function]
            if max(len(good), len(bad)) < MANY_CALLS:
                continue
            one, two = self.numbers(good), self.numbers(bad)
            differs = two[1] - one[1] >= LEAST or two[2] - one[2] >= max(LEAST, one[2] // 4) or 4 * abs(two[0] - one[0]) >= max(one[0], 1)
            if differs:
                longest = max(bad, key=Called.own, default=None)
                at = (
                    f", at {longest.begin} ms, step {longest.step}{longest.cause.did()}"
                    if longest and longest.cause and two[1] - one[1] >= LEAST
                    else ""
                )
                rows.append((two[2] - one[2], f"{function}: {self.row(two)}; in {self.good.file} {self.row(one)}{at}"))
        return [text for _, text in sorted(rows, key=lambda it: -it[0])[: 2 * LINES]]

    def numbers(self, calls: list[Called]) -> tuple[int, int, int]:
        owns = [it.own() for it in calls]
        return len(owns), max(owns, default=0), sum(owns)

    def row(self, numbers: tuple[int, int, int]) -> str:
        return f"{times(numbers[0], 'call')}, the longest {numbers[1]} ms, {numbers[2]} ms in all"

    # ---- the order

    def order(self) -> list[str]:
        good, bad = ([run.key(it) for it in run.calls] for run in (self.good, self.bad))
        at = next((at for at, (one, two) in enumerate(zip(good, bad)) if one != two), min(len(good), len(bad)))
        if at == len(good) == len(bad):
            return []
        rows = [
            f"the first {at} callbacks come in the same order"
            if at > 1
            else "the second callback is another one"
            if at
            else "the first callback is another one"
        ]
        rows += [f"then {run.file}: {self.next(run, at)}" for run in (self.good, self.bad)]
        if max(len(good), len(bad)) <= IN_ORDER:
            blocks = difflib.SequenceMatcher(None, good, bad, autojunk=False).get_matching_blocks()
            rows.append(f"{sum(it.size for it in blocks)} of {len(good)} and {len(bad)} come in one order in both")
            rows += self.moved([it for block in blocks for it in range(block.a, block.a + block.size)])
        return rows

    def moved(self, same: list[int]) -> list[str]:
        """Who comes elsewhere: behind whom in each."""
        rows, kept = [], set(same)
        places = {(it.kind, it.name, it.number): at for at, it in enumerate(self.bad.calls)}
        for at, it in enumerate(self.good.calls):
            other = places.get((it.kind, it.name, it.number))
            if at not in kept and other is not None and self.after(self.good, at) != self.after(self.bad, other):
                rows.append(f"{it.told()}: in {self.good.file} {self.after(self.good, at)}, in {self.bad.file} {self.after(self.bad, other)}")
        return rows[:LINES] + ([f"and {len(rows) - LINES} more"] if len(rows) > LINES else [])

    def after(self, run: Run, at: int) -> str:
        before = run.calls[at - 1] if at else None
        return f"behind {before.name}, {ONE[before.kind]} {before.number}" if before else "first"

    def next(self, run: Run, at: int) -> str:
        shown = [f"{it.name}, {ONE[it.kind]} {it.number}, at {it.begin} ms (step {it.step})" for it in run.calls[at : at + NEXT]]
        return "; ".join(shown) or "no callback more"

    # ---- only in one

    def is_other(self, good: int, bad: int) -> bool:
        """Are these counts of calls others than what the runs' lengths make of them? (A timer that repeats is called oftener in a longer run.)"""
        lengths = [run.walk.clock(run.walk.length) for run in (self.good, self.bad)]
        by_length = good * lengths[1] / max(1, lengths[0])
        return good != bad and ((bad > good) != (lengths[1] > lengths[0]) or abs(bad - by_length) > 1)

    def alone(self) -> list[str]:
        rows = []
        for one, other in ((self.good, self.bad), (self.bad, self.good)):
            bases = {numbered(it) for it in other.histories}
            names = [it for it in one.histories if it not in other.histories and it != "wake" and (one.is_variable(it) or numbered(it) not in bases)]
            rows += [f"only {one.file} has {few(names)}"] if names else []
            ops, others = (
                collections.Counter(
                    numbered(re.sub(r"@\d+ ", "", it)) for it in run.walk.script.lines if it.startswith(("main ", "on ", "after ", "closed "))
                )
                for run in (one, other)
            )
            more = [it for it in ops if it not in others and not any(numbered(name) in it.split(" ") for name in names)]
            rows += [f"only {one.file} asks: {few([f'`{it}`' for it in more])}"] if more else []
        counts = [collections.Counter((it.kind, it.name) for it in run.calls) for run in (self.good, self.bad)]
        differ = [
            key
            for key in counts[1]
            if key in counts[0] and self.is_other(counts[0][key], counts[1][key]) and max(counts[0][key], counts[1][key]) < MANY_CALLS
        ]
        rows += [f"{name}: {times(counts[1][kind, name], ONE[kind])}, in {self.good.file} {counts[0][kind, name]}" for kind, name in differ[:LINES]]
        return rows


def beside(good: Walk, bad: Walk, files: tuple[str, str]) -> list[str]:
    return Beside(Run(good, files[0]), Run(bad, files[1])).answer()
