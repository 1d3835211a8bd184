"""Why a callback ran late, or never: an answer for each callback that a name asked for, in sentences.

What is said rests on the lines of the steps and on what states show (`due`, `active`, `ref`, the lists); no rule of the loop is
reckoned here.
"""

from __future__ import annotations

from uvt.arrivals import LEFT, behind, came
from uvt.beginnings import made_before
from uvt.causes import MANY, few, steps_of
from uvt.notes import times
from uvt.waits import Wait, kind_of_call
from uvt.walk import Walk
from uvt.why_asked import CALLS
from uvt.why_called import FEW
from uvt.why_requests import nothings, of_stream
from uvt.why_uncalled import KINDS, Uncalled


class Why(Uncalled):
    """The answers about one name of a session."""

    def answer(self) -> list[str]:
        items: list[tuple[int, list[str]]] = []
        for run in self.runs():
            together = len(run) > (FEW if self.is_pushed(run[0]) else 1)
            items += [(run[0].ended or self.end + 1, self.several(run))] if together else [(it.ended or self.end + 1, self.one(it)) for it in run]
        items += [(it.step, self.refused(it)) for it in self.history.refusals]
        items += [
            (it, [f"step {it}: `again {self.name}` did nothing: it has no repeat, and wasn't active", f"    {self.walk.by(it)}"])
            for it in self.history.nothing
        ]
        items.sort(key=lambda it: it[0])
        noted = [*of_stream(self.walk, self.name), *nothings(self.walk, self.name)]
        return [self.head(), *self.known(), *noted, *self.never_asked(), *(line for _, lines in items for line in lines)]

    def known(self) -> list[str]:
        """What the recording's notes say of the name, and of all of it."""
        lines = []
        if self.name in self.notes.names:
            kind, origin = self.notes.names[self.name]
            # (in a recording of before it is an async handle)
            stands = f"{kind}, which stands as {KINDS[self.history.kind() or 'io']}: " if self.notes.is_io(self.name) else ""
            lines.append(f"    {stands}{origin}{self.functions()}")
        if self.notes.part:
            lines.append(f"    {self.notes.part_told()}")
        if self.name in self.notes.reaped:
            place = self.notes.reaped[self.name]
            lines.append(f"    WAITED FOR BY THE PROGRAM{f', {place}' if place else ''}: so libuv never calls its exit callback")
        if self.name in self.notes.written:
            lines.append(f"    WRITTEN OVER: {self.notes.written[self.name]}")
        for number, function in sorted(self.notes.foreign.items()):
            at = number - self.walk.script.first
            # (notes may name a line that isn't there)
            line = self.walk.script.lines[at] if 0 <= at < len(self.walk.script.lines) else ""
            if self.name in line.split(" ")[2:]:
                lines.append(
                    f"    WRONG THREAD: {function} was called by another thread while the loop ran, which libuv allows of uv_async_send"
                    f" alone; line {number} stands for it: {line}"
                )
        return lines

    def head(self) -> str:
        kind = self.history.kind()
        counts = [(what, self.walk.state(self.end).counts[self.name][at]) for at, what in enumerate(CALLS)]
        called = [times(count, CALLS[what]) for what, count in counts if count] or ["never called"]
        steps = [step for step, _, _ in self.history.made]
        made = (made_before(self.notes, steps) or f", made at {steps_of(steps)}") if kind else ""
        return f"{self.name}: {KINDS[kind] if kind else 'it stands for nothing'}, {', '.join(called)}{made}"

    def functions(self) -> str:
        """The program's functions that it calls, each once."""
        found = []
        for kind, what in (("work", "work"), ("on", "callback"), ("after", "after callback"), ("closed", "close callback")):
            told = list(dict.fromkeys(it for _, it in self.notes.functions.get((kind, self.name), []) if it))
            found += [f"; its {what} is {few(told)}"] if told else []
        return "".join(found)

    def runs(self) -> list[list[Wait]]:
        """The waits, those in a row together that each were asked for by the one before, and came in their time."""
        rows: list[list[Wait]] = []
        for wait in self.history.waits:
            if rows and self.goes_on(rows[-1][-1], wait):
                rows[-1].append(wait)
            else:
                rows.append([wait])
        return rows

    def goes_on(self, last: Wait, wait: Wait) -> bool:
        """Was it asked for by the one before, and came as that one did?"""
        if self.is_plain(wait) and self.is_plain(last) and self.is_again(wait) == self.is_again(last):
            return last.ended == self.begun_by(wait)
        return self.is_pushed(wait) and self.is_pushed(last) and last.ended == wait.asked

    def is_pushed(self, wait: Wait) -> bool:
        """Was a timer started again before it was due?"""
        return wait.how == "started again" and self.walk.clock(wait.end()) < wait.when()

    def pushed(self, run: list[Wait]) -> list[str]:
        """A timer that was started again and again before it was due."""
        asked: dict[tuple[tuple[str, str], str], list[int]] = {}
        for it in run:
            who = self.walk.calls.get(self.walk.inside(it.end()), ("", "", 0))[:2] if self.walk.steps[it.end() - 1] == "loop" else ("", "")
            asked.setdefault((who, self.walk.line(it.end())), []).append(it.end())
        first, last = run[0], run[-1]
        return [
            f"steps {first.ended} to {last.ended}: {len(run)} times no call: each time started again before it was due",
            f"    due from {first.when()} ms to {last.when()} ms, started again from {self.walk.clock(first.end())} ms"
            f" to {self.walk.clock(last.end())} ms",
            *(
                f"    at {steps_of(steps)}{', the first time' if len(steps) > 1 else ''} {self.walk.by(steps[0])}"
                for steps in list(asked.values())[:MANY]
            ),
            f"    {self.asked(first)}",
        ]

    def is_plain(self, wait: Wait) -> bool:
        """Was it asked for by a callback of its own, and called in its time? In a recording that is within a millisecond."""
        mine = self.walk.line(self.begun_by(wait)).startswith(f"call {self.name} ")
        if wait.how != "called" or not mine or wait.more:
            return False
        allowed = 1 if self.notes.names else 0
        if wait.what == "io":
            unseen = self.unseen_for(wait) if came(self.walk, wait).where == LEFT else 0
            return max(behind(self.walk, wait), unseen) <= allowed
        return not self.is_late(wait, allowed)

    def several(self, run: list[Wait]) -> list[str]:
        first, last = run[0], run[-1]
        if self.is_pushed(first):
            return self.pushed(run)
        late = max(self.walk.clock(it.end()) - it.when() for it in run) if first.due is not None else 0
        on_time = "each on time" if late <= 0 else f"each on time, or late by {late} ms"
        how = f"due from {first.due} ms to {last.due} ms, {on_time}" if first.due is not None else "each in its turn, as it stays active"
        if first.what == "io":
            how = "each as something came"
        if not self.is_again(last):
            how = f"each asked for in the one before, {how}" if first.due is not None else f"each asked for in the one before, {self.longest(run)}"
        return [f"steps {first.ended} to {last.ended}, calls {first.call} to {last.call}: {how}", f"    at steps {few([it.ended for it in run])}"]

    def one(self, wait: Wait) -> list[str]:
        if wait.how != "called":
            return self.not_called(wait)
        answers = {"timer": self.timer, "async": self.sent, "io": self.io, "work": self.request, "close": self.close}
        causes, details = answers.get(wait.what, self.watcher)(wait)
        details += [*self.ends_between(wait), self.asked(wait), *self.by_javascript(wait)]
        return [self.headed(wait, causes), *(f"    {it}" for it in details)]

    def headed(self, wait: Wait, causes: str) -> str:
        return f"step {wait.ended}, {CALLS[kind_of_call(wait.what)]} {wait.call}: {causes}"

    def first_line(self, wait: Wait) -> str:
        """The first line of the same, of a callback that came."""
        return self.headed(wait, self.lateness(wait)) if wait.what == "timer" else self.one(wait)[0]

    def longest(self, run: list[Wait]) -> str:
        """How long these waited at the most."""
        return f"each called {max(self.walk.clock(it.end()) - self.walk.clock(it.asked) for it in run)} ms later at the most"


def why(walk: Walk, name: str) -> list[str]:
    """The answers about a name that the script declares."""
    return Why(walk, name).answer()
