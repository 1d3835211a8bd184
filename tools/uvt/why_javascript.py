"""Why a timer of JavaScript ran late, or never; and where a function of JavaScript was found.

What node does with its timers is node's: it keeps them in lists and has one timer of the loop for all. What is said here rests on when node
began each callback, and on the ms that it had for it.
"""

from __future__ import annotations


from uvt.conversation import Fault
from uvt.javascript import JavaScript
from uvt.javascript_pieces import LEAST, OUTSIDE, Place, Resource, Span, at, fitted, together
from uvt.origins import Origins
from uvt.walk import Walk
from uvt.causes import FIFTH, MANY, ONE_BY_ONE, few, is_told, one_main
from uvt.notes import times
from uvt.why import Why
from uvt.causes import told as without


class WhyJavaScript:
    """The answers about the JavaScript of a recording."""

    def __init__(self, walk: Walk) -> None:
        self.walk = walk
        self.js: JavaScript = walk.notes.javascript
        self.step_of = {call: step for step, call in walk.calls.items()}
        self.origins = Origins(walk)
        self.why = Why(walk, walk.script.names()[0])
        self.spans: dict[int, list[Span]] = {}
        for it in self.js.spans:
            self.spans.setdefault(it.id, []).append(it)

    # ---- one callback

    def late(self, span: Span) -> int:
        return span.begin - span.due if span.due is not None else 0

    def where(self, span: Span) -> str:
        step = self.step_of.get(span.call)
        return f"step {step}" if step else "the main program"

    def delay(self, span: Span) -> tuple[str, list[str]]:
        """What went on between the time at which it was due and its call; and what had called each function of that, and where."""
        found, below, parts, due = [], [], [], span.when()
        causes = one_main(self.walk.causes(due, span.begin))
        for took in [it for it in causes if is_told(it, due, span.begin)] or causes:
            begin, end = max(due, took.pieces[0][0]), min(span.begin, took.pieces[-1][1])
            where, steps = took.where(), took.steps()
            if mine := self.js.parts(took.pieces[0][0], took.pieces[-1][1], (begin, end)):
                parts += mine
                told = [f"{it.who.text()}: {it.what}, in {where}, {steps}" for it in mine if it.what] or [f"in {where}, {steps}"]
                below += [(sum(it.took for it in mine), told)]
                outside = took.took() - (end - begin)
                rest = end - begin - sum(max(it.took, it.whole - outside) for it in mine)
                if rest >= LEAST and FIFTH * rest >= self.late(span):
                    found.append((rest, f"{rest} ms more went by in {where}, {steps}"))
            elif took.first == self.step_of.get(span.call):
                # (it is called in that one itself: what else that did comes later)
                found.append((end - begin, f"{end - begin} ms went by in {where} before it, at step {took.first}"))
            else:
                found.append((end - begin, self.why.delay(begin, end) if took.is_poll() else without(took)))
        found += [(it.took, self.js.in_words(it)) for it in together(parts)]
        found.sort(key=lambda it: -it[0])
        shown = [it for it in found if it[0] >= LEAST] or found
        others = shown[ONE_BY_ONE:]
        texts = [text for _, text in shown[:ONE_BY_ONE]]
        texts += [f"{len(others)} others took {sum(it[0] for it in others)} ms in all"] if len(others) > 1 else [text for _, text in others]
        longest = sorted(below, key=lambda it: -it[0])[:MANY]
        return "; ".join(dict.fromkeys(texts)), list(dict.fromkeys(text for it in below if it in longest for text in it[1]))

    def called(self, span: Span, resource: Resource, number: int) -> list[str]:
        late = self.late(span)
        how, below = self.delay(span) if late > 1 else ("", [])
        when = f"late by {late} ms: {how}" if late > 1 else "on time" if span.due is not None else NOBODY_KNOWS
        lines = [f"{self.where(span)}, call {number}: {when}", *(f"    {it}" for it in below)]
        node = self.walk.notes.in_node(span.call[1])
        # (its own callback's name is for who goes on in the shell)
        due = f"due at {span.due} ms, " if span.due is not None else ""
        lines.append(f"    {due}called at {span.begin} ms" + ("" if node and node.own else f", in the call of {span.call[1]}"))
        lines += self.put_off(span, resource)
        if chain := self.origins.chain(resource.id):
            lines.append(f"    {chain}")
        took = span.end - span.begin
        if span.is_open:
            lines.append(f"    never ended: it was under way for {took} ms as the log ends{self.inside(span)}")
        elif took >= LEAST:
            lines.append(f"    took {took} ms{self.inside(span)}")
        return lines

    def put_off(self, span: Span, resource: Resource) -> list[str]:
        """node counts the ms of a timer anew where the program asks it to."""
        anew = span.due - resource.delay if span.due is not None else 0
        if resource.kind != "timer" or not resource.put_off or anew - resource.when < LEAST:
            return []
        return [f"    put off by {anew - resource.when} ms: it was started at {resource.when} ms, and again at {anew} ms (timer.refresh())"]

    def inside(self, span: Span) -> str:
        """What it was at most, and how much of that was the collector's."""
        said = self.js.inside(span.begin, span.end, self.js.who(span))
        return said + self.js.garbage([(1000 * span.begin, 1000 * span.end)], span.end - span.begin)

    # ---- a name

    def answer(self, name: str) -> list[str]:
        return [row for line in self.all_of(name) for row in fitted(line)]

    def all_of(self, name: str) -> list[str]:
        resources, asked = self.js.named(name), [it for it, place in self.js.asked.items() if place.is_(name)]
        if not resources:
            return self.requests(name, asked) if asked else self.found(name)
        groups: dict[tuple[Place, Place, str, int], list[Resource]] = {}
        for it in resources:
            groups.setdefault((it.function, it.at, it.kind, it.delay), []).append(it)
        return [line for rows in groups.values() for line in self.group(rows)]

    def group(self, rows: list[Resource]) -> list[str]:
        """Those that are alike: the same function, started at the same line, of as many ms."""
        first = rows[0]
        spans = [(it, resource, number) for resource in rows for number, it in enumerate(self.spans.get(resource.id, []), 1)]
        if len(spans) <= len(rows):
            # (timers that are called once each: one is started behind the other)
            spans = [(it, resource, number) for number, (it, resource, _) in enumerate(sorted(spans, key=lambda it: it[0].begin), 1)]
        count = f", {len(rows)} of them" if len(rows) > 1 else ""
        none = "never called" if first.before is None else "no call in this recording"
        head = [f"{first.named()}: {first.what()}{count}", first.asked(), times(len(spans), "call") if spans else none]
        lines = [", ".join(filter(None, head))]
        if first.kind in ("timer", "interval", "soon", "task"):
            worst = sorted((it for it in spans if self.late(it[0]) > 1), key=lambda it: -self.late(it[0]))[:MANY]
            for span, resource, number in sorted(worst, key=lambda it: it[0].begin):
                lines += self.called(span, resource, number)
            rest = len(spans) - len(worst)
            if worst and not rest:
                pass
            elif worst:
                lines.append(f"{times(rest, 'more call')}{', each' if rest > 1 else ''} {'late by less' if len(worst) == MANY else 'on time'}")
            elif len(spans) == 1:
                lines += self.called(*spans[0])
            elif spans:
                known = "each on time" if all(it.due is not None for it, _, _ in spans) else f"each {NOBODY_KNOWS}"
                lines.append(f"{known}, from {spans[0][0].begin} ms to {spans[-1][0].begin} ms")
            if first.kind == "interval":
                for it in rows:
                    lines += self.drift(it)
        else:
            slow = sorted(spans, key=lambda it: it[0].begin - it[0].end)[:MANY]
            for span, _, number in sorted(slow, key=lambda it: it[0].begin):
                told = "; ".join(self.js.told(span.begin, span.end))
                lines.append(f"{self.where(span)}: at {span.begin} ms, took {span.end - span.begin} ms" + (f": {told}" if told else ""))
        for it in rows:
            lines += self.uncalled(it)
        return lines

    def drift(self, resource: Resource) -> list[str]:
        """node starts an interval anew at each call, from when that began. So what is late stays."""
        spans = self.spans.get(resource.id, [])
        if len(spans) < 2 or spans[0].due is None:
            return []
        meant = spans[0].due + resource.delay * (len(spans) - 1)
        lost = spans[-1].begin - meant
        if lost <= LEAST:
            return []
        slow = [it for it in sorted(spans, key=self.late, reverse=True)[:PART] if self.late(it) > 0]
        most = few([f"{self.late(it)} ms at {it.begin} ms" for it in slow]) if slow else ""
        who = "node" if self.js.language == "JavaScript" else "libuv"
        return [
            f"drift: call {len(spans)} came at {spans[-1].begin} ms, {lost} ms behind {len(spans)} times {resource.delay} ms:"
            f" {who} counts an interval from its last call, so what was late stays" + (f" (the most: {most})" if most else "")
        ]

    def uncalled(self, resource: Resource) -> list[str]:
        """Why it isn't called, or not any more, where it isn't."""
        spans = self.spans.get(resource.id, [])
        head = "no further call" if spans or resource.before is not None else "never called"
        if resource.gone is not None:
            return [f"{head}: {GONE[self.js.language]} {at(resource.gone_at)}, at {resource.gone} ms"]
        if spans and resource.kind != "interval":
            return []
        since = resource.before if resource.before is not None else resource.when
        due = f"due at {since + resource.delay} ms, and " if resource.kind != "immediate" and not spans else ""
        ends = f"{due}the recording ends at {self.walk.clock(self.walk.length)} ms"
        if not resource.referenced:
            return [f"{head}: `unref` {at(resource.referenced_at)} has it keep nothing alive, and nothing else did any more: {ends}"]
        return [f"{head}: {ends}"]

    # ---- a line that asked for requests of the pool

    def requests(self, name: str, asked: list[tuple[str, int]]) -> list[str]:
        """Those that took longest, from when they were asked for to their callbacks."""
        found = []
        for request, call in asked:
            why = Why(self.walk, request)
            found += [
                (self.walk.clock(it.end()) - self.walk.clock(it.asked), why, it)
                for it in why.history.waits
                if it.how == "called" and it.what == "work" and it.call == call
            ]
        found.sort(key=lambda it: -it[0])
        lines = [f"{name}: {times(len(asked), 'request')} of the pool, asked for {at(self.js.asked[asked[0]])}"]
        for _, why, wait in found[:PART]:
            head, *rest = why.one(wait)
            lines += [f"{why.name}, {head}", *rest]
        return lines + ([f"the other {times(len(found) - PART, 'request')} took no longer"] if len(found) > PART else [])

    # ---- a function that is no timer's

    def found(self, name: str) -> list[str]:
        looks = [it for it in self.js.looks if it.under.outer.is_(name) or it.under.inner.is_(name)]
        if not looks:
            import difflib

            near = difflib.get_close_matches(name, [*self.walk.script.names(), *self.functions()], 1)
            seen = f"no function or line of {self.js.language} that was seen"
            raise Fault(f"no name `{name}`, and {seen}" + (f": did you mean `{near[0]}`?" if near else ""))
        place = next(it for it in (looks[0].under.outer, looks[0].under.inner) if it.is_(name))
        rows = []
        for took in self.walk.tooks:
            begin, end = took.pieces[0][0], took.pieces[-1][1]
            mine = sum(count for under, count in self.js.under(begin, end) if place in (under.outer, under.inner))
            if mine >= 1000 * LEAST:
                rows.append((round(mine / 1000), took))
        rows.sort(key=lambda it: -it[0])
        whole = round(sum(it.end - it.begin for it in looks) / 1000)
        lines = [
            f"{place.text()}: a function of {self.js.language}, under way for {whole} ms,"
            f" in {times(len(rows), 'callback')} of the loop of {LEAST} ms or more"
        ]
        for mine, took in rows[:MANY]:
            begin, end = took.pieces[0][0], took.pieces[-1][1]
            lines.append(f"step {took.first}: {mine} ms, in {took.where()}: {'; '.join(self.js.told(begin, end))}")
        return lines

    def functions(self) -> list[str]:
        return [*self.js.names(), *dict.fromkeys(it.under.outer.function for it in self.js.looks)]

    # ---- what stands out

    def latest(self, least: int, most: int) -> list[tuple[int, str, str]]:
        found = [
            it
            for it in self.js.spans
            if it.due is not None and self.late(it) >= least and it.id in self.js.resources and self.js.resources[it.id].is_programs()
        ]
        groups: dict[tuple[str, str], list[Span]] = {}
        for span in sorted(found, key=self.late, reverse=True):
            groups.setdefault((self.js.resources[span.id].named(), self.js.resources[span.id].asked()), []).append(span)
        rows = []
        for span, *others in list(groups.values())[:most]:
            resource = self.js.resources[span.id]
            name = resource.function.function if resource.function.function not in ("-", "(anonymous)") else resource.at.where
            late = self.late(span)
            more = f"; {times(len(others), 'more call')} late by up to {self.late(others[0])} ms" if others else ""
            rows.append((late, name, f"{resource.named()}, {self.where(span)}: late by {late} ms: {self.delay(span)[0]}{more}"))
        return rows

    def never(self) -> list[str]:
        """Those that were never called, though nobody cleared them."""
        uncalled = [it for it in self.js.resources.values() if it.id not in self.spans and it.gone is None and it.before is None]
        found = [it for it in uncalled if not it.function.where.startswith(OUTSIDE)]
        mine = [it for it in found if not it.at.where.startswith(OUTSIDE)]
        return [f"{it.function.text()}, {it.what()} {it.asked()}: {self.uncalled(it)[0]}" for it in mine[:MANY]]


# Of a timer whose ms were counted anew, where no other one tells how node's time and the log's lie to each other.
NOBODY_KNOWS = "called, and when it was due nobody knows"
# What somebody did who wants no call of a timer any more.
GONE = {"JavaScript": "cleared", "Python": "cancelled", "Lua": "stopped"}
# So many late calls of an interval are told.
PART = 3
