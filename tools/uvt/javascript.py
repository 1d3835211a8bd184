"""What is known of the JavaScript of a program in node, beside a recording of its loop: lines `js` of NAME.notes. (And of Python and Lua.)

What the hook in node saw (tools/uvt/record/node/hook.js). A resource is what JavaScript asked for: a timer, an immediate, a request. A span is a
callback of one, in a callback of the loop. A look is what V8 found under way, each millisecond: so there are ticks and promises, too, and
functions that others called. All times are those of the recording, in ms; of looks in thousandths of that.
"""

from __future__ import annotations

import bisect
import itertools
from collections.abc import Mapping, Sequence
from dataclasses import dataclass, field

from uvt.javascript_pieces import (
    AT_ONCE,
    HOW,
    KINDS,
    LEAST,
    LISTS,
    Look,
    NOWHERE,
    OUTSIDE,
    Origin,
    PARTS,
    Part,
    Place,
    Resource,
    Span,
    Under,
    how_much,
    length,
    longest,
    read_origin,
    read_under,
    together,
)

# What node's own calls of libuv stand for. (It runs a loop of its own for a process that it waits for.)
STOOD_STILL = {"uv_run": "a process that it waited for", "uv_spawn": "the start of a process"}


@dataclass
class JavaScript:
    # node's number of the thread: 0 is the first one, the others are workers; None where the log doesn't say
    thread: int | None = None
    resources: dict[int, Resource] = field(default_factory=dict)
    spans: list[Span] = field(default_factory=list)
    looks: list[Look] = field(default_factory=list)
    # what V8 found under way, with all functions: of a stack the one below it (-1: none), its innermost function and the line there; and which
    # stack, from when to when, in thousandths of a ms
    stacks: dict[int, tuple[int, Place, int]] = field(default_factory=dict)
    busy: list[tuple[int, int, int]] = field(default_factory=list)
    # of a request of the pool, by its name and which after callback of it: which line asked for it
    asked: dict[tuple[str, int], Place] = field(default_factory=dict)
    origins: dict[tuple[str, int], Origin] = field(default_factory=dict)
    # of a callback of the loop what was under way most in it, and for how many ms
    most: dict[tuple[str, str, int], tuple[int, Under]] = field(default_factory=dict)
    # calls in which it stood still: since when, for how many ms, and the function of libuv or of the system
    waits: list[tuple[int, int, str]] = field(default_factory=list)
    # when V8 collected garbage: from when to when, in thousandths of a ms
    collections: list[tuple[int, int]] = field(default_factory=list)
    # where the program was started: its files are said from there
    home: str = ""
    language: str = "JavaScript"
    # the text of a line of the program
    source: dict[str, str] = field(default_factory=dict)
    # by call of the loop
    by_call: dict[tuple[str, str, int], list[Span]] = field(default_factory=dict)

    def __bool__(self) -> bool:
        return bool(self.resources or self.spans or self.looks or self.thread is not None)

    # ---- lines

    def lines(self) -> list[str]:
        found = [f"js thread {self.thread}"] if self.thread is not None else []
        found += [f"js home {self.home}"] if self.home else []
        found += [f"js language {self.language}"] if self.language != "JavaScript" else []
        found += [f"js line {where} {text}" for where, text in self.source.items()]
        for it in self.resources.values():
            found.append(f"js new {it.id} {it.kind} {it.when} {it.delay} {it.function.words()} {it.at.words()}")
            found += [f"js before {it.id} {it.before}"] if it.before is not None else []
            found += [f"js within {it.id} {it.origin.words()}"] if it.origin else []
            found += [f"js later {it.id}"] if it.put_off else []
            found += [f"js gone {it.id} {it.gone} {it.gone_at.words()}"] if it.gone is not None else []
            found += [f"js ref {it.id} {int(it.referenced)} {it.referenced_at.words()}"] if it.referenced_at != NOWHERE or not it.referenced else []
        found += [f"js by {name} {call} {place.words()}" for (name, call), place in self.asked.items()]
        found += [f"js origin {name} {call} {it.words()}" for (name, call), it in self.origins.items()]
        for span in self.spans:
            due = f" {span.due}" if span.due is not None else ""
            found.append(f"js {'open' if span.is_open else 'ran'} {span.id} {' '.join(map(str, span.call))} {span.begin} {span.end}{due}")
        found += [f"js look {look.begin} {look.end} {look.under.words()}" for look in self.looks]
        found += [f"js stack {number} {below} {line} {place.words()}" for number, (below, place, line) in self.stacks.items()]
        found += [f"js busy {begin} {end - begin} {stack}" for begin, end, stack in self.busy]
        found += [f"js wait {begin} {took} {function}" for begin, took, function in self.waits]
        found += [f"js gc {begin} {end - begin}" for begin, end in self.collections]
        found += [f"js most {' '.join(map(str, call))} {took} {under.words()}" for call, (took, under) in self.most.items()]
        return found

    def take(self, words: list[str]) -> None:
        """Takes a line, without its `js`."""
        match words:
            case ["thread", number]:
                self.thread = int(number)
            case ["line", where, *text]:
                self.source[where] = " ".join(text)
            case ["new", id, kind, when, delay, function, where, inside, at]:
                self.resources[int(id)] = Resource(int(id), kind, Place(function, where), Place(inside, at), int(when), int(delay))
            case ["ran" | "open" as word, id, list, name, call, begin, end, *due] if int(id) in self.resources:
                self.add(Span(int(id), (list, name, int(call)), int(begin), int(end), int(due[0]) if due else None, word == "open"))
            case ["home", *folder]:
                self.home = " ".join(folder)
            case ["language", language]:
                self.language = language
            case ["look", begin, end, *under]:
                self.looks.append(Look(int(begin), int(end), read_under(under)))
            case ["stack", number, below, line, function, where]:
                self.stacks[int(number)] = int(below), Place(function, where), int(line)
            case ["busy", begin, took, stack] if int(stack) in self.stacks:
                self.busy.append((int(begin), int(begin) + int(took), int(stack)))
            case ["wait", begin, took, function]:
                self.waits.append((int(begin), int(took), function))
            case ["gc", begin, took]:
                self.collections.append((int(begin), int(begin) + int(took)))
            case ["most", list, name, call, took, *under]:
                self.most[list, name, int(call)] = int(took), read_under(under)
            case ["gone", id, when, function, where]:
                self.resources[int(id)].gone, self.resources[int(id)].gone_at = int(when), Place(function, where)
            case ["ref", id, ref, function, where]:
                self.resources[int(id)].referenced, self.resources[int(id)].referenced_at = ref == "1", Place(function, where)
            case ["before", id, called] if int(id) in self.resources:
                self.resources[int(id)].before = int(called)
            case ["within", id, *words] if int(id) in self.resources:
                self.resources[int(id)].origin = read_origin(words)
            case ["later", id] if int(id) in self.resources:
                self.resources[int(id)].put_off = True
            case ["origin", name, call, *words]:
                self.origins[name, int(call)] = read_origin(words)
            case ["by", name, call, function, where]:
                self.asked[name, int(call)] = Place(function, where)

    def add(self, span: Span) -> None:
        self.spans.append(span)
        self.by_call.setdefault(span.call, []).append(span)

    # ---- what was under way

    def looks_in(self, begin: int, end: int) -> list[Look]:
        """What was under way between two times (in ms), as far as it lies there."""
        first, found = bisect.bisect_right(self.looks, begin * 1000, key=lambda it: it.end), []
        for look in itertools.islice(self.looks, first, None):
            if look.begin >= end * 1000:
                break
            found.append(Look(max(look.begin, begin * 1000), min(look.end, end * 1000), look.under))
        return found

    def functions_in(self, begin: int, end: int) -> set[Place]:
        """All functions, of node too, that were under way between two times (in thousandths of a ms)."""
        first, found = bisect.bisect_right(self.busy, begin, key=lambda it: it[1]), set()
        for start, _, stack in itertools.islice(self.busy, first, None):
            if start >= end:
                break
            while stack in self.stacks:
                stack, place, _ = self.stacks[stack]
                found.add(place)
        return found

    def under(self, begin: int, end: int) -> list[tuple[Under, int]]:
        """The same, each once, and how long (in thousandths), the longest first."""
        found: dict[Under, int] = {}
        for look in self.looks_in(begin, end):
            found[look.under] = found.get(look.under, 0) + look.end - look.begin
        return sorted(found.items(), key=lambda it: -it[1])

    def spans_in(self, begin: int, end: int) -> list[Span]:
        return [it for it in self.spans if it.end > begin and it.begin < end]

    def who(self, span: Span) -> Place:
        """The program's function of a span: what was asked for, or else what was found under way most."""
        found = self.resources[span.id].function
        if found.where != "-" and not found.where.startswith(OUTSIDE):
            return found
        by: dict[Place, int] = {}
        for under, took in self.under(span.begin, span.end):
            by[under.outer] = by.get(under.outer, 0) + took
        return max(by, key=by.__getitem__, default=found)

    def parts(self, begin: int, end: int, within: tuple[int, int] | None = None) -> list[Part]:
        """What JavaScript did between two times, the longest first. With a part of that time: what lies within it, and how long it took in all."""
        least, most = within or (begin, end)
        parts: list[Part] = []
        gaps: list[tuple[int, int]] = []
        behind = begin
        for it in sorted(self.spans_in(begin, end), key=lambda it: it.begin):
            if it.begin < behind and gaps:
                continue
            parts.append(self.part_of_span(it, (max(it.begin, begin), min(it.end, end)), (least, most)))
            if min(it.end, end) - max(it.begin, begin) >= LEAST:
                gaps.append((behind, it.begin))
                behind = max(behind, it.end)
        gaps.append((behind, end))
        parts += self.between_spans(gaps, (least, most))
        return [it for it in together(parts) if it.took >= LEAST][:PARTS]

    def part_of_span(self, span: Span, here: tuple[int, int], within: tuple[int, int]) -> Part:
        resource = self.resources[span.id]
        what = f"{resource.what()}, {resource.asked()}" if resource.asked() else resource.what()
        took = max(0, min(span.end, within[1]) - max(span.begin, within[0]))
        return Part("", self.who(span), took, span.end - span.begin, [(1000 * here[0], 1000 * here[1])], what=what)

    def between_spans(self, gaps: list[tuple[int, int]], within: tuple[int, int]) -> list[Part]:
        """The same of what no timer or immediate called, by looks."""
        by: dict[tuple[str, Place], list[Look]] = {}
        took: dict[tuple[str, Place], int] = {}
        about = set()
        for first, last in gaps:
            looks = [it for it in self.looks_in(first, last) if it.under.how not in ("timer", "immediate")] if last - first >= LEAST else []
            found = {(it.under.how, it.under.outer) for it in looks}
            for it in looks:
                by.setdefault((it.under.how, it.under.outer), []).append(it)
            for who in found:
                # (nothing else is done behind a callback: where nobody else was found, all of that time is theirs)
                alone = len(found) == 1 and who[0] in AT_ONCE
                mine = 1000 * (last - first) if alone else length([it for it in looks if (it.under.how, it.under.outer) == who])
                took[who] = took.get(who, 0) + mine
                about |= set() if alone else {who}
        return [self.part_of(who, rows, (took[who], who in about), within) for who, rows in by.items() if took[who] >= 1000 * LEAST]

    def part_of(self, who: tuple[str, Place], rows: list[Look], took: tuple[int, bool], within: tuple[int, int]) -> Part:
        """A function that was found in these looks: how long it took in thousandths of a ms, and whether that is about so long."""
        mine = sum(max(0, min(it.end, 1000 * within[1]) - max(it.begin, 1000 * within[0])) for it in rows)
        return Part(*who, round(mine / 1000), round(took[0] / 1000), [(it.begin, it.end) for it in rows], took[1])

    def in_words(self, part: Part) -> str:
        """That in a sentence."""
        if part.how == "hook":
            return f"the recorder itself took {part.whole} ms"
        name = part.who.where.rpartition(":")[0] if part.how == "main" and part.who.function == "(anonymous)" else part.who.text()
        how, about = f", from {HOW[part.how]}," if part.how else "", "about " if part.about else ""
        often = f" in {part.calls} {'calls' if part.what else 'callbacks'}" if part.calls > 1 else ""
        begin, end = part.pieces[0][0] // 1000, -(-part.pieces[-1][1] // 1000)
        said = self.inside(begin, end, part.who, part.whole if part.calls > 1 else None)
        return f"{name}{how} took {about}{part.whole} ms{often}{said}{self.garbage(part.pieces, part.whole)}"

    def told(self, begin: int, end: int, within: tuple[int, int] | None = None) -> list[str]:
        """The same, in a sentence each."""
        return [self.in_words(it) for it in self.parts(begin, end, within)]

    def alive(self, time: int) -> list[Place]:
        """The functions of the program's timers that are to be called at this time or later, and keep node alive."""
        last = {it.id: it.begin for it in self.spans}
        kept = [
            it
            for it in self.resources.values()
            if it.kind in ("timer", "interval")
            and it.when <= time
            and it.referenced
            and (it.gone is None or it.gone > time)
            and not it.function.where.startswith(OUTSIDE)
            and (it.kind == "interval" or last.get(it.id, time + 1) > time)
        ]
        return list(dict.fromkeys(it.function for it in kept))

    def seen(self) -> int:
        """The last time at which JavaScript was seen."""
        return max([0, *(it.end for it in self.spans), *(it.end // 1000 for it in self.looks[-1:])])

    def longest(self, begin: int, end: int) -> Place | None:
        """The program's function that took most of the time between two."""
        by: dict[Place, int] = {}
        for under, took in self.under(begin, end):
            by[under.outer] = by.get(under.outer, 0) + took
        for span in self.spans_in(begin, end):
            who, took = self.who(span), 1000 * (min(span.end, end) - max(span.begin, begin))
            by[who] = max(by.get(who, 0), took)
        best = max(by, key=by.__getitem__, default=None)
        return best if best and by[best] >= 500 * (end - begin) else None

    def inside(self, begin: int, end: int, who: Place, took: int | None = None) -> str:
        """Which line, and what it called, took most of it, where that tells more. (It took so many ms: where nothing is said, all of the time.)"""
        by: dict[tuple[Place, str, str], list[Look]] = {}
        for it in self.looks_in(begin, end):
            if who in (it.under.outer, it.under.inner):
                own = it.under.inner == who
                by.setdefault((it.under.inner, it.under.line if own else "0", it.under.top if own else "-"), []).append(it)
        if not by:
            return self.stood_still(begin, end)
        (inner, line, top), rows = max(by.items(), key=lambda it: length(it[1]))
        mine, whole = length(rows), max(sum(length(it) for it in by.values()), 1000 * (end - begin if took is None else took))
        if mine < LEAST * 1000 or 3 * mine < whole:
            return ""
        if inner != who:
            # (of another function all its time, where it was most)
            line = longest(rows, "line")
            top = longest(rows, "top")
        said = [f"in {inner.text()}"] if inner != who else []
        said += [f"in {top}, which it calls"] if top != "-" and inner == who else [f"in its call of {top}"] if top != "-" else []
        text = self.source.get(self.line_of(inner, line), "")
        said += [f"at line {line}" + (f": `{text}`" if text else "")] if line != "0" else []
        return f", {how_much(mine, whole)} of it {', '.join(said)}{self.stood_still(begin, end)}" if said else ""

    def stood_still(self, begin: int, end: int) -> str:
        """In which calls it stood still meanwhile, where that was for a tenth of the time."""
        by: dict[str, int] = {}
        for since, took, function in self.waits:
            # (the collector waits for its own threads)
            if begin <= since < end and 2 * self.collected(1000 * since, 1000 * (since + took)) < 1000 * took:
                by[function] = by.get(function, 0) + took
        long = [(took, function) for function, took in by.items() if took >= LEAST and 10 * took >= end - begin]
        told = [f"{took} ms of that in {STOOD_STILL.get(function, function)}" for took, function in sorted(long, reverse=True)[:PARTS]]
        return "".join(f", {it}" for it in told)

    def collected(self, begin: int, end: int) -> int:
        """For how long V8 collected garbage between two times, all in thousandths of a ms."""
        first, found = bisect.bisect_right(self.collections, begin, key=lambda it: it[1]), 0
        for since, until in itertools.islice(self.collections, first, None):
            if since >= end:
                break
            found += min(until, end) - max(since, begin)
        return found

    def garbage(self, pieces: list[tuple[int, int]], whole: int) -> str:
        """How much of a time of so many ms, which went by in these pieces, was the collector's, where that is a tenth of it."""
        took = round(sum(self.collected(*it) for it in pieces) / 1000)
        return f", {min(took, whole)} of {whole} ms in the collector" if took >= LEAST and 10 * took >= whole else ""

    @staticmethod
    def line_of(place: Place, line: str) -> str:
        return f"{place.where.rpartition(':')[0]}:{line}"

    def note_most(self, call: tuple[str, str, int], begin: int, end: int) -> None:
        """What was under way most in this callback of the loop, where that took long enough to tell."""
        by: dict[Under, int] = {}
        for under, took in self.under(begin, end) if end - begin >= LEAST else ():
            by[under] = by.get(under, 0) + took
        most = max(by, key=by.__getitem__, default=None)
        if most and by[most] >= 1000 * LEAST:
            self.most[call] = round(by[most] / 1000), most

    @staticmethod
    def call_of(line: str, counts: Mapping[str, Sequence[int]]) -> tuple[str, str, int] | None:
        """The callback that the line of a step begins: its list, its name and which call it is, where `counts` has how often each was called."""
        words = line.split(" ")
        if words[0] not in LISTS or words[1] not in counts:
            return None
        kind, which = LISTS[words[0]]
        return kind, words[1], counts[words[1]][which]

    def called(self, line: str, counts: Mapping[str, Sequence[int]]) -> list[str]:
        """What JavaScript ran in the callback that the line of a step begins, in a sentence each."""
        call, found = self.call_of(line, counts) if self else None, []
        if not call:
            return []
        for span in self.by_call.get(call, [])[:PARTS]:
            resource, took = self.resources[span.id], span.end - span.begin
            found.append(f"{self.who(span).text()}, {resource.what()}, {resource.asked()}" + (f", took {took} ms" if took else ""))
        if call in self.most:
            _, under = self.most[call]
            text = self.source.get(self.line_of(under.inner, under.line), "")
            line = f", at line {under.line}" + (f": `{text}`" if text else "") if under.line != "0" else ""
            top = f", in its call of {under.top}" if under.top != "-" else ""
            by = f", called by {under.outer.text()}" if under.outer != under.inner else ""
            found.append(f"found most in {under.inner.text()}{top}{line}{by}")
        return found

    # ---- names that a person may ask for

    def named(self, name: str) -> list[Resource]:
        return [it for it in self.resources.values() if it.function.is_(name) or it.at.where == name or it.at.where.endswith("/" + name)]

    def names(self) -> list[str]:
        """The functions of its timers and immediates."""
        found = dict.fromkeys(
            it.function.function
            for it in self.resources.values()
            if it.kind in KINDS and it.function.where != "-" and not it.function.where.startswith(OUTSIDE)
        )
        return [it for it in found if it not in ("-", "(anonymous)")]
