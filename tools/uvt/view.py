"""A run as a picture: what the page of uvt-view shows, from the program's answers at every step."""

from __future__ import annotations

import json
import re
from dataclasses import dataclass, field
from pathlib import Path
from typing import Callable, Iterator

from uvt.arrivals import behind, came
from uvt.conversation import Conversation, Fault, Script, packed, started
from uvt.javascript_pieces import OUTSIDE
from uvt.notes import Request
from uvt.places import MEANT, Place, next_line, read_place
from uvt.waits import Wait
from uvt.took import Took
from uvt.walk import Walk
from uvt.overview import Overview
from uvt.causes import FIFTH, named
from uvt.why import Why
from uvt.why_javascript import WhyJavaScript
from uvt.why_requests import under_way

TEMPLATE = Path(__file__).resolve().parent / "view.html"
SEND = re.compile(r"(out )?send \S+ = \S+")


# Of so many steps the timers' heap is kept: it is asked for with the memory, which takes longer.
HEAPS = 20_000
# So many steps a page has at the most, and so many lines of `why` a name has on a page that is a part.
MOST = 40_000
WHYS = 1_000
# From how many ms on a late call is red: in a recording the clock's millisecond is none.
RED, RED_RECORDED = 1, 5
# From how many ms on a callback has its name in the loop's lane.
LONG = 2
# So many functions of JavaScript have a lane.
FUNCTIONS = 12
# A call that was late: its step, its name, by how much, and that in words.
Late = tuple[int, str, int, str]


@dataclass
class Part:
    """From which length to which the page goes, where it opens, and why it has no more; `` where it has all."""

    begin: int
    end: int
    opens: int
    why: str


def part_of(walk: Walk, at: int | None) -> Part:
    """All of a run; of a long one the steps around one of them, or around what stands out: the longest callback."""
    if at is not None and not 0 <= at <= walk.length:
        raise Fault(f"there is no step {at}: there are {walk.length}")
    if walk.length <= MOST:
        return Part(0, walk.length, at or 0, "")
    longest = max((it for it in walk.tooks if it.is_callback()), key=Took.took, default=None)
    opens = at if at is not None else longest.first if longest else walk.length
    begin = max(0, min(opens - MOST // 2, walk.length - MOST))
    around = f"around step {at}" if at is not None or not longest else f"around {named(longest).rstrip(',')}, which took longest: {longest.took()} ms"
    why = f"A PART: this page has the steps {begin} to {begin + MOST} of {walk.length}, {around}; with --at STEP uvt view has others"
    return Part(begin, begin + MOST, opens, why)


def all_states(script: Script, steps: list[str], part: Part, heaps: bool, tell: Callable[[int, int], None]) -> Iterator[tuple[list[str], str]]:
    """The text of the state at each length of the part; and the line of the timers' heap, where that is asked for."""
    word, last = ("image", ("counts ", "refused ")) if heaps else ("state", ("done-yet",))
    with Conversation(script) as talk:
        text = packed(steps[: part.begin]) + f"{word}\n" + "".join(f"{it}\n{word}\n" for it in steps[part.begin : part.end])
        writer = started(talk.send_quietly, text)
        for at in range(part.end - part.begin + 1):
            line = talk.read_line()
            while not line.startswith("steps "):
                line = talk.read_line()
            rows = [line]
            while not rows[-1].startswith(last):
                rows.append(talk.read_line())
            end = next(it for it in range(len(rows) - 1, -1, -1) if rows[it].startswith("done-yet")) + 1
            yield rows[:end], next((it for it in rows[end:] if it.startswith("heap")), "")
            tell(at, part.end - part.begin)
        writer.join()


class Texts:
    """Texts by numbers, each once."""

    def __init__(self) -> None:
        self.rows: list[str] = []
        self.numbers: dict[str, int] = {}

    def number(self, text: str) -> int:
        if text not in self.numbers:
            self.numbers[text] = len(self.rows)
            self.rows.append(text)
        return self.numbers[text]


@dataclass
class Lane:
    """What is on a lane from which length on, up to the next one."""

    name: str
    what: str
    parts: list[tuple[int, str]] = field(default_factory=list)

    def now(self, length: int, what: str) -> None:
        if not self.parts or self.parts[-1][1] != what:
            self.parts.append((length, what))


class Page:
    """The states of a session as the changes from one to the next, and the lanes."""

    def __init__(self, walk: Walk, tell: Callable[[int, int], None] = lambda *_: None, at: int | None = None) -> None:
        self.walk = walk
        self.part, self.asked = part_of(walk, at), at is not None
        self.names = walk.script.names()
        # from which length on the heap has these slots
        self.heaps: list[list[int]] = []
        self.texts = Texts()
        # of each length the keys and texts of the lines that changed: a key is a line's place, that of a slot counts from `base`
        self.changes: list[list[int]] = []
        self.lines_done: list[int] = []
        self.sections = Lane("loop", "section")
        self.lanes = {it: Lane(it, "name") for it in self.names}
        self.workers: dict[int, Lane] = {}
        before: dict[int, str] = {}
        heaps = self.part.end - self.part.begin <= HEAPS
        for length, (rows, heap) in enumerate(all_states(walk.script, walk.steps, self.part, heaps, tell), self.part.begin):
            before = self.see(length, rows, before)
            if heap and (not self.heaps or self.heaps[-1][1] != self.texts.number(heap)):
                self.heaps.append([length, self.texts.number(heap)])

    # ---- a state

    def keyed(self, rows: list[str]) -> dict[int, str]:
        """The lines by their keys: what stands in front of the slots and behind them by place, and the slots by number."""
        head = 2 + len(self.names)
        tail = next(at for at in range(head, len(rows)) if not rows[at].startswith("slot "))
        # (how many steps stand is known without the line)
        found = {0: re.sub(r"^steps \d+ ", "", rows[0])}
        found.update(enumerate(rows[1:head], 1))
        found.update({head + at: line for at, line in enumerate(rows[tail:])})
        base = head + len(rows) - tail
        self.base = base
        found.update({base + at: line for at, line in enumerate(rows[head:tail])})
        return found

    def see(self, length: int, rows: list[str], before: dict[int, str]) -> dict[int, str]:
        found = self.keyed(rows)
        change: list[int] = []
        for key, line in found.items():
            if before.get(key) != line:
                change += [key, self.texts.number(line)]
        self.changes.append(change)
        place = read_place(rows[1].removeprefix("place "))
        self.lines_done.append(self.line_next(place))
        self.see_lanes(length, rows, place)
        return found

    def line_next(self, place: Place) -> int:
        """The script's line that the next step does, from 1, or 0."""
        at = next_line(self.walk.script, place)
        return 0 if at is None else at + 1

    def see_lanes(self, length: int, rows: list[str], place: Place) -> None:
        where = "main" if place.mode is None else place.where.split(" ")[0]
        self.sections.now(length, "timers" if where == "first" else where)
        lists = {line.split(" ")[0]: line.split(" ")[1:] for line in rows if line.startswith(("ready", "running"))}
        bound = {line.split(" ")[1]: line.split(" ")[2] for line in rows[2 : 2 + len(self.names)]}
        slots = {words[1]: words for words in (line.split(" ") for line in rows if line.startswith("slot "))}
        called = place.callback[1] if place.callback else self.begun(length)
        for name in self.names:
            words = slots.get(bound[name])
            mine = words if words and len(words) > 3 and words[3] == name else None
            status = "callback" if name == called else self.status(name, mine, lists["ready"], self.walk.clock(length))
            self.lanes[name].now(length, status)
        self.see_workers(length, lists["running"])

    def begun(self, length: int) -> str | None:
        """Whose callback the last step began, where that has no op."""
        words = self.walk.lines[length].split(" ")
        return words[1] if words[0] in ("call", "after", "closed") else None

    @staticmethod
    def status(name: str, words: list[str] | None, ready: list[str], clock: int) -> str:
        if words is None:
            return "nothing"
        if words[2] == "work":
            return words[4]
        values = dict(zip(words[4::2], words[5::2]))
        if values["closing"] == "1":
            return "closing"
        if name in ready or values.get("pending") == "1":
            return "ready"
        if values["active"] == "0":
            return "inactive"
        return "due" if "due" in values and int(values["due"]) <= clock else "active"

    def see_workers(self, length: int, running: list[str]) -> None:
        at_work = {int(it.partition(":")[0]): it.partition(":")[2] for it in running}
        for worker in at_work.keys() | self.workers.keys():
            self.workers.setdefault(worker, Lane(f"worker {worker}", "worker", [(0, "")])).now(length, at_work.get(worker, ""))

    # ---- what is written

    def whys(self) -> tuple[dict[str, list[str]], list[Late]]:
        """For each name its answers with their steps; and the calls that were late: step, name, by how much, and that in words."""
        found: dict[str, list[str]] = {}
        late: list[Late] = []
        for name in self.names:
            answers = Why(self.walk, name)
            found[name] = self.cut(answers.answer())
            called = [it for it in answers.history.waits if it.how == "called"]
            late += [(it.end(), name, *by) for it in called if self.has(it.end()) and (by := self.late_by(answers, it))[0] > 0]
        return found, sorted(late)

    def has(self, step: int) -> bool:
        """Is this step on the page?"""
        return self.part.begin <= step <= self.part.end

    def cut(self, lines: list[str]) -> list[str]:
        """On a page that is a part, so many lines at the most."""
        if not self.part.why or len(lines) <= WHYS:
            return lines
        return [*lines[:WHYS], f"and {len(lines) - WHYS} lines more: `uvt why` has them"]

    def opens(self, late: list[Late]) -> int:
        """Where somebody asked for; a recording at its latest call."""
        latest = max(late, key=lambda it: it[2], default=None)
        return latest[0] if latest and self.walk.notes.names and not self.asked else self.part.opens

    def late_by(self, answers: Why, wait: Wait) -> tuple[int, str]:
        """How late a timer was called; of a callback of I/O how long behind the end of its poll, or its last call."""
        if wait.what == "io":
            away = behind(self.walk, wait)
            return away, f"{away} ms behind {answers.since(wait, came(self.walk, wait))}" if away else ""
        away = self.walk.clock(wait.end()) - wait.due if wait.due is not None else 0
        return away, f"late by {away} ms"

    def all_lanes(self) -> list[Lane]:
        named = [it for name, lane in self.lanes.items() for it in (lane, *self.requests_of(name))]
        return [self.sections, *named, *(self.workers[it] for it in sorted(self.workers))]

    def requests_of(self, stream: str) -> list[Lane]:
        """A lane of what of a stream's requests is under way, behind which step; none where it has no requests."""
        mine = [it for it in self.walk.notes.requests if it.stream == stream]
        turns: dict[int, list[tuple[Request, bool]]] = {}
        for it in mine:
            turns.setdefault(it.asked_step, []).append((it, True))
            if it.done_step:
                turns.setdefault(it.done_step, []).append((it, False))
        lane, now = Lane(f"{stream}: requests", "requests", [] if 0 in turns else [(0, "")]), []
        for step, changes in sorted(turns.items()):
            now += [it for it, begins in changes if begins]
            now = [it for it in now if (it, False) not in changes]
            lane.now(step, under_way(now))
        lane.parts = [it for it in lane.parts if it[0] <= self.part.end]
        return [lane] if mine else []

    def values(self) -> dict[str, object]:
        """All that the page is given."""
        whys, late = self.whys()
        lanes = [it for it in self.all_lanes() if self.is_told(it)]
        functions = self.functions()
        lanes[1:1] = functions
        if functions:
            asked = WhyJavaScript(self.walk)
            whys.update({it.name: asked.answer(it.name) for it in functions})
        begin, end = self.part.begin, self.part.end
        said, steps = self.walk.lines[begin : end + 1], self.walk.steps[begin:end]
        if any(SEND.fullmatch(it) for it in said):
            lanes.append(Lane("sends", "sends"))
        if any(it.startswith("io ") for it in steps):
            lanes.append(Lane("what came", "came"))
        return {
            "script": self.walk.script.lines,
            "first": self.walk.script.first,
            "names": self.names,
            "base": self.base,
            "changes": self.changes,
            "next": self.lines_done,
            "begin": begin,
            "opens": self.opens(late),
            "of": self.walk.length,
            "steps": [self.texts.number(it) for it in steps],
            "said": [self.texts.number(it) for it in said],
            "clock": list(self.walk.clocks[begin : end + 1]),
            "lanes": [{"name": it.name, "what": it.what, "parts": it.parts} for it in lanes],
            "late": late,
            "why": whys,
            "overview": [it for it in Overview(self.walk).answer("") if not it.startswith(("names: ", "ask next"))],
            "recorded": bool(self.walk.notes.names),
            "heaps": self.heaps,
            "long": self.long(),
            "part": "\n".join([*filter(None, [self.part.why]), *self.walk.notes.loud()]),
            "from": RED_RECORDED if self.walk.notes.names else RED,
            "kinds": {name: kind for name, (kind, _) in self.walk.notes.names.items()},
            "meant": MEANT,
            "came": self.came(),
            "texts": self.texts.rows,
        }

    def is_told(self, lane: Lane) -> bool:
        """Does it have a lane? In node not what node has for itself, unless its callbacks took a fifth of the time that all took."""
        if not self.walk.notes.is_nodes_own(lane.name):
            return True
        found = [it for it in self.walk.tooks if it.is_callback()]
        mine = sum(it.took() for it in found if it.what.rpartition(" of ")[2] == lane.name)
        return mine > 0 and FIFTH * mine >= sum(it.took() for it in found)

    def came(self) -> list[list[object]]:
        """The callbacks of I/O: their steps, whose, and what came, where the notes say that."""
        calls = [
            (step, *self.walk.calls[step][1:])
            for step in range(max(1, self.part.begin), self.part.end + 1)
            if self.walk.steps[step - 1].startswith("io ")
        ]
        return [[step, name, self.walk.notes.came(name, call)] for step, name, call in calls]

    def long(self) -> list[list[object]]:
        """The callbacks that took long: their first and last step, whose, and how many ms."""
        part = self.part
        found = [it for it in self.walk.tooks if it.is_callback() and it.took() >= LONG and it.first <= part.end and it.last >= part.begin]
        return [[it.first, it.last, self.in_javascript(it) or it.what.rpartition(" of ")[2], it.took()] for it in found]

    def in_javascript(self, took: Took) -> str:
        """The function of JavaScript that took most of it."""
        told = self.walk.notes.javascript.longest(took.pieces[0][0], took.pieces[-1][1])
        return told.text() if told else ""

    def functions(self) -> list[Lane]:
        """Lanes of the functions of JavaScript that timers and the like call: at the steps of the loop's callbacks in which they ran."""
        javascript = self.walk.notes.javascript
        steps = {call: step for step, call in self.walk.calls.items()}
        lanes: dict[str, Lane] = {}
        for span in javascript.spans:
            who, step = javascript.who(span), steps.get(span.call)
            if step is None or not self.has(step) or who.where == "-" or who.where.startswith(OUTSIDE):
                continue
            name = who.where if who.function == "(anonymous)" else who.function
            if name in self.lanes or name not in lanes and len(lanes) == FUNCTIONS:
                continue
            lane = lanes.setdefault(name, Lane(name, "name", [(0, "nothing")]))
            lane.now(step, "callback")
            lane.now(self.walk.last_of(step) + 1, "nothing")
        return list(lanes.values())


def html(walk: Walk, tell: Callable[[int, int], None] = lambda *_: None, at: int | None = None) -> str:
    """The page: the template with the values in it."""
    # (`<` could end the element that the values stand in)
    values = json.dumps(Page(walk, tell, at).values(), separators=(",", ":")).replace("<", "\\u003c")
    return TEMPLATE.read_text().replace("/*VALUES*/null", values)
