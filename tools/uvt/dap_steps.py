"""The breakpoints and the steps of the debug adapter, each by the program's own commands."""

from __future__ import annotations

import os
import re
from collections.abc import Callable

from uvt.arrivals import what_came
from uvt.codes import CODES, SECTIONS
from uvt.conversation import Script
from uvt.dap_breaks import More, Unknown, more_of
from uvt.dap_javascript import InJavaScript
from uvt.dap_wire import Body, Refused, Server, Wire
from uvt.places import Place, next_line, read_place

OPS = re.compile(r"main |(on|after|closed) \S+ ")
THREAD = 1
# How many steps `continue` does between two looks at what the client has to say.
STRIDE = 64
# The most steps of a `loop N`.
MOST = 1 << 24
# How many places of a line `gotoTargets` names at the most.
TARGETS = 50


class Steps(Server):
    """The steps of what was launched, and where they stop."""

    def __init__(self, wire: Wire) -> None:
        super().__init__(wire)
        self.path = ""
        self.script = Script([])
        # the steps of what was launched, and those that are done again before the loop goes on by itself: they part where somebody does another
        self.launched: list[str] = []
        self.steps: list[str] = []
        # what the client counts lines and columns from
        self.base = [1, 1]
        self.lines: dict[int, More] = {}
        self.javascript: InJavaScript | None = None
        self.calls: dict[str, More] = {}
        self.filters: set[str] = set()
        # how far the steps that stand, and those that were taken back, reach
        self.top = 0

    # ---- breakpoints

    def on_setBreakpoints(self, arguments: Body) -> Body:
        asked = zip(self.listed(arguments, "breakpoints", "line"), map(more_of, self.listed(arguments, "breakpoints")))
        shown = []
        source = arguments.get("source")
        mine = isinstance(source, dict) and isinstance(source.get("path"), str) and os.path.abspath(source["path"]) == self.path
        if mine:
            self.lines = {}
        elif self.javascript and isinstance(source, dict) and isinstance(source.get("path"), str):
            return {"breakpoints": self.javascript.set_breaks(source["path"], list(asked), self.base[0], self.refusal)}
        for line, more in asked:
            first = self.first_line()
            number = line if isinstance(line, int) else 0
            at = number - first if isinstance(line, int) else -1
            holds = mine and 0 <= at < len(self.script.lines) and OPS.match(self.script.lines[at]) is not None
            refused = self.refusal(more) if holds else "no op stands in this line"
            if not refused:
                self.lines[at] = more
            # (a client may say True for 1)
            shown.append({"verified": False, "message": refused} if refused else {"verified": True, "line": int(number)})
        return {"breakpoints": shown}

    def refusal(self, more: More) -> str:
        """Why what a breakpoint has beside its place isn't taken; `` where it is."""
        try:
            more.check(self.script.names(), self.talk.state().numbers)
        except Unknown as unknown:
            return str(unknown)
        return ""

    def first_line(self) -> int:
        """The number that the client has for the script's first line."""
        return self.base[0] + self.script.first - 1

    def on_setFunctionBreakpoints(self, arguments: Body) -> Body:
        asked = zip(self.listed(arguments, "breakpoints", "name"), map(more_of, self.listed(arguments, "breakpoints")))
        names, shown = self.script.names(), []
        self.calls = {}
        for name, more in asked:
            refused = self.refusal(more) if isinstance(name, str) and name in names else "the script has no such name"
            if isinstance(name, str) and not refused:
                self.calls[name] = more
            shown.append({"verified": False, "message": refused} if refused else {"verified": True})
        self.set_breaks()
        return {"breakpoints": shown}

    def on_setExceptionBreakpoints(self, arguments: Body) -> None:
        known = {*CODES[1:], *(f"section {it}" for it in SECTIONS)}
        self.filters = {it for it in self.listed(arguments, "filters") if isinstance(it, str) and it in known}
        self.set_breaks()

    def set_breaks(self) -> None:
        """The breaks on names, codes and sections are the program's own."""
        self.talk.ask("break clear")
        for it in sorted(self.calls):
            self.talk.ask(f"break call {it}")
        for it in sorted(self.filters):
            self.talk.ask(f"break {it}" if it.startswith("section ") else f"break code {it}")

    # ---- steps

    def place(self) -> Place:
        return read_place(self.talk.state().place)

    def one(self) -> list[str] | None:
        """The next step: of what was launched, else of the loop. What it prints; None where it is refused, and that is said."""
        at = self.talk.length
        step = self.steps[at] if at < len(self.steps) else "loop"
        lines = self.talk.ask(step)
        if self.talk.length > at:
            self.top = self.talk.length
        for line in lines:
            self.event("output", category="stdout" if self.talk.length > at else "console", output=f"{line}\n")
        if step.startswith("io ") and self.steps is self.launched and (told := what_came(self.script.notes, step, self.talk.of_name(step[3:]))):
            self.event("output", category="console", output=f"    {told}\n")
        return lines if self.talk.length > at else None

    def break_at(self, place: Place) -> More | None:
        """The breakpoint of the line that comes next there."""
        line = next_line(self.script, place)
        return None if line is None else self.lines.get(line)

    def matched(self, lines: list[str]) -> str | None:
        """Why to stop behind a step that printed these lines."""
        if lines and lines[-1].startswith("break at "):
            reason = self.break_of(lines[0])
            if reason != "function breakpoint" or self.is_hit(self.calls[lines[0].split(" ")[1]]):
                return reason
        if self.lines and (more := self.break_at(self.place())) and self.is_hit(more):
            return "breakpoint"
        if self.javascript and self.steps is self.launched and (more := self.javascript.matched(lines, self.talk.state)) and self.is_hit(more):
            return "breakpoint"
        return None

    def is_hit(self, more: More) -> bool:
        """Whether to stop at a breakpoint: its condition holds, its count is there, and it has no message to be said instead."""
        state = self.talk.state()
        if not more.holds(state):
            return False
        if more.message:
            self.event("output", category="console", output=f"{more.said(state)}\n")
        return not more.message

    def break_of(self, line: str) -> str:
        """Which kind of break a step's line matched."""
        words = line.split(" ")
        return "function breakpoint" if words[0] in ("call", "after", "closed") and words[1] in self.calls else "exception"

    def stopped(self, reason: str) -> None:
        self.event("stopped", reason=reason, threadId=THREAD, allThreadsStopped=True)

    def run(self, ends: Callable[[], bool] | None) -> None:
        """Goes on to where `ends` holds, to a breakpoint, to a step that is refused, or until the client says something."""
        count = 0
        while True:
            lines = self.one()
            if lines is None:
                return self.stopped("pause")
            if reason := self.matched(lines):
                return self.stopped(reason)
            if ends and ends():
                return self.stopped("step")
            count += 1
            if count % STRIDE == 0 and self.is_asked_to_stop():
                return self.stopped("pause")

    def on_continue(self, arguments: Body) -> Body:
        self.later.append(lambda: self.run(None))
        return {"allThreadsContinued": True}

    def on_next(self, arguments: Body) -> None:
        inside = self.place().is_in_callback()
        self.later.append(lambda: self.run(lambda: inside or not self.place().is_in_callback()))

    def on_stepIn(self, arguments: Body) -> None:
        self.later.append(lambda: self.run(lambda: True))

    def on_stepOut(self, arguments: Body) -> None:
        self.later.append(lambda: self.run(lambda: not self.place().is_in_callback()))

    def on_pause(self, arguments: Body) -> None:
        """What goes on has stopped by then: a request is looked at where nothing does."""

    def on_stepBack(self, arguments: Body) -> None:
        moved = self.talk.ask("back 1") != ["refused range"]
        self.later.append(lambda: self.stopped("step" if moved else "entry"))

    def on_reverseContinue(self, arguments: Body) -> None:
        self.later.append(self.run_back)

    def run_back(self) -> None:
        """Back to the last breakpoint, or to the start."""
        here = self.talk.length
        found = self.rback()
        target = self.talk.length if found else 0
        if (self.lines or self.javascript and self.javascript.breaks) and (reason := self.line_before(here, target)):
            return self.stopped(reason)
        self.goto(target)
        self.stopped(self.break_of(self.talk.trace()[-1]) if found else "entry")

    def rback(self) -> bool:
        """Back to the last break of the program whose condition holds. (Counts of hits and messages are for the way on.)"""
        while self.talk.ask("rback") != ["refused range"]:
            words = self.talk.trace()[-1].split(" ")
            more = self.calls.get(words[1]) if words[0] in ("call", "after", "closed") else None
            if not more or More(more.condition).holds(self.talk.state()):
                return True
        return False

    def line_before(self, here: int, target: int) -> str | None:
        """Goes back from one length to another, up to where a line with a breakpoint comes next, or until the client says something."""
        for length in range(here - 1, target - 1, -1):
            state = self.talk.state_at(length)
            more = self.break_at(read_place(state.place))
            if not more and self.javascript and self.steps is self.launched and length:
                more = self.javascript.begun(self.talk.state_at(length - 1), state)
                self.talk.state_at(length)
            if more and More(more.condition).holds(state):
                return "breakpoint"
            if (here - length) % STRIDE == 0 and self.is_asked_to_stop():
                return "pause"
        return None

    def goto(self, length: int) -> None:
        away = length - self.talk.length
        if not 0 <= length <= MOST or self.talk.ask(f"forward {away}" if away > 0 else f"back {-away}") == ["refused range"]:
            raise Refused(f"only {self.talk.length} steps stand, and what was taken back doesn't reach to {length}")

    def on_gotoTargets(self, arguments: Body) -> Body:
        """The lengths at which the line's op comes next, of the steps that stand or were taken back; the first ones of many."""
        at = self.wanted(arguments, "line", int) - self.first_line()
        here = self.talk.length
        found: list[Body] = []
        for length in range(self.top + 1):
            if len(found) == TARGETS:
                break
            if next_line(self.script, read_place(self.talk.state_at(length).place)) == at:
                found.append({"id": length, "label": f"at {length}", "line": at + self.first_line()})
        self.goto(here)
        return {"targets": found}

    def on_goto(self, arguments: Body) -> None:
        self.goto(self.wanted(arguments, "targetId", int))
        self.later.append(lambda: self.stopped("goto"))
