"""The debug adapter: how a session with a client begins and ends, and what it is shown."""

from __future__ import annotations

import functools
import os
import re
from collections import deque
from pathlib import Path

from uvt.codes import CODES, SECTIONS
from uvt.conversation import Conversation
from uvt.inputs import read_input
from uvt.state import State
from uvt.dap_javascript import InJavaScript
from uvt.dap_steps import MOST, THREAD, Steps
from uvt.dap_wire import Body, Gone, Refused
from uvt.places import next_line
from uvt.walk import OUTSIDE, Walk
from uvt.ways import longest_way
from uvt.why import why
from uvt.why_javascript import WhyJavaScript

SCOPES = ["Loop", "Handles and requests", "Lists", "Names", "Heap"]
# How many steps a `loop N` that is evaluated does between two looks at what the client has to say.
LONG_STRIDE = 1000
# How many lines of a `loop N` are answered at the most: its last ones.
LINES = 10000


class Adapter(Steps):
    """A session between a client and `uvt debug`."""

    # ---- beginning and end

    def on_initialize(self, arguments: Body) -> Body:
        self.base = [0 if arguments.get(it) is False else 1 for it in ("linesStartAt1", "columnsStartAt1")]
        filters = [{"filter": it, "label": f"an op that answers {it}"} for it in CODES[1:]]
        filters += [{"filter": f"section {it}", "label": f"the section {it} begins"} for it in SECTIONS]
        return {
            "supportsConfigurationDoneRequest": True,
            "supportsFunctionBreakpoints": True,
            "supportsStepBack": True,
            "supportsConditionalBreakpoints": True,
            "supportsHitConditionalBreakpoints": True,
            "supportsLogPoints": True,
            "supportsTerminateRequest": True,
            "supportsGotoTargetsRequest": True,
            "exceptionBreakpointFilters": filters,
        }

    def on_launch(self, arguments: Body) -> None:
        path = self.wanted(arguments, "program", str)
        if "\0" in path:
            raise Refused("a path has no zero byte")
        self.script, commands = read_input(Path(path))
        self.path = os.path.abspath(path)
        if self.running:
            self.running.stop()
            self.running = None
        self.launched = self.steps = longest_way(self.script, commands)
        self.top = 0
        self.javascript = InJavaScript(self.script.notes.javascript, path) if self.script.notes.javascript else None
        self.running = Conversation(self.script)
        self.later.append(lambda: self.event("initialized"))

    def on_configurationDone(self, arguments: Body) -> None:
        for it in self.script.notes.loud():
            self.later.append(functools.partial(self.event, "output", category="important", output=f"{it}\n"))
        self.later.append(lambda: self.stopped("entry"))

    def on_disconnect(self, arguments: Body) -> None:
        def end() -> None:
            raise Gone

        self.later.append(end)

    on_terminate = on_disconnect

    # ---- what there is to see

    def on_threads(self, arguments: Body) -> Body:
        return {"threads": [{"id": THREAD, "name": "the loop"}]}

    def on_stackTrace(self, arguments: Body) -> Body:
        """The op that comes next, the callback that it is in, and the section or the main program."""
        place = self.place()
        at = next_line(self.script, place)
        names = [] if at is None else [self.script.lines[at]]
        if place.callback:
            kind, name, call, _ = place.callback
            names.append(f"call {call} of `{kind} {name}`")
        names.append("the main program" if place.mode is None else place.section())
        source = {"name": os.path.basename(self.path), "path": self.path}
        shown = [{"id": number, "name": name, "line": 0, "column": 0} for number, name in enumerate(names, 1)]
        if at is not None:
            shown[0].update(source=source, line=at + self.first_line(), column=self.base[1])
        if self.javascript and self.steps is self.launched and self.talk.length:
            of_javascript = self.javascript.frames(place, self.talk.trace()[-1], self.talk.state().counts, self.base)
            shown = [{**it, "id": number} for number, it in enumerate([*of_javascript, *shown], 1)]
        first = arguments.get("startFrame") or 0
        levels = arguments.get("levels") or len(shown)
        if not isinstance(first, int) or not isinstance(levels, int):
            raise Refused("`startFrame` and `levels` are numbers")
        return {"stackFrames": shown[first : first + levels], "totalFrames": len(shown)}

    def on_scopes(self, arguments: Body) -> Body:
        return {"scopes": [{"name": name, "variablesReference": number, "expensive": name == "Heap"} for number, name in enumerate(SCOPES, 1)]}

    def on_variables(self, arguments: Body) -> Body:
        number = self.wanted(arguments, "variablesReference", int)
        if not 1 <= number <= len(SCOPES):
            raise Refused(f"there are no variables {number}")
        rows = self.heap() if SCOPES[number - 1] == "Heap" else self.values(SCOPES[number - 1], self.talk.state())
        return {"variables": [{"name": name, "value": value, "variablesReference": 0} for name, value in rows]}

    @staticmethod
    def values(scope: str, state: State) -> list[tuple[str, str]]:
        if scope == "Loop":
            return [("place", state.place), *((name, str(value)) for name, value in state.numbers.items())]
        if scope == "Lists":
            return [(name, " ".join(members)) for name, members in state.lists.items()]
        if scope == "Names":
            return [(name, f"{id or 'none'}, called {' '.join(map(str, state.counts[name]))}") for name, id in state.bound.items()]
        held = [it for it in state.slots if it.name]
        return [(it.name, " ".join([it.id, it.kind, *(f"{a} {b}" for a, b in it.values.items()), it.outcome]).strip()) for it in held]

    def heap(self) -> list[tuple[str, str]]:
        lines = [it for it in self.talk.ask("image") if it.split(" ")[0] in ("heap", "places", "counts")]
        return [(line.split(" ")[0], line.partition(" ")[2]) for line in lines]

    def on_evaluate(self, arguments: Body) -> Body:
        """A command of the program, `goto LENGTH`, `why NAME`, or a name."""
        typed = str(self.wanted(arguments, "expression", str)).strip()
        before, reason = self.talk.length, "goto"
        found = re.fullmatch(r"goto (\d{1,8})", typed)
        if found:
            self.goto(int(found[1]))
            lines = [f"at {self.talk.length}"]
        elif typed in self.script.names():
            lines = [value for name, value in self.values("Handles and requests", self.talk.state()) if name == typed] or ["it stands for nothing"]
        elif typed.startswith("why ") and typed.count(" ") == 1:
            lines = self.why(typed.removeprefix("why "))
        elif typed == "quit" or not typed or "\n" in typed or not typed.isascii():
            raise Refused("this is no command")
        else:
            lines, reason = self.asked(typed)
        if typed.split(" ")[0] in ("loop", *OUTSIDE) and self.talk.length != before:
            self.done_by_hand(before, typed)
        if self.talk.length != before:
            self.later.append(lambda: self.stopped(reason))
        if lines == ["bad command"]:
            raise Refused(f"`{typed}` is no command of the program")
        return {"result": "\n".join(lines), "variablesReference": 0}

    def why(self, name: str) -> list[str]:
        """Of the steps that stand. (A program of its own goes through them, so that this one stays where it is.)"""
        if self.javascript and name not in self.script.names():
            with Walk(self.script, self.launched) as walk:
                return WhyJavaScript(walk).answer(name)
        if name not in self.script.names():
            raise Refused(f"the script has no name `{name}`")
        with Walk(self.script, self.talk.recording().steps) as walk:
            return why(walk, name)

    def asked(self, typed: str) -> tuple[list[str], str]:
        """The answer to a command, and why it stops there. A long `loop N` goes stride by stride, so that the client can end it."""
        found = re.fullmatch(r"loop ([1-9]\d{0,7})", typed)
        if not found or not LONG_STRIDE < int(found[1]) <= MOST:
            return self.talk.ask(typed), "goto"
        rest, count, reason = int(found[1]), 0, "goto"
        kept: deque[str] = deque(maxlen=LINES)
        while rest and reason == "goto":
            lines = self.talk.ask(f"loop {min(rest, LONG_STRIDE)}")
            rest -= min(rest, LONG_STRIDE)
            kept.extend(lines)
            count += len(lines)
            if lines and lines[-1].startswith(("refused ", "break at ")):
                break
            if rest and self.is_asked_to_stop():
                reason = "pause"
        left_out = [f".. {count - LINES} lines before these"] if count > LINES else []
        return [*left_out, *kept], reason

    def done_by_hand(self, before: int, typed: str) -> None:
        """From here on the session is another one than that which was launched: what stood, and what a command did."""
        step = "loop" if typed.startswith("loop ") else typed
        stood = self.steps[:before]
        self.steps = [*stood, *["loop"] * (before - len(stood)), *[step] * (self.talk.length - before)]
        self.top = self.talk.length
