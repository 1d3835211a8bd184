"""JavaScript in the debug adapter: the program's own functions and files as frames, and breakpoints in them."""

from __future__ import annotations

import os
from collections.abc import Callable, Mapping, Sequence

from uvt.state import State
from uvt.dap_breaks import More
from uvt.dap_wire import Body
from uvt.frames import Frame, Frames, begun
from uvt.javascript import JavaScript
from uvt.places import Place


class InJavaScript:
    """The frames of a recording's callbacks, and the breakpoints in the program's own files."""

    def __init__(self, javascript: JavaScript, path: str) -> None:
        self.known = Frames(javascript, path)
        # by file and line, from 1
        self.breaks: dict[tuple[str, int], More] = {}

    def set_breaks(self, path: str, asked: list[tuple[object, More]], base: int, refusal: Callable[[More], str]) -> list[Body]:
        """Those of a file, in place of the ones before. One stops at the callbacks of the loop in which its line was seen, or the last line
        before it that was."""
        self.breaks = {it: more for it, more in self.breaks.items() if it[0] != path}
        shown: list[Body] = []
        for line, more in asked:
            at = self.known.nearest(path, line - base + 1) if type(line) is int else None
            refused = refusal(more) if at is not None else "no function of this file was seen under way in a callback"
            if refused or at is None:
                shown.append({"verified": False, "message": refused})
            else:
                self.breaks[path, at] = more
                shown.append({"verified": True, "line": at + base - 1})
        return shown

    def matched(self, lines: list[str], state: Callable[[], State]) -> More | None:
        """The breakpoint of the callback that a step with these lines begins."""
        if not self.breaks or not lines:
            return None
        call = self.known.javascript.call_of(lines[0], state().counts)
        return next((more for (path, line), more in self.breaks.items() if call in self.known.calls_at(path, line)), None) if call else None

    def begun(self, before: State, state: State) -> More | None:
        return next((more for (path, line), more in self.breaks.items() if begun(before, state, self.known.calls_at(path, line))), None)

    def frames(self, place: Place, last: str, counts: Mapping[str, Sequence[int]], base: list[int]) -> list[Body]:
        """Where JavaScript is in the callback that is under way, or that the last step began."""
        call = place.callback[:3] if place.callback else self.known.javascript.call_of(last, counts) if last else None
        return [self.shown(it, base) for it in self.known.by_call.get(call, [])] if call else []

    def shown(self, frame: Frame, base: list[int]) -> Body:
        path = self.known.source(frame)
        found = {"name": frame.name, "line": frame.line + base[0] - 1, "column": base[1]}
        if not path:
            return {**found, "name": frame.text(), "line": 0, "column": 0}
        return {**found, "source": {"name": os.path.basename(path), "path": path}}
