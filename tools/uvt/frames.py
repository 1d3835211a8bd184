"""Where JavaScript was in a callback of the loop, and in which callbacks a line of it was: for the shell and the debug adapter."""

from __future__ import annotations

import os
from dataclasses import dataclass
from pathlib import Path

from uvt.state import State
from uvt.javascript import JavaScript
from uvt.javascript_pieces import LISTS, OUTSIDE, Place

Call = tuple[str, str, int]


@dataclass(frozen=True)
class Frame:
    """A function, and the line at which it was: the one at which it was found most, or that at which it begins."""

    name: str
    file: str
    line: int
    begins: int

    def is_at(self, line: int) -> bool:
        return line in (self.line, self.begins)

    def text(self) -> str:
        return f"{self.name} ({self.file}:{self.line})"


def frame_of(place: Place, line: str = "0") -> Frame | None:
    file, _, begins = place.where.rpartition(":")
    if not file or not begins.isdecimal() or file.startswith(OUTSIDE):
        return None
    return Frame(place.function, file, int(line) if line != "0" else int(begins), int(begins))


class Frames:
    """Of a recording's callbacks the functions of JavaScript, the innermost first."""

    def __init__(self, javascript: JavaScript, path: str) -> None:
        self.javascript = javascript
        # where the program's files are looked for: where it was started, and beside the recording
        self.folders = [it for it in (javascript.home, os.path.dirname(os.path.abspath(path))) if it]
        self.by_call: dict[Call, list[Frame]] = {}
        for call in [*javascript.by_call, *javascript.most]:
            self.by_call.setdefault(call, self.read(call))

    def read(self, call: Call) -> list[Frame]:
        found: list[Frame | None] = []
        if call in self.javascript.most:
            _, under = self.javascript.most[call]
            found = [frame_of(under.inner, under.line), *([frame_of(under.outer)] if under.outer != under.inner else [])]
        whole = [it for it in found if it]
        for span in self.javascript.by_call.get(call, []):
            frame = frame_of(self.javascript.who(span))
            if frame and all((it.name, it.file) != (frame.name, frame.file) for it in whole):
                whole.append(frame)
        return whole

    def source(self, frame: Frame) -> str:
        """The path of its file; `` where that isn't there."""
        return next((str(path) for it in self.folders if (path := Path(it, frame.file)).is_file()), "")

    def lines_of(self, path: str) -> set[int]:
        """The lines of this file at which JavaScript was seen: where its functions begin, and at which they were found."""
        return {line for frames in self.by_call.values() for it in frames if self.is_file(it.file, path) for line in (it.line, it.begins)}

    def is_file(self, file: str, path: str) -> bool:
        return file == path or path.endswith("/" + file) or file.endswith("/" + path) or any(os.path.join(it, file) == path for it in self.folders)

    def nearest(self, path: str, line: int) -> int | None:
        """The line at which a break stops that is asked for at this one: the last one before it at which JavaScript was seen, or the next."""
        lines = sorted(self.lines_of(path))
        before = [it for it in lines if it <= line]
        return before[-1] if before else lines[0] if lines else None

    def calls_at(self, path: str, line: int) -> frozenset[Call]:
        """The callbacks of the loop in which JavaScript was there."""
        return frozenset(call for call, frames in self.by_call.items() if any(it.is_at(line) and self.is_file(it.file, path) for it in frames))


def begun(before: State, state: State, calls: frozenset[Call]) -> Call | None:
    """Which of these callbacks began between two states."""
    places = dict(LISTS.values())
    for kind, name, number in calls:
        if name in state.counts and before.counts[name][places[kind]] < number <= state.counts[name][places[kind]]:
            return kind, name, number
    return None
