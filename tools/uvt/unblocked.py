"""The polls that didn't wait, since somebody kept them from it: idle handles that were active, and handles that closed."""

from __future__ import annotations

import bisect
import functools
from typing import TYPE_CHECKING, Iterator

if TYPE_CHECKING:
    from uvt.walk import Walk


class Unblocked:
    """Of a session."""

    def __init__(self, walk: Walk) -> None:
        self.walk = walk

    @functools.cached_property
    def spans(self) -> dict[str, list[tuple[int, int, str]]]:
        """Since whom a poll doesn't wait: from which step, up to which other one, and the name. Idle handles that are active, and handles that
        close."""
        found: dict[str, list[tuple[int, int, str]]] = {"idle": [], "closing": []}
        for name, rows in self.walk.of_name.items():
            kind, active, closing = "", 0, 0
            for step, words in rows:
                match words:
                    case ["init", _, made, "=", id] if "." in id:
                        kind = made
                    case ["start", _, "=", "ok"] if kind == "idle":
                        active = active or step
                    case ["stop" | "close", _, "=", "ok"]:
                        found["idle"] += [(active, step, name)] if active else []
                        active, closing = 0, step if words[0] == "close" else closing
                    case ["closed", *_]:
                        found["closing"].append((closing, step, name))
                        closing = 0
            found["idle"] += [(active, self.walk.length + 1, name)] if active else []
            found["closing"] += [(closing, self.walk.length + 1, name)] if closing else []
        return found

    def polls(self, spans: list[tuple[int, int, str]], first: int, last: int) -> Iterator[tuple[str, list[int]]]:
        """Of each of these the polls from one step to another that didn't wait."""
        rows = self.walk.steps_of("poll")
        for begin, end, name in spans:
            a, b = max(begin, first), min(end - 1, last)
            if a <= b and (
                steps := [it for it in rows[bisect.bisect_left(rows, a) : bisect.bisect_right(rows, b)] if self.walk.line(it) == "poll 0"]
            ):
                yield name, steps
