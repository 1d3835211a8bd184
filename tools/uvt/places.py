"""Where a loop stands in its script: which line its next step does, and where it is in words."""

from __future__ import annotations

import re
from dataclasses import dataclass

from uvt.conversation import Script

BODY = re.compile(r" \+ (?P<list>on|after|closed) (?P<name>\S+) (?P<call>\d+) (?P<line>\d+)$")
# What stands behind a place whose words don't say it.
MEANT = {
    "polled": "a callback of I/O left the poll, and nobody had woken it",
    "polled woken": "a callback of I/O left the poll, which was woken",
    "done unwoken": "nobody had woken the poll, so it calls nobody",
}
# Where a loop is, by the first word of its place, for people: whose turn it is.
TURNS = {
    "entry": "the beginning of its run",
    "timers": "its timers",
    "pending": "the callbacks that it had put off",
    "idle": "its idle handles",
    "prepare": "its prepare handles",
    "poll": "its poll",
    "polled": "the callbacks of its poll",
    "done": "the after callbacks",
    "async": "its async handles",
    "check": "its check handles",
    "closing": "the close callbacks",
}
RUN = re.compile(r"(?P<mode>default|once|nowait) (?P<main>\d+) (?P<where>.*)$")


@dataclass
class Place:
    """The text behind `place` of a state, cut into its parts."""

    # the line of the main program that comes next, or that began the run under way, from 0
    main: int
    mode: str | None = None
    where: str = ""
    # the callback under way: `on`, `after` or `closed`, its name, which call it is, and its list's next line, from 0
    callback: tuple[str, str, int, int] | None = None

    def is_in_callback(self) -> bool:
        return self.callback is not None

    def turn(self) -> str:
        """Whose turn it is, in a run."""
        return TURNS.get(self.where.split(" ")[0], self.where)

    def words(self) -> str:
        if self.mode is None:
            return f"the main program, at its line {self.main}"
        inner = f", in call {self.callback[2]} of `{self.callback[0]} {self.callback[1]}`" if self.callback else ""
        return f"{self.section()}{inner}"

    def section(self) -> str:
        """Where the run under way is, without its callback."""
        meant = f" ({MEANT[self.where]})" if self.where in MEANT else ""
        return f"run {self.mode}: {self.where}{meant}"


def read_place(text: str) -> Place:
    body = BODY.search(text)
    callback = (body["list"], body["name"], int(body["call"]), int(body["line"])) if body else None
    run = RUN.match(text[: body.start()] if body else text)
    if run:
        return Place(int(run["main"]), run["mode"], run["where"], callback)
    return Place(int(text.split(" ")[1]))


def next_line(script: Script, place: Place) -> int | None:
    """The number, from 0, of the script's line that the next step does. None where it does none of them."""
    if place.callback:
        kind, name, _, at = place.callback
        lines = script.numbered(f"{kind} {name}")
    elif place.mode is None:
        lines, at = script.numbered("main"), place.main
    else:
        return None
    return lines[at] if at < len(lines) else None
