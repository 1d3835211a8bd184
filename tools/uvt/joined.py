"""Several recordings of one program as one script: each callback does, call by call, what it did in the first recording that has that call."""

from __future__ import annotations

import re
from collections import Counter
from dataclasses import dataclass
from pathlib import Path

from uvt.conversation import Script
from uvt.offered import Offered

Callback = tuple[str, str]
# So many places where two recordings contradict each other are said.
SHOWN = 8


@dataclass
class Recorded:
    path: Path
    script: Script
    offered: Offered

    def lines(self, callback: Callback) -> list[str]:
        return [self.script.lines[at] for at in self.script.numbered(" ".join(callback))]

    def lines_of_main(self) -> list[str]:
        return [self.script.lines[at] for at in self.script.numbered("main")]

    def callbacks(self) -> list[Callback]:
        return [(words[0], words[1]) for first in self.script.places if len(words := first.split(" ")) == 2 and words[0] in ("on", "after", "closed")]


def ops_of(lines: list[str], call: int) -> list[str]:
    """What these lines of a callback do in this call."""
    found = []
    for line in lines:
        at = re.fullmatch(r"\w+ \w+ (?:@(\d+) )?(.*)", line)
        if at and (not at[1] or int(at[1]) == call):
            found.append(at[2])
    return found


def body(first: Recorded, other: Recorded, callback: Callback, said: list[str]) -> list[str]:
    """The lines of a callback by both. Where they contradict each other it is as in the first, which is said."""
    own, its = first.lines(callback), other.lines(callback)
    known, more = first.offered.calls[callback], other.offered.calls[callback]
    if own == its or not more:
        return own
    if not known:
        return its
    which, name = callback
    for call in range(1, min(known, more) + 1):
        one, two = ops_of(own, call), ops_of(its, call)
        if one != two:
            said.append(f"call {call} of `{which} {name}`: {told(one)} in {first.path}, {told(two)} in {other.path}; it is as in {first.path}")
    if more <= known:
        return own
    return [f"{which} {name} @{call} {op}" for call in range(1, more + 1) for op in ops_of(own if call <= known else its, call)]


def told(ops: list[str]) -> str:
    return ", ".join(f"`{it}`" for it in ops) or "nothing"


def both(first: Recorded, other: Recorded, said: list[str]) -> Recorded:
    """The two as one, by the first one's path."""
    if first.lines_of_main() != other.lines_of_main():
        said.append(f"the main programs differ: it is as in {first.path}")
    callbacks = list(dict.fromkeys([*first.callbacks(), *other.callbacks()]))
    names = list(dict.fromkeys([*first.script.names(), *other.script.names()]))
    settings = [it for it in first.script.lines if it.split(" ")[0] in ("order", "io", "timers", "slots", "workers")]
    if other.script.has_io() and "io" not in settings:
        settings.append("io")
    lines = settings + [f"var {name}" for name in names] + first.lines_of_main()
    for callback in callbacks:
        lines += body(first, other, callback, said)
    lines += [it for it in first.script.lines if it.startswith("thread ")]
    return Recorded(first.path, Script(lines, 2, first.script.notes), together(first.offered, other.offered))


def together(one: Offered, two: Offered) -> Offered:
    """What came in either, as often as it came most; how long a call took by the first that has it."""
    takes = Counter(one.takes)
    takes.update({it: ms for it, ms in two.takes.items() if it[2] > one.calls[it[:2]]})
    closed, clock = one.closed + two.closed, max(one.clock, two.clock)
    return Offered(one.came | two.came, one.ticks | two.ticks, one.waits | two.waits, takes, one.calls | two.calls, closed, clock)


def joined(recordings: list[Recorded]) -> tuple[Recorded, list[str]]:
    """All as one, and where they contradict each other, a sentence for each place."""
    said: list[str] = []
    whole = recordings[0]
    for other in recordings[1:]:
        whole = both(whole, other, said)
    return whole, said[:SHOWN] + ([f"and {len(said) - SHOWN} more places where they differ"] if len(said) > SHOWN else [])
