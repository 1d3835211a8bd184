"""What a hunt asks of a recording of the program: which orders might end badly."""

from __future__ import annotations

import itertools
import re
from collections.abc import Iterator
from dataclasses import dataclass, field
from pathlib import Path

from uvt.inputs import read_input

BODY = re.compile(r"(on|after|closed) (\S+) (?:@\d+ )?(\S+)(?: (\S+))?")
NAMELESS = {"run", "stoploop", "updatetime", "closeloop"}
# How long a stall is where no callback of the recording took longer, in ms.
STALL = 15
CODES = ("ESTALE", "EINVAL", "EBUSY")
# Of so many names each pair is asked about: of more than that, of neighbours alone.
PAIRS = 12


@dataclass
class Recorded:
    """A recording's script, and what came from outside."""

    lines: list[str]
    steps: list[str]
    bodies: dict[tuple[str, str], list[str]] = field(default_factory=dict)
    # the names, in the order in which they were called first
    called: list[str] = field(default_factory=list)
    # how long its longest callback took, in ms, or STALL where none took longer
    longest: int = 0

    def __post_init__(self) -> None:
        for line in self.lines:
            if it := BODY.match(line):
                self.bodies.setdefault((it[1], it[2]), []).append(line)

    def names(self) -> list[str]:
        return [it.split(" ")[1] for it in self.lines if it.startswith("var ")]

    def kinds(self) -> dict[str, str]:
        """The handles, each with its kind, except for `wake`, which the program doesn't have."""
        found = {it[1]: it[2] for line in self.lines if (it := re.search(r" init (\S+) (\S+)$", line))}
        return {name: kind for name, kind in found.items() if name != "wake"}

    def requests(self) -> list[str]:
        return list(dict.fromkeys(it[1] for line in self.lines if (it := re.search(r" queue (\S+) ", line))))

    def offers(self) -> list[str]:
        clock = sum(int(it.split(" ")[1]) for it in self.steps if it.startswith("tick "))
        came = [(word, it, self.steps.count(f"{word} {it}")) for it in self.kinds() for word in ("send", "io")]
        return ["may wait", f"most clock {3 * clock + 100}", *(f"may {word} {name} {min(3, count)}" for word, name, count in came if count)]

    def pairs(self, names: list[str]) -> Iterator[str]:
        """Two that were called in this order, the other way."""
        known = [it for it in self.called if it in names]
        known += [it for it in names if it not in known]
        pairs = itertools.combinations(known, 2) if len(known) <= PAIRS else zip(known, known[1:])
        return (f"{later} before {it}" for it, later in pairs)

    def questions(self) -> list[str]:
        kinds, requests = self.kinds(), self.requests()
        timers = [name for name, kind in kinds.items() if kind == "timer"]
        sent = [name for name, kind in kinds.items() if kind == "async"]
        asked = [f"late {it} 0" for it in timers] + [f"code {it}" for it in CODES]
        asked += [f"code {code} of {it}" for code in CODES[:2] for it in kinds]
        asked += [f"code ok of {it}" for it in requests if any(f" cancel {it}" in line for line in self.lines)]
        asked += [f"code ECANCELED of {it}" for it in requests] if any(" cancel " in line for line in self.lines) else []
        asked += self.pairs(requests)
        asked += self.pairs(timers + sent + requests)
        # (an order that is found has the fewest steps: so the one is called as soon behind the other as may be)
        asked += [f"{it} after {other}" for it in sent[:PAIRS] for other in (timers + requests)[:PAIRS]]
        asked += [f"never {it}" for it in timers + sent + requests] + ["stuck"]
        return list(dict.fromkeys(f"find {it}" for it in asked + [f"call {it} 2" for it in timers + sent]))


def read(path: Path) -> Recorded:
    text = path.read_text(errors="replace").splitlines()
    begin, calls = text.index("begin"), text.index("calls")
    outside = read_input(path)[0].notes.outside
    ticks = [int(it.split(" ")[1]) for at, it in enumerate(text[begin + 1 : calls], 1) if it.startswith("tick ") and at not in outside]
    called = list(dict.fromkeys(it.split(" ")[1] for it in text[calls + 1 : -1] if it.split(" ")[0] in ("call", "after")))
    return Recorded(text[1:begin], text[begin + 1 : calls], called=called, longest=max([STALL, *ticks]))


def names_in(line: str) -> list[str]:
    it = BODY.match(line)
    return [it[2], *([it[4]] if it[4] and it[3] not in NAMELESS else [])] if it else []
