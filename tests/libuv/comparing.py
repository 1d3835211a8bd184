"""One program on the real library, on uvt, and on the model between them: what they print, and which differences explain it."""

from __future__ import annotations

from collections import Counter
from dataclasses import dataclass, field

from tests.helper import limited
from tests.libuv.model import SWITCHES, Model, switches_of
from tests.libuv.planted import obey
from tests.libuv.programs import Program
from uvt.libuv.runner import Library, common, run_programs


@dataclass
class Tested:
    """The program under test: that at a path, or a loop with a wrong rule in its place."""

    path: str
    planted: str | None = None

    def lines(self, program: Program, commands: list[str]) -> list[str]:
        """What it prints at these commands, without the lines that libuv has no counterpart of."""
        if self.planted:
            return obey(self.planted, program.text, commands)
        given = "\n".join([*program.script(), "begin", *commands, ""])
        ran = limited([self.path, "debug"], input=given, capture_output=True, text=True)
        if ran.returncode != 0:
            return [f"status {ran.returncode}: {ran.stderr.strip()}"]
        return [it for it in map(common, ran.stdout.splitlines()) if it is not None]


@dataclass
class Seen:
    """One program: the lines of libuv, of uvt, and of the model without its switches and with all of them."""

    real: list[str]
    tested: list[str]
    without: list[str]
    switched: list[str]

    def fault(self) -> str | None:
        """What no documented difference explains."""
        if self.switched != self.real:
            return "libuv isn't what the model is with all switches: " + parting(self.real, self.switched, "libuv", "the model")
        if self.tested != self.without:
            return "uvt isn't what the model is without switches: " + parting(self.tested, self.without, "uvt", "the model")
        return None


def parting(one: list[str], other: list[str], its_name: str, others_name: str) -> str:
    at = first_parting(one, other)
    here = [some[at] if at < len(some) else "(nothing)" for some in (one, other)]
    return f"line {at + 1} is `{here[0]}` of {its_name}, and `{here[1]}` of {others_name}"


def first_parting(one: list[str], other: list[str]) -> int:
    pairs = enumerate(zip(one, other))
    return next((at for at, (a, b) in pairs if a != b), min(len(one), len(other)))


def see(library: Library, tested: Tested, programs: dict[str, Program]) -> dict[str, Seen]:
    """All of them, each by its name."""
    by_workers: dict[int, dict[str, str]] = {}
    for name, program in programs.items():
        by_workers.setdefault(program.workers, {})[name] = program.text
    real: dict[str, list[str]] = {}
    for workers, texts in by_workers.items():
        real.update(run_programs(library, texts, workers))
    on = switches_of(library.version)
    found = {}
    for name, program in programs.items():
        model = Model(program, library.version)
        without = model.run()
        said = tested.lines(program, model.commands)
        # (where the limit ends a run nobody refuses anything)
        lines = said + ["limit"] if without[-1] == "limit" else said
        found[name] = Seen(real[name], lines, without, Model(program, library.version, on).run())
    return found


def explain(library: Library, program: Program, seen: Seen) -> frozenset[str]:
    """The switches that it takes, each of them, to come from uvt's lines to those of libuv."""
    on = switches_of(library.version)
    for switch in SWITCHES:
        if switch in on and Model(program, library.version, on - {switch}).run() == seen.real:
            on -= {switch}
    return on


@dataclass
class Counts:
    """What became of some programs."""

    tried: Counter[str] = field(default_factory=Counter)  # by family
    same: Counter[str] = field(default_factory=Counter)
    explained: Counter[str] = field(default_factory=Counter)  # by heading
    alone: Counter[str] = field(default_factory=Counter)
    callbacks: int = 0
    faults: list[tuple[str, str]] = field(default_factory=list)

    def add(self, other: Counts) -> None:
        self.tried += other.tried
        self.same += other.same
        self.explained += other.explained
        self.alone += other.alone
        self.callbacks += other.callbacks
        self.faults += other.faults


# An op whose answer shows that a timer that was set aside isn't active.
ASKING = ("active ", "alive ", "timeout ")


def headings_of(switches: frozenset[str], seen: Seen) -> list[str]:
    """The headings of docs/LIBUV.md. Of the two that stand for `heap` the one that the first line tells which isn't the same."""
    found = []
    for switch in SWITCHES:
        if switch in switches:
            headings = SWITCHES[switch]
            at = first_parting(seen.real, seen.without)
            asks = len(switches) == 1 and at < len(seen.without) and seen.without[at].startswith(ASKING)
            found.append(headings[-1] if asks else headings[0])
    return found


def count(library: Library, tested: Tested, texts: dict[str, tuple[str, str]]) -> Counts:
    """Of programs by their names, each with its family and its text."""
    programs = {name: Program(text) for name, (_, text) in texts.items()}
    counts = Counts()
    for name, seen in see(library, tested, programs).items():
        family = texts[name][0]
        counts.tried[family] += 1
        counts.callbacks += sum(it.startswith(("call ", "after ", "closed ")) for it in seen.real)
        fault = seen.fault()
        if fault:
            counts.faults.append((name, fault))
        elif seen.real == seen.tested:
            counts.same[family] += 1
        else:
            headings = headings_of(explain(library, programs[name], seen), seen)
            counts.explained.update(headings)
            if len(headings) == 1:
                counts.alone.update(headings)
    return counts
