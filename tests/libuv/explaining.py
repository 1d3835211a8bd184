"""Whether tools/uvt/uvt-libuv names a heading that explains where a script's lines part.

The tool has no model: it goes by the states of uvt. Here its headings are held against the switches that the model needs to come to
libuv's lines up to the first one that isn't the same.
"""

from __future__ import annotations

from tests.libuv.comparing import first_parting
from tests.libuv.model import SWITCHES, Model, switches_of
from tests.libuv.programs import Program
from uvt.conversation import Script
from uvt.libuv.differences import Cause, parting
from uvt.libuv.runner import Library, run_programs
from uvt.libuv.session import lead
from uvt.walk import Walk
from uvt.ways import longest_way


def needed(library: Library, program: Program, real: list[str], at: int) -> frozenset[str]:
    """The switches that it takes to come to these lines, up to the one of this number."""
    on = switches_of(library.version)
    for switch in SWITCHES:
        if switch in on and Model(program, library.version, on - {switch}).run()[: at + 1] == real[: at + 1]:
            on -= {switch}
    return on


def told(library: Library, program: Program, commands: list[str]) -> tuple[int | None, list[Cause]]:
    """Where the two part by the tool, and the headings that it names."""
    script = Script(program.script())
    with Walk(script, longest_way(script, commands)) as walk:
        led = lead(walk)
        there = run_programs(library, {"script": led.text}, led.workers)["script"]
        parted = parting(walk, led, there, library)
    return (parted.at, parted.causes) if parted else (None, [])


def wrong_words(library: Library, program: Program, real: list[str]) -> str | None:
    """What is wrong with what the tool says of this program. Nothing is asked of one that the limit of lines ends."""
    model = Model(program, library.version)
    without = model.run()
    if "limit" in (real[-1], without[-1]):
        return None
    at = None if real == without else first_parting(real, without)
    there, causes = told(library, program, model.commands)
    # (the clock of a poll that waits longer is moved by the rest in a step of its own)
    ticks = at is not None and real[at].startswith("out tick ") and without[at].startswith("out tick ")
    # (and what I/O a poll brings comes at once by the tool, so it doesn't see that libuv was woken there for nobody)
    brought = there is None and at is not None and any(it[0] == "io" for _, it in program.steps) and "wake" in needed(library, program, real, at)
    if there != at and not ticks and not brought:
        return f"the tool finds the first difference at line {there}, and it is at line {at}"
    if at is None or brought:
        return None
    switches = needed(library, program, real, at)
    headings = {heading for it in switches for heading in SWITCHES[it]}
    named = [it.heading for it in causes]
    return None if headings & set(named) else f"at line {at} the tool names {named}, and it takes {sorted(switches)}"
