"""The notes of a recording, from its log."""

from __future__ import annotations

import collections
import re

from uvt.notes import Notes
from uvt.record.items import Program
from uvt.record.made import Made
from uvt.record.steps import Steps
from uvt.record.told import part_of
from uvt.spent import Spent

OPS = re.compile(r"(on|after|closed) (\S+) (?:@(\d+) )?")


def foreign_lines(made: Made) -> dict[int, str]:
    """The lines of the recording that another thread than the loop's did."""
    if not made.program.foreign_ops:
        return {}
    found: dict[int, str] = {}
    counts: collections.Counter[tuple[str, str, int]] = collections.Counter()
    for number, line in enumerate(made.outcome.recording, 1):
        if line == "begin":
            break
        if op := OPS.match(line):
            key = op[1], op[2], int(op[3] or 0)
            if function := made.program.foreign_ops.get((*key, counts[key])):
                found[number] = function
            counts[key] += 1
    return found


def waits_of(program: Program) -> list[tuple[int, int, str]]:
    """The calls in which JavaScript or Lua stood still. (Of Python the line that waits is known.)"""
    known = program.javascript.language == "Python"
    return sorted((it.begin, it.took, it.function) for found in program.waits.values() for it in found if not known)


def spent_of(program: Program) -> dict[tuple[str, str, int], Spent]:
    """What callbacks and works did while they took long, of a program without an interpreter: of JavaScript and the like that is known better."""
    found: dict[tuple[str, str, int], Spent] = {}
    for key in [*program.used, *program.waits, *program.stacks] if not program.javascript else ():
        if key in found:
            continue
        spent = found[key] = Spent()
        for it in program.waits.get(key, ()):
            spent.waits.append((f"{it.function}^{it.owner}" if it.owner else it.function, it.begin, it.took, it.place))
        for frames, looked in program.stacks.get(key, ()):
            spent.look(frames, looked)
        if used := program.used.get(key):
            spent.kernel, spent.faults, spent.disk, spent.gave, spent.lost, spent.waited = used
    return found


def notes_of(made: Made, note: str, where: str = "", kept: str = "") -> Notes:
    """What is known of a recording beside its steps."""
    steps = made.outcome.recording[made.outcome.recording.index("begin") + 1 : made.outcome.recording.index("calls")]
    made.program.javascript.waits = waits_of(made.program) if made.program.javascript else []
    outside = {at for at, it in enumerate(steps, 1) if it.startswith(("send ", "take ", "finish "))}
    stand = Steps(made.program, made.lines)
    places, number = stand.places()
    return Notes(
        part_of(made, note),
        {it.name: (it.kind, it.text) for it in made.program.origins},
        made.program.functions,
        outside - made.outcome.known,
        foreign_lines(made),
        made.outcome.outside,
        made.outcome.times | stand.queued,
        made.program.came,
        made.polls.said(),
        where,
        made.outcome.by,
        made.program.javascript,
        [name for _, name in made.program.again],
        {it.name: it.told() for it in made.program.written},
        processor=dict(made.program.processor),
        spent=spent_of(made.program),
        held=dict(made.program.held),
        reaped=dict(made.program.reaped),
        places=places,
        asked_at={step: number[it] for step, it in stand.asked_at.items() if it in number},
        requests=stand.requests(number),
        nothings=stand.nothings(number),
        kept=kept,
        before=stand.before,
    )
