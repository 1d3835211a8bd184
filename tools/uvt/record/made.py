"""The recording of a loop: what the program says of it, and whether its callbacks are those of the log."""

from __future__ import annotations

import itertools
import subprocess
from dataclasses import dataclass

from uvt.conversation import built_program
from uvt.progress import Teller
from uvt.record.follow import CALLS, Follower, MANY_WORKERS, NeedsWake
from uvt.record.leading import Outcome
from uvt.record.items import Call, Program
from uvt.record.log import Log
from uvt.record.parts import Part, chosen
from uvt.record.polls import Polls, compare
from uvt.record.script import program_of
from uvt.session_lines import StepLines, told_of


@dataclass
class Made:
    """A recording, the lines of its steps, what `uvt replay` says of it, and whether its callbacks are those of the log."""

    outcome: Outcome
    program: Program
    lines: StepLines
    verdict: str
    agrees: bool
    polls: Polls

    def is_whole(self) -> bool:
        return not self.outcome.why and not self.program.stopped and self.verdict == "same" and self.agrees


def replayed(lines: list[str]) -> str:
    ran = subprocess.run([built_program(), "replay"], input="\n".join(lines) + "\n", capture_output=True, text=True)
    return ran.stdout.strip() or ran.stderr.strip()


def agrees(program: Program, outcome: Outcome) -> bool:
    """Are the recording's callbacks those of the log, by their names, as far as they go?"""
    calls = outcome.recording[outcome.recording.index("calls") + 1 : -1]
    names = [it for it in calls if not it.startswith("call wake ")]
    wanted = list(itertools.islice((it for it in program.items if isinstance(it, Call)), outcome.callbacks))
    return len(names) == len(wanted) and all(f"{line} ".startswith(f"{CALLS[it.callback]} {it.name} ") for line, it in zip(names, wanted))


def followed(program: Program, workers: int) -> Outcome:
    """The recording that goes farthest. Where the loop waits and nobody woke it a handle `wake` stands for who did; where a request
    was passed by later ones there are more workers, as libuv does slow work apart."""
    wake, best = False, None
    while True:
        try:
            teller = Teller("uvt-record", "events")
            outcome = Follower(program, workers, wake, teller.tell).follow()
        except NeedsWake:
            wake = True
            continue
        finally:
            teller.done()
        if best is None or outcome.callbacks > best.callbacks or not outcome.why:
            best = outcome
        passed = isinstance(outcome.item, Call) and outcome.item.callback == "after"
        if not outcome.why or not passed or workers >= MANY_WORKERS:
            return best
        workers = MANY_WORKERS


def make(log: Log, loop: int, part: Part = Part()) -> Made | None:
    """The recording of a loop. None if it has no callback."""
    if not log.loops[loop].has("B"):
        return None
    found = chosen(log, loop, part)
    program = program_of(log, found.events, loop)
    program.began, program.begin, program.again_line = found.began(), found.begin or 0, found.again_line()
    program.stopped = program.stopped or found.cut
    if not program.callbacks():
        return None
    outcome = followed(program, log.workers)
    lines = StepLines(*told_of(outcome.lines))
    polls = compare(program, lines, outcome.callbacks, not outcome.why)
    return Made(outcome, program, lines, replayed(outcome.recording), agrees(program, outcome), polls)
