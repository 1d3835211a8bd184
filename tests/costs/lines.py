"""What a line costs in instructions: tests/costs/lines [--program PATH] [--beside PATH] [--steps]

Each figure is what two sessions differ by (`valgrind --tool=callgrind`), of which one has more steps, handles or lines of script, divided
by how many more. The steps are those of idle handles that spin, one or ten (as in tests/costs/instructions), and no list of them grows
between the two. What a command takes is the difference of a session that gives it and one that doesn't. A replay is a whole run of the
program over a recording, so its figure has the callbacks that are compared: of ten handles half of the steps call one, of one a tenth. A
handle of `state` has two lines in it, that of its name and that of its slot, and if it is started its name stands in the line of a list;
a script gives a handle three lines, of which one is its name's. A line `loop` does one step and prints its line, of the idle handle that
spins: lines that follow one another in the input are read some hundreds at a time, and of those that are waited for each is sent once the
answer to the one before it has come, as when somebody types them.

The program is that of ./uvt build, or the one that is named. With --beside another program stands beside it, as the same one of an older
version, and the ratio of the two. With --steps the table of tests/costs/instructions stands in front: both are the tables of
docs/BENCHMARKS.md.
"""

from __future__ import annotations

import argparse
import shutil
import subprocess
import sys
import tempfile
from pathlib import Path
from typing import Callable

from tests.costs.instructions import COLUMNS, ROOT, VALGRIND, Fault, Program, collected, counted_by, idle_handles, ratio, show, shown, text_of

# sessions of so many steps are compared: the lists of both have room for the same number
FEW, MANY = 36_000, 60_000
# behind the first steps so many lines are given, each a command; so many where each is waited for, which takes a turn of two processes
LINES, TYPED = 4000, 500
# and states of so many handles
SOME, MORE = 1000, 4000


def spinning(count: int, steps: int) -> list[str]:
    """So many idle handles, after so many steps."""
    return [*idle_handles(count), "begin", f"loop {steps}"]


def handles(count: int, kind: str, then: str) -> list[str]:
    """So many handles, behind whose `init` there is this line (NAME is that of the handle), and the steps that make them."""
    lines = [f"slots {count}", *(f"var n{number}" for number in range(count))]
    for number in range(count):
        lines += [f"main init n{number} {kind}", f"main {then.replace('NAME', f'n{number}')}"]
    return [*lines, "main run default", "begin", f"loop {2 * count + 1}"]


def conversation(program: str, lines: list[str]) -> int:
    return collected([program, "debug"], text_of(lines))


def command(program: str, lines: list[str], word: str) -> int:
    """What a command takes behind these lines."""
    return conversation(program, [*lines, word]) - conversation(program, lines)


def a_step(program: str, count: int) -> float:
    few, many = (conversation(program, spinning(count, steps)) for steps in (FEW, MANY))
    return (many - few) / (MANY - FEW)


def a_line(program: str) -> float:
    """A line `loop` among others."""
    few, many = (conversation(program, [*spinning(1, FEW), *["loop"] * count]) for count in (LINES, 2 * LINES))
    return (many - few) / LINES


def typed(program: str, count: int) -> int:
    """The instructions of a session in which so many lines `loop` are given, each once the one before it is answered."""
    with tempfile.TemporaryFile() as said:
        with subprocess.Popen([*VALGRIND, program, "debug"], stdin=subprocess.PIPE, stdout=subprocess.PIPE, stderr=said) as child:
            assert child.stdin and child.stdout
            given, answers = text_of([*spinning(1, FEW), "back 0"]), FEW + 1
            for _ in range(count + 1):
                child.stdin.write(given)
                child.stdin.flush()
                if not all(child.stdout.readline() for _ in range(answers)):
                    raise Fault(f"{program} ended early")
                given, answers = b"loop\n", 1
            child.stdin.close()
        said.seek(0)
        return counted_by(said.read(), child.returncode, program)


def a_typed_line(program: str) -> float:
    """A line `loop` that is waited for."""
    return (typed(program, 2 * TYPED) - typed(program, TYPED)) / TYPED


def shown_step(program: str, count: int, word: str) -> float:
    """A standing step, in what this command shows."""
    few, many = (command(program, spinning(count, steps), word) for steps in (FEW, MANY))
    return (many - few) / (MANY - FEW)


def recording(program: str, count: int, steps: int) -> bytes:
    """The recording of a session of so many steps."""
    ran = subprocess.run([program, "debug"], input=text_of([*spinning(count, steps), "record"]), stdout=subprocess.PIPE)
    start = ran.stdout.rfind(b"\nuvt ") + 1
    if ran.returncode or not start:
        raise Fault(f"{program} ended with status {ran.returncode}, and without a recording")
    return ran.stdout[start:]


def replayed(program: str, count: int) -> float:
    few, many = (collected([program, "replay"], recording(program, count, steps)) for steps in (FEW, MANY))
    return (many - few) / (MANY - FEW)


def state_of(program: str, kind: str, then: str) -> float:
    """A handle of this kind, in the lines of `state`."""
    some, more = (command(program, handles(count, kind, then), "state") for count in (SOME, MORE))
    return (more - some) / (MORE - SOME)


def read_line(program: str) -> float:
    """A line of a script that is read."""
    few, many = (handles(count, "check", "start NAME")[:-1] for count in (SOME, MORE))
    return (conversation(program, many) - conversation(program, few)) / (len(many) - len(few))


FIGURES: dict[str, Callable[[str], float]] = {
    "an idle handle: a step on, printed": lambda program: a_step(program, 1),
    "a line `loop`, among others": a_line,
    "a line `loop` that is waited for": a_typed_line,
    "a line of `trace`": lambda program: shown_step(program, 1, "trace"),
    "a step of `record`": lambda program: shown_step(program, 1, "record"),
    "a replayed step": lambda program: replayed(program, 1),
    "10 idle handles: a step on, printed": lambda program: a_step(program, 10),
    "a line of `trace`, of ten": lambda program: shown_step(program, 10, "trace"),
    "a step of `record`, of ten": lambda program: shown_step(program, 10, "record"),
    "a replayed step, of ten": lambda program: replayed(program, 10),
    "a check handle of `state`": lambda program: state_of(program, "check", "active NAME"),
    "one that is started": lambda program: state_of(program, "check", "start NAME"),
    "a timer that is started": lambda program: state_of(program, "timer", "start NAME 100 100"),
    "a line of a script": read_line,
}


def measure() -> int:
    reader = argparse.ArgumentParser(description=__doc__, formatter_class=argparse.RawDescriptionHelpFormatter)
    reader.add_argument("--program", metavar="PATH", default=str(ROOT / "out" / "uvt" / "uvt"), help="the program")
    reader.add_argument("--beside", metavar="PATH", help="beside it another program")
    reader.add_argument("--steps", action="store_true", help="in front of it what steps cost, as tests/costs/instructions")
    asked = reader.parse_args()
    if not shutil.which("valgrind"):
        raise Fault("this needs valgrind")
    for path in [asked.program, asked.beside]:
        if path and not Path(path).is_file():
            raise Fault(f"there is no program {path}; ./uvt build makes one")
    if asked.steps:
        show(Program(asked.program, COLUMNS), Program(asked.beside, COLUMNS) if asked.beside else None, "beside" if asked.beside else "")
        print(flush=True)
    print(f"| Instructions |  |{' beside | ratio |' if asked.beside else ''}\n|---|---|{'---|---|' if asked.beside else ''}", flush=True)
    for name, figure in FIGURES.items():
        own = figure(asked.program)
        words = [shown(own)]
        if asked.beside:
            there = figure(asked.beside)
            words += [shown(there), ratio(own, there)]
        print(f"| {name} | {' | '.join(words)} |", flush=True)
    return 0


def main() -> int:
    try:
        return measure()
    except (Fault, OSError) as fault:
        print(f"costs: {fault}", file=sys.stderr)
        return 1
