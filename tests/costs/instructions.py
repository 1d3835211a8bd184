"""What a step costs in instructions: tests/costs/instructions [--program PATH] [--plain [PATH] | --c | --beside PATH]

Unlike the times of tests/costs/run these hardly differ from one machine to another. A session of some length is run under valgrind
(`--tool=callgrind`), and one that is longer; what a step on costs is the difference of their instructions by that of their steps. So
it is for steps taken back (`back N` behind the longer one) and for steps run again (`forward N` behind that). Lines are printed by a
step on, and by none of the other two. What a step keeps, in bytes, is the difference of what the program holds (VmRSS) with some steps
and with 50,000 more, by that of the steps.

Before any of these steps each session takes 20,000 others of the same kind at least, and 200,000 where slots are to be used up first,
and so many that no list of steps grows in the midst of what is counted: both halves of it cost the same, or it is a fault. So cases
can be compared: "to none" is a step on by that of the same handles where no slot was used before and no handle stands beside.

The program is that of ./uvt build, or the one that is named. With --plain the program over the plain loop is built
(tests/machines/build.py), unless its path is given, and stands beside: what a step on costs and keeps there, each with how many times
as much the program takes. It takes a step back by doing all others again, so that isn't measured. With --beside another program stands
there, as the same one of an older version, with all four figures. Where a run of the one beside takes longer than a minute its figure
is `-`.

With --c the loop in C (tests/costs/idle.c) is built and stands beside, which knows idle handles alone: the other cases are left out. It
has to write what the program writes for their sessions. Behind the table stands what a callback of as many idle handles costs in libuv
itself (tests/costs/uv_idle.c).
"""

from __future__ import annotations

import argparse
import re
import shutil
import subprocess
import sys
import tempfile
import threading
from dataclasses import dataclass
from pathlib import Path
from typing import IO, Optional

HERE = Path(__file__).resolve().parent
ROOT = HERE.parent.parent
from tests.machines import build

# how often the commands of a case are given
SHORT, MIDDLE, LONG = 4, 8, 12
# two halves of what is counted are alike up to this factor, and so often it is tried at another length
LIKE, TRIES = 1.01, 8
# how many steps are taken at least before any that are counted
BEFORE, LONG_BEFORE = 20_000, 200_000
# over how many steps it is looked at what each keeps
KEPT = 50_000
# how many slots were used before
WORN = 60_000
# how many seconds a run of the program beside may take
PATIENCE = 60
COLUMNS = ["on, printed", "back", "run again", "bytes"]
PLAIN_COLUMNS = ["on, printed", "bytes"]
VALGRIND = ["valgrind", "--tool=callgrind", "--callgrind-out-file=/dev/null"]
COLLECTED = re.compile(rb"Collected : (\d+)")


class Fault(Exception):
    """What a person is to be told."""


@dataclass
class Case:
    """A script, the commands that are repeated until a session has its length, the case with the same handles alone, and how many
    steps are taken first at least."""

    name: str
    script: list[str]
    commands: list[str]
    alone: str = ""
    before: int = BEFORE


@dataclass
class Program:
    """A program, which of its figures are wanted, and how many seconds a run of it may take."""

    path: str
    columns: list[str]
    patience: Optional[float] = None
    cases: Optional[list[str]] = None


def idle_handles(count: int, inactive: int = 0, slots: int = 1000) -> list[str]:
    """So many idle handles that spin, behind so many handles that are never started, where there are so many slots."""
    beside = [f"b{number}" for number in range(inactive)]
    names = [f"i{number}" for number in range(count)]
    lines = [f"slots {slots}"] + [f"var {name}" for name in beside + names] + [f"main init {name} check" for name in beside]
    for name in names:
        lines += [f"main init {name} idle", f"main start {name}"]
    return lines + ["main run default"]


def behind_worn_slots(count: int, last_generation: str = "") -> list[str]:
    """So many idle handles that spin, in slots behind those that were used. With a last generation of 0 these are retired."""
    worn = [f"b{number}" for number in range(WORN)]
    names = [f"i{number}" for number in range(count)]
    lines = [f"slots {WORN + count} {last_generation}".rstrip()] + [f"var {name}" for name in worn + names]
    lines += [f"main init {name} check" for name in worn] + [f"main init {name} idle" for name in names]
    lines += [f"main close {name}" for name in worn] + ["main run nowait"]
    return lines + [f"main start {name}" for name in names] + ["main run default"]


def timers() -> list[str]:
    names = [f"t{number}" for number in range(1000)]
    lines = [f"var {name}" for name in names]
    for number, name in enumerate(names):
        lines += [f"main init {name} timer", f"main start {name} 1 {1 + number % 10}"]
    return lines + ["main run default"]


def requests() -> list[str]:
    """A hundred requests that their after callbacks queue again, and two workers."""
    names = [f"r{number}" for number in range(100)]
    lines = ["workers 2"] + [f"var {name}" for name in names]
    for name in names:
        lines += [f"main queue {name} 1 abc", f"after {name} queue {name} 1 abc"]
    return lines + ["main run default"]


SPIN = ["loop 1000"]
ONE, TEN = "an idle handle", "10 idle handles"
CASES = [
    Case(ONE, idle_handles(1), SPIN),
    Case(f"{ONE}, {WORN:,} slots that are retired", behind_worn_slots(1, "0"), SPIN, ONE, LONG_BEFORE),
    Case(f"{ONE}, {WORN:,} slots that are free again", behind_worn_slots(1), SPIN, ONE, LONG_BEFORE),
    Case(TEN, idle_handles(10), SPIN),
    Case(f"{TEN}, {WORN:,} slots that are retired", behind_worn_slots(10, "0"), SPIN, TEN, LONG_BEFORE),
    Case(f"{TEN}, {WORN:,} slots that are free again", behind_worn_slots(10), SPIN, TEN, LONG_BEFORE),
    Case(f"{TEN}, 16,777,215 slots", idle_handles(10, 0, 16777215), SPIN, TEN),
    Case(f"{TEN}, 3,900 inactive ones beside", idle_handles(10, 3900, 4000), SPIN, TEN),
    Case("1,000 repeating timers", timers(), ["tick 1", "loop 3000"]),
    Case("100 requests", requests(), ["take 0", "take 1", "finish 1", "finish 0", "loop 100"]),
]


def session(case: Case, times: int) -> list[str]:
    """The input of a session in which the commands are given so often."""
    return [*case.script, "begin", *case.commands * times]


def text_of(lines: list[str]) -> bytes:
    return ("\n".join(lines) + "\n").encode()


def counted_by(said: bytes, status: int, program: str) -> int:
    """The instructions of a run, by what valgrind said of it."""
    found = COLLECTED.search(said)
    if status or not found:
        raise Fault(f"{program} under valgrind ended with status {status}: {said[-200:].decode('ascii', 'replace')}")
    return int(found[1])


def collected(words: list[str], given: bytes = b"", patience: Optional[float] = None) -> int:
    """The instructions of a whole run of a command over this input."""
    ran = subprocess.run([*VALGRIND, *words], input=given, stdout=subprocess.DEVNULL, stderr=subprocess.PIPE, timeout=patience)
    return counted_by(ran.stderr, ran.returncode, words[0])


def instructions(program: Program, lines: list[str]) -> int:
    """The instructions of a whole conversation."""
    return collected([program.path, "debug"], text_of(lines), program.patience)


def length(program: Program, lines: list[str]) -> int:
    """How many steps stand at the end of this input."""
    ran = subprocess.run(
        [program.path, "debug"],
        input=text_of([*lines, "back 0"]),
        stdout=subprocess.PIPE,
        timeout=program.patience,
    )
    found = re.search(rb"at (\d+)\n$", ran.stdout)
    if not found:
        raise Fault(f"{program.path} ended with status {ran.returncode}")
    return int(found[1])


def warmed(program: Program, case: Case) -> int:
    """How often the commands are given before any step is counted."""
    times = 1
    while True:
        first, last = (length(program, session(case, it)) for it in (times, times + LONG))
        if last - first < LONG:
            raise Fault(f"{case.name}: {LONG} times its commands are only {last - first} steps, so its lists can't be warmed")
        if first >= case.before:
            return times
        times *= 2


def counted(program: Program, case: Case) -> tuple[int, list[int]]:
    """How often the commands are given first, and the instructions with so many more as SHORT, MIDDLE and LONG say, where no list of
    steps grows between these: then the two halves cost the same."""
    before = warmed(program, case)
    for _ in range(TRIES):
        sessions = [session(case, before + times) for times in (SHORT, MIDDLE, LONG)]
        lengths = [length(program, lines) for lines in sessions]
        counts = [instructions(program, lines) for lines in sessions]
        halves = [(counts[at + 1] - counts[at]) / (lengths[at + 1] - lengths[at]) for at in (0, 1)]
        if max(halves) <= LIKE * min(halves):
            return before, counts
        before += max(1, before // 5)
    raise Fault(f"{case.name}: its lists grow in the midst of what is counted")


def held(program: Program, lines: list[str]) -> tuple[int, int]:
    """How many steps stand at the end of this input, and how many bytes the program holds then."""
    child = subprocess.Popen([program.path, "debug"], stdin=subprocess.PIPE, stdout=subprocess.PIPE)
    assert child.stdin and child.stdout
    # (what is written and what is said are each a thread's, so that neither waits for the other)
    said: list[bytes] = []
    has_come = threading.Event()

    def write(given: IO[bytes]) -> None:
        try:
            given.write(text_of([*lines, "back 0"]))
            given.flush()
        except BrokenPipeError:
            pass

    def read(output: IO[bytes]) -> None:
        for line in output:
            if line.startswith(b"at "):
                said.append(line)
                break
        has_come.set()

    threads = [threading.Thread(target=write, args=(child.stdin,)), threading.Thread(target=read, args=(child.stdout,))]
    for thread in threads:
        thread.start()
    in_time = has_come.wait(program.patience)
    found = re.search(r"VmRSS:\s+(\d+) kB", Path(f"/proc/{child.pid}/status").read_text())
    child.kill()
    child.wait()
    for thread in threads:
        thread.join()
    if not in_time:
        raise subprocess.TimeoutExpired(program.path, program.patience or 0)
    if not said or not found:
        raise Fault(f"{program.path} ended early")
    return int(said[0].split()[1]), 1024 * int(found[1])


def costs(program: Program, case: Case, found: dict[str, float]) -> None:
    """Notes the figures that are wanted of the program, one after another."""
    before, counts = counted(program, case)
    short, long = session(case, before + SHORT), session(case, before + LONG)
    more = length(program, long) - length(program, short)
    found["on, printed"] = (counts[-1] - counts[0]) / more
    if "bytes" in program.columns:
        each = max(1, more // (LONG - SHORT))
        first = before + 1
        few, less = held(program, session(case, first))
        # no list of steps grows while these are counted: it would leave the memory behind that it had
        while few + KEPT + 2 * each > 1 << few.bit_length():
            first += ((1 << few.bit_length()) - few) // each + 1
            few, less = held(program, session(case, first))
        many, all_of_it = held(program, session(case, first + KEPT // each + 1))
        found["bytes"] = (all_of_it - less) / (many - few)
    for column, line in (("back", f"back {more}"), ("run again", f"forward {more}")):
        if column in program.columns:
            long = [*long, line]
            counts.append(instructions(program, long))
            found[column] = (counts[-1] - counts[-2]) / more


def figures(program: Program, case: Case) -> dict[str, float]:
    """What was found; what a run took too long for isn't there."""
    found: dict[str, float] = {}
    try:
        costs(program, case, found)
    except subprocess.TimeoutExpired:
        pass
    return found


def shown(figure: Optional[float]) -> str:
    return "-" if figure is None else f"{figure:.0f}"


def ratio(figure: Optional[float], other: Optional[float]) -> str:
    return "-" if figure is None or not other else f"{figure / other:.2f}"


def show(program: Program, beside: Optional[Program], name: str) -> None:
    """Prints the table, in which the columns of the one beside begin with this name."""
    headings = [program.columns[0], "to none", *program.columns[1:]]
    if beside:
        headings += [word for column in beside.columns for word in (f"{name}: {column}", "ratio")]
    print(f"| Instructions a step | {' | '.join(headings)} |\n{'|---' * (1 + len(headings))}|", flush=True)
    steps_on: dict[str, float] = {}
    for case in CASES:
        if beside and beside.cases and case.name not in beside.cases:
            continue
        own = figures(program, case)
        steps_on[case.name] = own["on, printed"]
        words = [shown(own[column]) for column in program.columns]
        words.insert(1, ratio(own["on, printed"], steps_on[case.alone]) if case.alone else "")
        if beside:
            there = figures(beside, case)
            words += [word for it in beside.columns for word in (shown(there.get(it)), ratio(own[it], there.get(it)))]
        print(f"| {case.name} | {' | '.join(words)} |", flush=True)


def compiled(folder: str, name: str, *libraries: str) -> str:
    """Compiles a C file that stands beside this one, and gives the program's path."""
    path = f"{folder}/{name}"
    ran = subprocess.run(["cc", "-O2", "-o", path, str(HERE / f"{name}.c"), *libraries], capture_output=True, text=True)
    if ran.returncode:
        raise Fault(f"{name}.c can't be compiled: {ran.stderr.strip().splitlines()[-1] if ran.stderr.strip() else 'cc failed'}")
    return path


def written(program: Program, lines: list[str]) -> bytes:
    return subprocess.run([program.path, "debug"], input=text_of(lines), stdout=subprocess.PIPE).stdout


def show_in_c(program: Program, folder: str) -> None:
    """Prints the table with the loop in C beside, and then what libuv takes."""
    beside = Program(compiled(folder, "idle"), COLUMNS, PATIENCE, [ONE, TEN])
    for case in CASES:
        if case.name in [ONE, TEN]:
            lines = [*session(case, 3), "back 100", "forward 50"]
            if written(program, lines) != written(beside, lines):
                raise Fault(f"{case.name}: the loop in C writes something else")
    show(program, beside, "C")
    libuv = compiled(folder, "uv_idle", "-l:libuv.so.1")
    for handles in (1, 10):
        few, many = (collected([libuv, str(handles), str(times)]) for times in (1000, 2000))
        print(f"libuv, {handles} idle: {(many - few) / (1000 * handles):.0f} a callback", flush=True)


def build_plain(folder: str) -> str:
    """Builds the program over the plain loop there, and gives its path."""
    try:
        return build.build_plain(folder)
    except (SystemExit, subprocess.CalledProcessError) as ended:
        raise Fault(f"the program over the plain loop can't be built ({str(ended).replace('machines: ', '')})") from None


def measure() -> int:
    reader = argparse.ArgumentParser(description=__doc__, formatter_class=argparse.RawDescriptionHelpFormatter)
    reader.add_argument("--program", metavar="PATH", default=str(ROOT / "out" / "uvt" / "uvt"), help="the program")
    other = reader.add_mutually_exclusive_group()
    other.add_argument("--plain", metavar="PATH", nargs="?", const="", help="beside it the program over the plain loop, which is built")
    other.add_argument("--c", action="store_true", help="beside it the loop of idle handles in C, and libuv's own")
    other.add_argument("--beside", metavar="PATH", help="beside it another program")
    asked = reader.parse_args()
    if not shutil.which("valgrind"):
        raise Fault("this needs valgrind")
    for path in [asked.program, asked.plain, asked.beside]:
        if path and not Path(path).is_file():
            raise Fault(f"there is no program {path}; ./uvt build makes one")
    program = Program(asked.program, COLUMNS)
    with tempfile.TemporaryDirectory(prefix="uvt-costs-") as folder:
        if asked.plain is not None:
            show(program, Program(asked.plain or build_plain(folder), PLAIN_COLUMNS, PATIENCE), "the plain loop")
        elif asked.c:
            show_in_c(program, folder)
        elif asked.beside is not None:
            show(program, Program(asked.beside, COLUMNS, PATIENCE), "beside")
        else:
            show(program, None, "")
    return 0


def main() -> int:
    try:
        return measure()
    except (Fault, OSError) as fault:
        print(f"costs: {fault}", file=sys.stderr)
        return 1
