"""What a state of the search costs: tests/find/costs [--find PROGRAM] [--instructions]

Searches each script of measured/, servers without an end, and scripts of a timer and requests that grow by workers, requests and sends. A
line says how many states there are; for those of measured/, also how many were searched in a second of the processor, how many bytes the whole
program held for each, and with --instructions how many instructions each of the first 100,000 took (valgrind counts them). Those that may
forget, or hold moves back, are searched with the line `full`, too. Nothing is held to a figure. For the hand."""
from __future__ import annotations

import argparse
import os
import re
import subprocess
import sys
import tempfile
from pathlib import Path
from typing import Iterator

from tests.find import holding, normal
from tests.find.asked import read

HERE = Path(__file__).resolve().parent
COUNTED = 100_000
BUILT = HERE.parent.parent / "crates/uvt_find/out/uvt_find"
# (whole states of these have no end, so they are searched by their forms alone)
ENDLESS = [HERE.parent.parent / "examples/server.find", HERE / "endless/sends.find"]
GROWTH = [
    (1, 2, 0),
    (1, 4, 0),
    (1, 6, 0),
    (2, 2, 0),
    (2, 4, 0),
    (2, 6, 0),
    (2, 10, 0),
    (4, 4, 0),
    (4, 6, 0),
    (4, 10, 0),
    (2, 2, 1),
    (2, 2, 2),
    (2, 2, 4),
    (2, 2, 8),
]


def growing(workers: int, requests: int, sends: int) -> str:
    """A timer, an async handle and so many requests, of which nothing happens twice."""
    jobs = [f"job{it}" for it in range(requests)]
    lines = [f"workers {workers}", *(f"var {it}" for it in [*jobs, "t", "s"]), "main init t timer", "main init s async", "main start t 5 0"]
    lines += [*(f"main queue {it} 1" for it in jobs), "main run default", "on t close t", "on t close s", "begin", "may wait"]
    lines += [f"may send s {sends}"] if sends else []
    return "\n".join([*lines, "find call t 2", ""])


def whole(script: str) -> str:
    """The same with the line `full`: each state is kept whole, and no move is held back."""
    return script.replace("\nbegin\n", "\nbegin\nfull\n")


def beside_whole(name: str, script: str, is_counted: bool) -> Iterator[tuple[str, str, bool]]:
    yield name, script, is_counted
    asked = read(script)
    if normal.may_forget(asked) or holding.holds_back(asked):
        yield f"{name}, full", whole(script), is_counted


def scripts() -> Iterator[tuple[str, str, bool]]:
    for file in sorted((HERE / "measured").glob("*.find")):
        yield from beside_whole(file.stem, file.read_text(), True)
    for file in ENDLESS:
        yield f"without an end, {file.stem}", file.read_text(), False
    for workers, requests, sends in GROWTH:
        yield from beside_whole(f"workers {workers}, requests {requests}, sends {sends}", growing(workers, requests, sends), False)


def searched(program: str, script: str) -> tuple[str, float, int]:
    """The first line of the answer, the seconds of the processor and the kilobytes that it took."""
    with tempfile.TemporaryFile("w+") as source, tempfile.TemporaryFile("w+") as out:
        source.write(script)
        source.seek(0)
        run = subprocess.Popen([program], stdin=source, stdout=out)
        _, _, used = os.wait4(run.pid, 0)
        run.returncode = 0
        out.seek(0)
        return out.readline().strip(), used.ru_utime + used.ru_stime, used.ru_maxrss


def instructions(program: str, script: str) -> float:
    """Of the first COUNTED states, how many instructions each took."""
    script = re.sub(r"(?m)^most states .*\n", "", script).replace("\nfind ", f"\nmost states {COUNTED}\nfind ")
    words = ["valgrind", "--tool=callgrind", "--callgrind-out-file=/dev/null", program]
    ran = subprocess.run(words, input=script, capture_output=True, text=True)
    taken, states = re.search(r"Collected : (\d+)", ran.stderr), re.search(r"(\d+) states", ran.stdout)
    return int(taken[1]) / int(states[1]) if taken and states else 0


def main() -> int:
    parser = argparse.ArgumentParser(description=__doc__, formatter_class=argparse.RawDescriptionHelpFormatter)
    parser.add_argument("--find", default=os.environ.get("UVT_FIND", str(BUILT)), help="the program of the search")
    parser.add_argument("--instructions", action="store_true", help="count instructions, too")
    asked = parser.parse_args()
    if not os.access(asked.find, os.X_OK):
        print(f"costs: {asked.find} isn't there: ./uvt build find builds it", file=sys.stderr)
        return 1
    for name, script, is_counted in scripts():
        answer, seconds, kilobytes = searched(asked.find, script)
        found = re.search(r"(\d+) states", answer)
        states = int(found[1]) if found else 0
        if not states:
            print(f"{name}: {answer or 'no answer'}")
            return 1
        line = f"{name}: {states:,} states"
        if is_counted:
            line += f", {states / max(seconds, 0.01):,.0f} a second, {1024 * kilobytes / states:,.0f} bytes each"
        if is_counted and asked.instructions:
            line += f", {instructions(asked.find, script):,.0f} instructions each"
        print(line, flush=True)
    return 0
