"""What the longest scripts cost, in instructions: tests/costs/long-scripts [--program PATH]

A script of 65,535 names and 1,048,561 lines, where 1,048,575 may be: each name has a check handle, and its callback fourteen lines. It
is measured beside one of a quarter and one of a sixteenth of its names and lines (`valgrind --tool=callgrind`), so that it can be seen
whether a cost grows as the script does. Measured are reading it and beginning; the steps that make the handles; `state`, `image` and
`record` behind them; the replay of that recording; and a live run of the script. The first, the replay and the live run are whole
runs of the program, the others the differences of two.
"""

from __future__ import annotations

import argparse
import re
import shutil
import subprocess
import sys
from pathlib import Path

ROOT = Path(__file__).resolve().parent.parent.parent
NAMES, LINES_OF_A_NAME = 65_535, 16
PARTS = (16, 4, 1)
COLLECTED = re.compile(rb"Collected : (\d+)")


class Fault(Exception):
    """What a person is to be told."""


def script(names: int) -> bytes:
    """A line `var`, one of the main program and fourteen of a callback for each name, and one line more."""
    lines = [b"slots 16777215"]
    lines += [b"var n%d" % name for name in range(names)]
    lines += [b"main init n%d check" % name for name in range(names)]
    for name in range(names):
        lines += [b"on n%d active n%d" % (name, name)] * (LINES_OF_A_NAME - 2)
    return b"\n".join([*lines, b"main run default"]) + b"\n"


def instructions(program: str, word: str, text: bytes) -> int:
    """The instructions of a whole run over this input."""
    ran = subprocess.run(
        ["valgrind", "--tool=callgrind", "--callgrind-out-file=/dev/null", program, word],
        input=text,
        stdout=subprocess.DEVNULL,
        stderr=subprocess.PIPE,
    )
    found = COLLECTED.search(ran.stderr)
    if ran.returncode or not found:
        raise Fault(f"{program} {word} under valgrind ended with status {ran.returncode}: {ran.stderr[-200:].decode('ascii', 'replace')}")
    return int(found[1])


def recording(program: str, text: bytes) -> bytes:
    """What the command `record` writes at the end of this conversation."""
    output = subprocess.run([program, "debug"], input=text + b"record\n", stdout=subprocess.PIPE, check=True).stdout
    return output[output.index(b"uvt 2\n") :]


def costs(program: str, names: int) -> dict[str, int]:
    """What each of them takes."""
    text = script(names)
    begun = text + b"begin\n"
    stepped = begun + b"loop %d\n" % (names + 2)
    found = {"read and begin": instructions(program, "debug", begun), "the steps": instructions(program, "debug", stepped)}
    for command in ("state", "image", "record"):
        found[command] = instructions(program, "debug", stepped + command.encode() + b"\n") - found["the steps"]
    found["the steps"] -= found["read and begin"]
    found["replay"] = instructions(program, "replay", recording(program, stepped))
    found["a live run"] = instructions(program, "live", text)
    return found


def measure() -> int:
    reader = argparse.ArgumentParser(description=__doc__, formatter_class=argparse.RawDescriptionHelpFormatter)
    reader.add_argument("--program", metavar="PATH", default=str(ROOT / "out" / "uvt" / "uvt"), help="the program")
    asked = reader.parse_args()
    if not shutil.which("valgrind"):
        raise Fault("this needs valgrind")
    if not Path(asked.program).is_file():
        raise Fault(f"there is no program {asked.program}; ./uvt build makes one")
    columns = [costs(asked.program, NAMES // part) for part in PARTS]
    print("| Millions of instructions | " + " | ".join(f"1/{part}" if part > 1 else "all" for part in PARTS) + " |")
    print("|---" * (len(PARTS) + 1) + "|")
    for what in columns[0]:
        print(f"| {what} | " + " | ".join(f"{column[what] / 1e6:,.0f}" for column in columns) + " |")
    return 0


def main() -> int:
    try:
        return measure()
    except (Fault, OSError, ValueError, subprocess.CalledProcessError) as fault:
        print(f"costs: {fault}", file=sys.stderr)
        return 1
