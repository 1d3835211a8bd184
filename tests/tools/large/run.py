"""What large recordings cost: tests/tools/large/run [PROGRAM..], by hand, behind ./uvt build

Compiles the programs beside this file, runs each under the recorder, and asks `why` about what was recorded. Of each call it prints the seconds
by the clock, those of the processor (the tool and all that it started), and the most memory that one of these had. It takes cc and libuv's
header. UVT names another program than that of ./uvt build.

    wheel  5,000 timers, each with a name of its own; asked about all, and about one
    echo   400,006 callbacks of a server and its client, of which all are followed
    stall  a million callbacks, of which the 100,000 around the longest are followed
    late   400,012 callbacks, half of them timers that come late: it works for 80 s

Each log is made a recording of once more, without its program.
"""

from __future__ import annotations

import argparse
import os
import subprocess
import sys
import tempfile
import time
from pathlib import Path

HERE = Path(__file__).resolve().parent
TOOLS = HERE.parent.parent.parent / "tools" / "uvt"
# Of each program its words, those of the recorder, what is asked, and what stands in the answer.
CALLS: dict[str, tuple[list[str], list[str], list[tuple[str, str]]]] = {
    "wheel": (
        ["5000"],
        ["--most", "1000000"],
        [("wheel.rec", "late by 40 ms: the callback of "), ("on_expire_778", "on_expire_778: a timer, 1 call, 1 close callback")],
    ),
    "echo": (["100000"], ["--most", "1000000"], [("echo.rec", "the callback of peer, on_asked (echo.c:")]),
    "stall": (["1000000"], [], [("stall.log", "on_rare (stall.c:"), ("stall.rec", "the callback of rare, on_rare (stall.c:")]),
    "late": (["400000"], ["--most", "1000000"], [("late.rec", "the callback of idles_0, on_idle (late.c:")]),
}


def measured(what: str, words: list[str], folder: Path) -> str:
    """Runs it, says what it cost, and answers what it printed."""
    # (a call of its own counts the memory of what it started, too)
    counts = (
        "import resource, subprocess, sys; ran = subprocess.run(sys.argv[1:]); it = resource.getrusage(resource.RUSAGE_CHILDREN);"
        " print(it.ru_utime + it.ru_stime, it.ru_maxrss, file=sys.stderr); sys.exit(ran.returncode)"
    )
    begin = time.monotonic()
    ran = subprocess.run([sys.executable, "-c", counts, *words], cwd=folder, capture_output=True, text=True, env=os.environ)
    clock = time.monotonic() - begin
    processor, memory = ran.stderr.split("\n")[-2].split(" ")
    print(f"{what}: {clock:.1f} s, {float(processor):.1f} s of the processor, {int(memory) // 1024} MB", flush=True)
    if ran.returncode not in (0, 1):
        sys.exit(f"{what} ended with {ran.returncode}: {ran.stderr}")
    return ran.stdout


def tried(name: str, folder: Path) -> bool:
    words, options, questions = CALLS[name]
    subprocess.run(["cc", "-g", "-O1", str(HERE / f"{name}.c"), "-o", str(folder / name), "-luv"], check=True)
    out = measured(f"record {name} {' '.join(words)}", [str(TOOLS / "uvt-record"), *options, f"./{name}", *words], folder)
    print("    " + "\n    ".join(it for it in out.splitlines() if "shell" not in it), flush=True)
    again = measured(f"record --log {name}.log", [str(TOOLS / "uvt-record"), *options, "-o", "again", "--log", f"{name}.log"], folder)
    well = ": same" in out and ": same" in again
    for asked, wanted in questions:
        call = [asked] if "." in asked else [asked, f"{name}.rec"]
        told = measured(f"why {' '.join(call)}", [str(TOOLS / "uvt-why"), *call], folder)
        if wanted not in told:
            print(f"    `{wanted}` isn't in its answer:\n{told[:2000]}", flush=True)
        well &= wanted in told
    return well


def main() -> int:
    reader = argparse.ArgumentParser(description=__doc__, formatter_class=argparse.RawDescriptionHelpFormatter)
    reader.add_argument("programs", nargs="*", metavar="PROGRAM", help=f"of {', '.join(CALLS)}; without one all")
    asked = reader.parse_args().programs or list(CALLS)
    if unknown := [it for it in asked if it not in CALLS]:
        reader.error(f"no program {unknown[0]}")
    with tempfile.TemporaryDirectory() as folder:
        return 0 if all([tried(it, Path(folder)) for it in asked]) else 1
