"""Measures what a first answer, a build and the gate take: tools/make/measure [answer|build|gate]..

Without a word all three, one after another, each from nothing in this copy: out/ and crates/*/out are removed before it. What the
kit keeps beside itself (`rattle-kept`, for all copies on the machine) isn't touched: move it away first, or the figures are of a
machine that has proved these crates before. Each line has the wall-clock time, the processor seconds of all that ran, and the load
as it began and as it ended. Status 1 if something failed."""
import glob
import os
import shutil
import subprocess
import sys
import time
from typing import List, Optional

ROOT = os.path.dirname(os.path.dirname(os.path.dirname(os.path.realpath(__file__))))


def load() -> str:
    return "%.1f" % os.getloadavg()[0]


def measure(what: str, words: List[str], given: Optional[str] = None) -> bool:
    """Runs a command, and says what it took."""
    before, began, at = load(), time.monotonic(), os.times()
    with open(os.path.join(ROOT, given) if given else os.devnull, "rb") as file:
        ended = subprocess.run(words, cwd=ROOT, stdin=file, stdout=subprocess.DEVNULL)
    now = os.times()
    took = now.children_user + now.children_system - at.children_user - at.children_system
    print(
        "%s: %.1f seconds of wall-clock time, %.1f of the processor, load %s to %s, status %d"
        % (what, time.monotonic() - began, took, before, load(), ended.returncode),
        flush=True,
    )
    return ended.returncode == 0


def clear() -> None:
    for folder in [os.path.join(ROOT, "out")] + glob.glob(os.path.join(ROOT, "crates", "*", "out")):
        shutil.rmtree(folder, ignore_errors=True)


def answer() -> bool:
    example = "examples/late-timer.uvt"
    return (
        measure("a first answer", ["./uvt", "debug"], example)
        and measure("a second one, by the same program", ["./uvt", "debug"], example)
        and measure("one by a tool", ["./uvt", "why", "beat"], example)
    )


def build() -> bool:
    return (
        measure("a build", ["./uvt", "build"])
        and measure("a second build", ["./uvt", "build"])
        and measure("a call", ["./uvt", "debug"], "examples/late-timer.uvt")
    )


def gate() -> bool:
    """The whole gate, from nothing if the kit has kept nothing; then its two parts: rt ci with all kept, and the program's tests."""
    return (
        measure(".ci/run", [".ci/run"])
        and measure("rt ci again, all of it kept", ["rt", "ci"])
        and measure("the tests of the program", ["tests/program/run", "--built"])
    )


PARTS = {"answer": answer, "build": build, "gate": gate}


def main() -> int:
    wanted = sys.argv[1:] or list(PARTS)
    if not set(wanted) <= set(PARTS):
        print(__doc__, file=sys.stderr)
        return 2
    rt = shutil.which("rt")
    if not rt:
        print("measure: the kit's command rt isn't on the PATH", file=sys.stderr)
        return 1
    store = os.path.join(os.path.dirname(os.path.dirname(os.path.dirname(os.path.realpath(rt)))), "rattle-kept")
    print(
        "%s, %d processors; %s is %s"
        % (
            subprocess.run(["rt", "version"], stdout=subprocess.PIPE, text=True).stdout.strip(),
            os.cpu_count() or 0,
            store,
            "there" if os.path.exists(store) else "not there",
        ),
        flush=True,
    )
    well = True
    for name in wanted:
        clear()
        well = PARTS[name]() and well
    return 0 if well else 1
