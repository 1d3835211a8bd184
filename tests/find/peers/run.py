"""The search beside peers: tests/find/peers/run [--find PROGRAM] [WORKERS,REQUESTS,SENDS ..]

One program, three searches of all its orders in one run: that of uvt, one in C with a hash set (search.c), and SPIN, with and without its
partial-order reduction (search.pml). Of each it prints the states, how many were searched in a second of the processor, and how many bytes each
took of all the memory that it had. Status 1 where not all have as many states (SPIN with its reduction may have fewer). For the hand: it needs
cc and spin. UVT_FIND names another search than that of `./uvt build find`."""

from __future__ import annotations

import argparse
import os
import re
import shutil
import subprocess
import sys
import tempfile
from pathlib import Path
from typing import NamedTuple

from tests.find.costs import BUILT, growing, whole

HERE = Path(__file__).resolve().parent
SIZES = ["2,6,0", "2,4,4", "4,4,2", "4,6,0"]
# (the stack of the depth-first search, and the bits of the table's first size: both are memory from the beginning)
SPIN_WORDS = ["-E", "-m100000", "-w20"]


class Size(NamedTuple):
    workers: int
    requests: int
    sends: int


class Searched(NamedTuple):
    states: int
    seconds: float
    kilobytes: int

    def __str__(self) -> str:
        bytes_each = 1024 * self.kilobytes / self.states
        return f"{self.states:,} states, {self.states / max(self.seconds, 0.01):,.0f} a second, {bytes_each:,.0f} bytes each"


def searched(words: list[str], script: str = "") -> Searched:
    """Runs a search, and reads how many states it says."""
    with tempfile.TemporaryFile("w+") as source, tempfile.TemporaryFile("w+") as out:
        source.write(script)
        source.seek(0)
        run = subprocess.Popen(words, stdin=source, stdout=out, stderr=subprocess.DEVNULL)
        _, _, used = os.wait4(run.pid, 0)
        run.returncode = 0
        out.seek(0)
        found = re.search(r"(\d+) states", out.read())
    if found is None:
        sys.exit(f"peers: {words[0]} says no number of states")
    return Searched(int(found[1]), used.ru_utime + used.ru_stime, used.ru_maxrss)


def spin(size: Size, folder: Path, reduces: bool) -> Searched:
    defined = "".join(f"#define {name.upper()} {number}\n" for name, number in size._asdict().items())
    (folder / "model.pml").write_text(defined + (HERE / "search.pml").read_text())
    # (-o2: also what is only written is part of a state)
    subprocess.run(["spin", "-o2", "-a", "model.pml"], cwd=folder, check=True, stdout=subprocess.DEVNULL)
    words = ["cc", "-O2", "-w", "-DSAFETY", "-DMEMLIM=16000", *([] if reduces else ["-DNOREDUCE"]), "-o", "pan", "pan.c"]
    subprocess.run(words, cwd=folder, check=True)
    return searched([str(folder / "pan"), *SPIN_WORDS])


def beside(size: Size, find: str, folder: Path) -> bool:
    """Prints a line for each search, and answers whether all have as many states."""
    all_of = {
        "uvt": searched([find], whole(growing(*size))),
        "C": searched([str(folder / "search"), *(str(it) for it in size)]),
        "SPIN": spin(size, folder, False),
        "SPIN, reduced": spin(size, folder, True),
    }
    print(f"{size.workers} workers, {size.requests} requests, {size.sends} sends")
    for name, it in all_of.items():
        print(f"    {name}: {it}", flush=True)
    return len({it.states for name, it in all_of.items() if name != "SPIN, reduced"}) == 1


def main() -> int:
    reader = argparse.ArgumentParser(description=__doc__, formatter_class=argparse.RawDescriptionHelpFormatter)
    reader.add_argument("sizes", nargs="*", metavar="WORKERS,REQUESTS,SENDS", help=f"without one {' '.join(SIZES)}")
    reader.add_argument("--find", default=os.environ.get("UVT_FIND", str(BUILT)), help="the program of the search")
    asked = reader.parse_args()
    sizes = asked.sizes or SIZES
    if not all(re.fullmatch(r"\d+,\d+,\d+", it) for it in sizes):
        reader.error("a size is three numbers, as 2,6,0")
    for needed, why in (("spin", "SPIN isn't installed"), ("cc", "there is no C compiler"), (asked.find, "./uvt build find builds the search")):
        if shutil.which(needed) is None:
            print(f"peers: {why}", file=sys.stderr)
            return 2
    with tempfile.TemporaryDirectory() as name:
        folder = Path(name)
        subprocess.run(["cc", "-O2", "-o", str(folder / "search"), str(HERE / "search.c")], check=True)
        same = [beside(Size(*(int(number) for number in it.split(","))), asked.find, folder) for it in sizes]
    return 0 if all(same) else 1
