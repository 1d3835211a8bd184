"""How many orders are forced until a race is found: tests/tools/orders [NAME..] [--seeds N] [--uvt FOLDER] [--json FILE]

  tests/tools/orders --table BEFORE AFTER    a table of two files that --json has written

Each program of forces/ that is named here ends well by itself, and badly in some order. Each is hunted with no hint, ten times: the first time from
order 1 at random on, then from order 1001 on, and so on. What counts is how many orders were forced upon it until it was found, those at random and
those that `find` has found: no time. Where it isn't found, all that were forced count. The first run, which nobody forces, is made once for all ten,
and a bad order isn't tried again.

--uvt FOLDER: another clone's tools. It is for the hand, and takes long. Status 1 where one wasn't found.
"""

from __future__ import annotations

import argparse
import json
import os
import subprocess
import sys
import tempfile
from pathlib import Path
from typing import Any

HERE = Path(__file__).resolve().parent
ROOT = HERE.parent.parent
# A use after free, or another end by a signal or a status.
ENDS = (
    "account",
    "cancelled-twice",
    "closed-early",
    "counted-thrice",
    "intime",
    "inwork",
    "lookup",
    "moved",
    "no-beat",
    "order",
    "reaper",
    "resolved-late",
    "retry",
    "send",
    "server",
    "stall",
    "three-parties",
    "window",
    "write-freed",
)
# Another output; and a hang.
OUTPUTS = ("total", "unconfigured")
HANGS = ("crosswise", "crosswise-work", "full-pool", "joins", "lost")
RACES = (*ENDS, *OUTPUTS, *HANGS)
FLAGS = ["-O1", "-g", "-w"]
# Orders of one hunt and of the next one have so many numbers between them.
BETWEEN = 1000
# So often it is tried whether a program's first run, which nobody forces, ends well: on a busy machine it may be bad by itself.
TIMES = 20
# By the other clone's tools: a line for each hunt, with how many orders were forced, how many of these find has found, and whether one was bad.
WORKER = """
import itertools, sys, tempfile
sys.path.insert(0, sys.argv[1])
from pathlib import Path
from uvt import hunting
from uvt.commands.hunt import prepare
hunting.AGAIN, hunting.AGAIN_LATE = 0, 1
begun = None
class Hunt(hunting.Hunt):
    def begin(self):
        global begun
        for _ in range(int(sys.argv[5])):
            if begun:
                break
            found = super().begin()
            if not isinstance(found, hunting.Bad) and not self.first.ended():
                begun = found, self.first, self.length, self.loop, self.text, self.order
        found, self.first, self.length, self.loop, self.text, self.order = begun
        return found
search, program, same_output = prepare(), sys.argv[2], sys.argv[3] == "1"
for seed in map(int, sys.argv[4].split(",")):
    with tempfile.TemporaryDirectory() as folder:
        hunt = Hunt(hunting.Wishes([program], same_output=same_output, seed=seed), search, Path(folder), lambda what: None)
        bad = hunt.run()
        print(hunt.counts.found + hunt.counts.random, hunt.counts.found, int(bad is not None), flush=True)
"""
# Of each hunt these three.
Hunted = list[int]


def programs(folder: Path) -> dict[str, str]:
    """The proved programs of a clone, or those before their proofs."""
    found = {}
    for name, words in {"UVT": ["path"], "UVT_FIND": ["path", "find"]}.items():
        ran = subprocess.run([str(folder / "uvt"), *words], stdout=subprocess.PIPE, stderr=subprocess.DEVNULL, text=True, check=True)
        found[name] = ran.stdout.strip()
    return found


def hunted(name: str, tools: Path, seeds: int, program: str) -> list[Hunted]:
    numbers = ",".join(str(BETWEEN * it + 1) for it in range(seeds))
    words = [sys.executable, "-c", WORKER, str(tools / "tools"), program, str(int(name in OUTPUTS)), numbers, str(TIMES)]
    ran = subprocess.run(words, stdin=subprocess.DEVNULL, stdout=subprocess.PIPE, text=True, check=True)
    return [[int(it) for it in line.split(" ")] for line in ran.stdout.splitlines()]


def mean_of(all: list[Hunted]) -> float:
    return sum(orders for orders, _, _ in all) / len(all)


def found_of(all: list[Hunted]) -> int:
    return sum(found for _, _, found in all)


def table(before: dict[str, list[Hunted]], after: dict[str, list[Hunted]]) -> None:
    names = [it for it in RACES if it in before and it in after]
    print("| | before | now |\n|---|---|---|")
    for name in names:
        cells = [f"{mean_of(it):.1f}" + (f" ({found_of(it)})" if found_of(it) < len(it) else "") for it in (before[name], after[name])]
        print(f"| `{name}.c` | {cells[0]} | {cells[1]} |")
    print(f"| sum | {sum(mean_of(before[it]) for it in names):.1f} | {sum(mean_of(after[it]) for it in names):.1f} |")


def hunt_all(names: list[str], tools: Path, seeds: int, path: Path | None) -> bool:
    every: dict[str, Any] = json.loads(path.read_text()) if path and path.exists() else {}
    with tempfile.TemporaryDirectory() as folder:
        for name in names:
            program = f"{folder}/{name}"
            more = [] if name in HANGS else ["-fsanitize=address"]
            subprocess.run(["cc", *FLAGS, *more, str(HERE / "forces" / f"{name}.c"), "-o", program, "-luv", "-lpthread"], check=True)
            all = every[name] = hunted(name, tools, seeds, program)
            print(f"{name}: {[it[0] for it in all]}, mean {mean_of(all):.1f}, {found_of(all)} of {len(all)} found", flush=True)
            if path:
                path.write_text(json.dumps(every, indent=1) + "\n")
    return all_found([every[it] for it in names])


def all_found(every: list[list[Hunted]]) -> bool:
    return all(found_of(it) == len(it) for it in every)


def main() -> int:
    reader = argparse.ArgumentParser(description=__doc__, formatter_class=argparse.RawDescriptionHelpFormatter)
    reader.add_argument("names", nargs="*", metavar="NAME", choices=[[], *RACES], help=", ".join(RACES))
    reader.add_argument("--seeds", type=int, default=10, metavar="N", help="so many hunts of each")
    reader.add_argument("--uvt", type=Path, default=ROOT, metavar="FOLDER", help="another clone's tools")
    reader.add_argument("--json", type=Path, metavar="FILE", help="where all is written, beside what it has of other programs")
    reader.add_argument("--table", nargs=2, metavar="FILE", help="the table of two such files")
    asked = reader.parse_args()
    if asked.table:
        table(*(json.loads(Path(it).read_text()) for it in asked.table))
        return 0
    os.environ.update(programs(asked.uvt.resolve()))
    return 0 if hunt_all(asked.names or list(RACES), asked.uvt.resolve(), asked.seeds, asked.json) else 1
