"""Does `same` mean anything? tests/recorder/sharpness LOG..

It changes true logs in one place each, and counts how often the change is noticed: the loop's recording isn't `same` any more, or stops.

  - two callbacks that follow one another, without a poll between, are swapped; where both are of I/O that is counted by itself, for libuv
    gives these in the order of the system, and so any order is right
  - the callback of a request is left out, or comes twice

Those that aren't noticed are printed, except for two of I/O. It is for the hand.
"""

from __future__ import annotations

import argparse
import collections
from pathlib import Path

ROOT = Path(__file__).resolve().parent.parent.parent
from uvt.conversation import Fault
from uvt.record.events import WATCHERS
from uvt.record.log import read_log
from uvt.record.made import make

Block = tuple[int, int]


def type_of(line: str) -> str:
    return line.split(" ")[1] if line.count(" ") > 1 else ""


def blocks(lines: list[str], loop: str) -> list[Block]:
    """Where the callbacks of a loop stand, from the line of their begin to behind that of their end. Lines of other loops and of
    names are taken out before."""
    found, depth, start = [], 0, 0
    for at, line in enumerate(lines):
        if not line.startswith(f"{loop} "):
            continue
        if type_of(line) == "B":
            start, depth = (at if depth == 0 else start), depth + 1
        elif type_of(line) == "E" and depth:
            depth -= 1
            if depth == 0:
                found.append((start, at + 1))
    return found


def whole(lines: list[str], loop: str) -> bool:
    """Is the recording of this loop `same`, up to the log's end?"""
    try:
        log = read_log(("\n".join(lines) + "\n").encode())
        made = make(log, int(loop))
    except Fault:
        return False
    return made is not None and made.is_whole() and not log.note


def called(line: str) -> list[str]:
    """Which list and which object a callback's line has. (Behind the loop's time stands the clock, but in logs of earlier recorders.)"""
    words = line.split(" ")
    return words[4:6] if words[3].isdecimal() else words[3:5]


def watchers(lines: list[str]) -> set[str]:
    """The handles of I/O. (A number stands for one handle or request alone.)"""
    words = (it.split(" ") for it in lines if type_of(it) == "O")
    return {it[4][1:] for it in words if it[3] == "init" and it[5] in WATCHERS}


def swaps(lines: list[str], found: list[Block], both: bool) -> list[tuple[str, list[str]]]:
    """Each two neighbours swapped: nothing stands between them, and they are of two objects. `both`: those that are both of I/O, or all
    others. (A change of the names' lines is none.)"""
    changed, of_io = [], watchers(lines)
    for (a, b), (c, d) in zip(found, found[1:]):
        first, second = called(lines[a]), called(lines[c])
        are = all(it[0] == "on" and it[1] in of_io for it in (first, second))
        if b == c and first != second and are == both:
            changed.append((f"`{lines[a]}` and `{lines[c]}`", lines[:a] + lines[c:d] + lines[a:b] + lines[d:]))
    return changed


def requests(lines: list[str], found: list[Block]) -> list[tuple[str, list[str]]]:
    """Each callback of a request left out, and twice."""
    changed = []
    for a, b in found:
        if called(lines[a])[0] == "after":
            changed.append((f"without `{lines[a]}`", lines[:a] + lines[b:]))
            changed.append((f"twice `{lines[a]}`", lines[:b] + lines[a:b] + lines[b:]))
    return changed


def main() -> int:
    reader = argparse.ArgumentParser(description=__doc__, formatter_class=argparse.RawDescriptionHelpFormatter)
    reader.add_argument("logs", nargs="+", type=Path, metavar="LOG")
    reader.add_argument("--first", type=int, default=0, metavar="N", help="only the first N callbacks of each loop (0: all)")
    reader.add_argument("--most", type=int, default=40, metavar="N", help="so many changes of a kind of a loop, spread over it")
    asked = reader.parse_args()
    counts: collections.Counter[tuple[str, bool]] = collections.Counter()
    for path in asked.logs:
        text = path.read_text().split("\n")[:-1]
        for loop in sorted({it.split(" ")[0] for it in text if it[:1].isdigit()}):
            # (the lines of names first: so nothing but what the program did stands between two callbacks)
            names = [it for it in text[1:] if not it.startswith(f"{loop} ") or type_of(it) in "CV"]
            lines = [text[0], *(it for it in names if it.startswith("- ") or it.startswith(f"{loop} "))]
            lines += [it for it in text[1:] if it.startswith(f"{loop} ") and type_of(it) not in "CVST"]
            found = blocks(lines, loop)
            if asked.first and len(found) > asked.first:
                lines, found = lines[: found[asked.first - 1][1]], found[: asked.first]
            if not whole(lines, loop):
                continue
            changes = {"swapped": swaps(lines, found, False), "both of I/O": swaps(lines, found, True), "request": requests(lines, found)}
            for what, changed in changes.items():
                for says, other in changed[:: max(1, len(changed) // asked.most)]:
                    noticed = not whole(other, loop)
                    counts[what, noticed] += 1
                    if not noticed and what != "both of I/O":
                        print(f"{path.name}, loop {loop}: not noticed: {says}", flush=True)
    for what in ("swapped", "both of I/O", "request"):
        print(f"{what}: {counts[what, True]} of {counts[what, True] + counts[what, False]} noticed")
    return 0
