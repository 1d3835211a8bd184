"""The same script on the real libuv.

  ./uvt libuv FILE         a recording, or a script with `begin` and the steps behind it
  ./uvt libuv --node FILE  on the libuv that is a part of node, and not on the installed one

The script runs on libuv itself, under a clock that stands still and a poll that doesn't sleep: the ticks, the sends and what the
workers do are those of the session. The lines are those that both have: ops with their answers, callbacks, runs, polls. Where the
two part, libuv's line is on the left and that of uvt on the right, and the end says which heading of docs/LIBUV.md tells why.
Status 0: all lines are the same. Status 3: they part.

It needs a C compiler, make, and libuv with its headers (libuv1-dev). UVT names another program than the launcher ./uvt.
"""

from __future__ import annotations

import argparse
import difflib
from pathlib import Path

from launch.tool import run_tool
from uvt.inputs import read_input
from uvt.libuv.differences import Parting, parting
from uvt.libuv.runner import Library, installed, of_node, run_programs
from uvt.libuv.session import Led, lead
from uvt.walk import Walk
from uvt.ways import longest_way

PARTED = 3
WIDTH = 40


def beside(left: list[str], right: list[str]) -> list[str]:
    """Both sides' lines, a line for each that both have."""
    shown = []
    for what, a, b, c, d in difflib.SequenceMatcher(None, left, right, autojunk=False).get_opcodes():
        if what == "equal":
            shown += left[a:b]
            continue
        for at in range(max(b - a, d - c)):
            here = left[a + at] if a + at < b else ""
            there = right[c + at] if c + at < d else ""
            shown.append(f"{here:{WIDTH}} | {there}".rstrip())
    return shown


def told(library: Library, led: Led, parted: Parting | None) -> list[str]:
    if parted is None:
        return [f"libuv {library.version} and uvt: the same {len(led.lines)} lines"]
    lines = [f"libuv {library.version} and uvt part at line {parted.at + 1}, step {led.step_of(parted.at)} of uvt"]
    if not parted.causes:
        return lines + ["docs/LIBUV.md has no heading for it that this tool finds: please tell us"]
    if len(parted.causes) > 1:
        lines.append("one of these explains it, of docs/LIBUV.md:")
        return lines + [f"    step {it.step}: {it.heading}" for it in parted.causes]
    return lines + [f"docs/LIBUV.md: {parted.causes[0].heading} (step {parted.causes[0].step})"]


def show(path: Path, library: Library) -> int:
    script, commands = read_input(path)
    with Walk(script, longest_way(script, commands)) as walk:
        led = lead(walk)
        there = run_programs(library, {"script": led.text}, led.workers)["script"]
        parted = parting(walk, led, there, library)
    shown = led.lines if parted is None else beside(there, led.lines)
    heading = [] if parted is None else [f"{'libuv ' + library.version:{WIDTH}} | uvt"]
    print("\n".join([*script.notes.loud(), *heading, *shown, "", *told(library, led, parted)]), flush=True)
    return 0 if parted is None else PARTED


def main() -> int:
    reader = argparse.ArgumentParser(description=__doc__, formatter_class=argparse.RawDescriptionHelpFormatter)
    reader.add_argument("file", metavar="FILE", type=Path, help="a script or a recording")
    reader.add_argument("--node", action="store_true", help="on the libuv that is a part of node")
    asked = reader.parse_args()
    return run_tool("uvt-libuv", lambda: show(asked.file, of_node() if asked.node else installed()), failed=1)
