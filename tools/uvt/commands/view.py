"""A run as a page for a browser, in one file that works offline.

  ./uvt view FILE > run.html                a recording, or a script with `begin` and the steps behind it
  ./uvt view --at STEP FILE > run.html      of a run of more than 40,000 steps those around this one; without it those around its longest callback
  ./uvt view --trace-event FILE > run.json    the same for the Performance panel of Chrome's DevTools, and for Perfetto
  ./uvt view --cpuprofile FILE > run.cpuprofile    the JavaScript of a recording of node alone, as `node --cpu-prof` writes it

The page has a lane for the loop's sections, for each handle and request, and for each worker; late calls are red. It steps forward
and back with the state at each step, the script's line and `why` of what is clicked. `?` on the page has its keys.

UVT names another program than the launcher ./uvt.
"""

from __future__ import annotations

import argparse
import json
from pathlib import Path

from launch.tool import run_tool
from uvt.conversation import Fault
from uvt.inputs import read_input
from uvt.progress import Teller
from uvt.trace_event import Times, trace_events
from uvt.trace_javascript import cpu_profile
from uvt.view import html
from uvt.walk import Walk
from uvt.ways import longest_way


def show(path: Path, how: str, at: int | None) -> int:
    script, commands = read_input(path)
    steps, states = Teller("uvt-view", "steps"), Teller("uvt-view", "states")
    with Walk(script, longest_way(script, commands), tell=steps.tell) as walk:
        steps.done()
        if how == "cpuprofile" and not walk.notes.javascript.busy:
            raise Fault(
                f"{path}: no function was found under way in it: it is no recording of a program in node, or one of --bare, or by an earlier uvt"
            )
        if how == "page":
            page = html(walk, states.tell, at)
        else:
            page = json.dumps(cpu_profile(walk, Times(walk)) if how == "cpuprofile" else trace_events(walk))
        states.done()
    print(page)
    return 0


def main() -> int:
    reader = argparse.ArgumentParser(description=__doc__, formatter_class=argparse.RawDescriptionHelpFormatter)
    reader.add_argument("file", type=Path, metavar="FILE", help="a recording or a script")
    hows = reader.add_mutually_exclusive_group()
    hows.add_argument(
        "--trace-event", action="store_const", dest="how", const="trace-event", help="the trace event format, for DevTools and Perfetto"
    )
    hows.add_argument("--cpuprofile", action="store_const", dest="how", const="cpuprofile", help="V8's profile of a program in node")
    reader.add_argument("--at", type=int, metavar="STEP", help="of a long run the steps around this one")
    asked = reader.parse_args()
    return run_tool("uvt-view", lambda: show(asked.file, asked.how or "page", asked.at), failed=1)
