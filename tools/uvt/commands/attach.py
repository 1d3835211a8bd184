"""The recorder comes into a program that runs already, without a restart; ./uvt dump PID makes recordings of what it keeps from then on.

  ./uvt attach [-o NAME] [--keep MIB] [--late MS] [--javascript] PID
  ./uvt attach --detach PID       it leaves the program again, which goes on as if it had never been there. What was kept stays

What is kept stands in NAME.PID.ring, as with ./uvt record --keep (64 MiB where nobody says). All threads stand still for some ms meanwhile: it says
for how long. A loop is recorded from the first poll on at which all requests that are under way were asked for since. With
--javascript a program in node has the hook of the recorder, too, so that functions of JavaScript are known: that of a timer which was there
before as well, for which V8 looks through all of its memory, and JavaScript stands still meanwhile. Functions of Python and Lua aren't known, since
their hooks are loaded with the program. x86-64 and glibc alone.

Status 0: it is in, or has left. 2: it isn't, or hasn't, and the program goes on as before.
"""

from __future__ import annotations

import argparse
from pathlib import Path

from launch.tool import run_tool
from uvt.commands.record import KEPT, positive
from uvt.record.attach import attached, hooking, left, script_of
from uvt.record.compiled import recorder
from uvt.record.started import HOOKS, Keep


def main() -> int:
    reader = argparse.ArgumentParser(description=__doc__, formatter_class=argparse.RawDescriptionHelpFormatter)
    reader.add_argument("-o", dest="name", default="uvt", metavar="NAME", help="what the ring is called: NAME.PID.ring")
    reader.add_argument("--keep", type=positive, default=KEPT, metavar="MIB", help=f"how many MiB of log are kept ({KEPT} without it)")
    reader.add_argument("--late", type=positive, default=0, metavar="MS", help="apart what stood around something that took so long")
    reader.add_argument("--javascript", action="store_true", help="in node: the functions of JavaScript, too")
    reader.add_argument("--detach", action="store_true", help="the recorder leaves the program again")
    reader.add_argument("process", type=positive, metavar="PID", help="the process")
    asked = reader.parse_args()

    def attach() -> int:
        if asked.detach:
            still = 1000 * left(asked.process, recorder())
            print(f"process {asked.process} goes on without the recorder (its threads stood still for {still:.1f} ms)")
            return 0
        lines = {"UVT_LOG": str(Path(asked.name).resolve())} | Keep(asked.keep, asked.late).environment()
        if asked.javascript:
            lines["UVT_SCRIPT"] = script_of(recorder(), HOOKS / "node" / "hook.js")
        still = 1000 * attached(asked.process, recorder(), lines)
        print(f"process {asked.process} has the recorder (its threads stood still for {still:.1f} ms): ./uvt dump {asked.process}")
        if asked.javascript:
            hooked = hooking(asked.process, recorder())
            print("no loop of it has JavaScript" if hooked is None else f"its JavaScript stood still for {hooked:.0f} ms")
        return 0

    return run_tool("uvt-attach", attach, failed=2)
