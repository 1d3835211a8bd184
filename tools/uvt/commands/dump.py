"""Makes recordings of what a program that runs has kept of itself (./uvt record --keep), without stopping it.

  ./uvt dump [-o NAME] PID    a copy of its ring, and a recording of each of its loops

It writes what ./uvt record writes: NAME.log, NAME.rec and NAME.notes. Without -o NAME is the program's name and its process. It says in which
callback each loop was, and since when: also of one that never ends. The program does nothing for it, and may be stopped, or hang.

Status 0: each recording goes all the way. 1: one stops before. 2: there is no such process, it keeps no ring, or nothing could be written.
"""

from __future__ import annotations

import argparse

from launch.tool import run_tool
from uvt.commands.record import positive
from uvt.record.parts import MOST, Part
from uvt.record.run import from_process


def main() -> int:
    reader = argparse.ArgumentParser(description=__doc__, formatter_class=argparse.RawDescriptionHelpFormatter)
    reader.add_argument("-o", dest="name", metavar="NAME", help="what the files that are written are called, without their ends")
    reader.add_argument("process", type=positive, metavar="PID", help="the process")
    asked = reader.parse_args()
    return run_tool("uvt-dump", lambda: from_process(asked.process, asked.name, Part(None, None, MOST, True)), failed=2)
