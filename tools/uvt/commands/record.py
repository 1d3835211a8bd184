"""Records a program on libuv, and makes recordings of its loops, for `uvt replay` and `uvt debug`.

  ./uvt record [-o NAME] PROGRAM [ARG..]    runs the program, unmodified, under the recorder
  ./uvt record [-o NAME] --log FILE         takes a log that was kept, or a ring
  ./uvt record --keep MIB [--late MS] PROGRAM [ARG..]
                                            of a program that runs for long: its last MIB megabytes of log alone are kept. ./uvt dump PID
                                            makes recordings of them while it runs. --late: what stood around a callback that took MS, a timer
                                            that began so late or a poll that ended so late is kept apart (of the longest)
  ./uvt record --keep MIB [--late MS]       without a program: prints what has to be in the environment of one that somebody else starts

It writes NAME.log, and for each loop with callbacks NAME.rec (NAME.1.rec, .. where there are several), and beside it NAME.notes, which
says where each name comes from and what else is known. Without -o NAME is the program's name. Of each loop it says how many callbacks and
steps the recording has, whether it goes all the way (`same`) or where it stops and why, and how many polls it has beside those of the
program. docs/RECORD.md shows it.

Of a log with more than 100,000 callbacks as many are taken as that, with the longest one among them: which that is, the log says before
anything is followed. --most N takes the first N, with --worst those around the longest; --last SECONDS and --from MS of the loop's time take a
part. A part begins up to a second or so before, where the recorder had written down all that the loop had.

Of a program in node (and in Python on uvloop, in Lua on luv) its functions are known: node loads a file of the recorder before the program.
--bare leaves that out. With --lift there is a second recording, NAME.lift.rec, in which each timer and each immediate of JavaScript is a
handle of its own, in place of node's one timer for all: so `find`, the shell and a changed run speak of these.

Status 0: each recording goes all the way. 1: one stops before. 2: nothing was recorded, or it could not be written.

It talks with the program that `./uvt` would start; UVT names another one. The recorder is compiled when it is first needed: that
takes a C compiler and libuv's header (Debian: gcc, libuv1-dev), and for programs with libuv within them capstone (libcapstone-dev).
"""

from __future__ import annotations

import argparse
import re
import signal
from pathlib import Path

from launch.tool import keeps_all, run_tool
from uvt.conversation import Fault
from uvt.record.parts import MOST, Part
from uvt.record.run import from_keeping, from_log, from_program
from uvt.record.started import Keep, words_to_start_with

# How many MiB are kept where nobody says.
KEPT = 64


def natural(text: str) -> int:
    if not text.isdecimal():
        raise argparse.ArgumentTypeError(f"`{text}` is no number of milliseconds")
    return int(text)


def positive(text: str) -> int:
    if not text.isdecimal() or int(text) == 0:
        raise argparse.ArgumentTypeError(f"`{text}` is no number from 1 on")
    return int(text)


def seconds(text: str) -> int:
    """In milliseconds."""
    if not re.fullmatch(r"\d+(\.\d+)?", text):
        raise argparse.ArgumentTypeError(f"`{text}` is no number of seconds")
    return round(float(text) * 1000)


def end(number: int, _: object) -> None:
    """Ends with all that is cleared away."""
    raise SystemExit(128 + number)


def main() -> int:
    reader = argparse.ArgumentParser(description=__doc__, formatter_class=argparse.RawDescriptionHelpFormatter)
    reader.add_argument("-o", dest="name", metavar="NAME", help="what the files that are written are called, without their ends")
    reader.add_argument("--log", type=Path, metavar="FILE", help="a log that was kept, in place of a program")
    reader.add_argument("--most", type=positive, metavar="N", help=f"how many callbacks at the most ({MOST} without it): the first ones")
    reader.add_argument("--worst", action="store_true", help="of more callbacks than that the ones around the longest (so it is without --most)")
    reader.add_argument("--last", type=seconds, metavar="SECONDS", help="the last seconds of the log")
    reader.add_argument("--from", type=natural, dest="begin", metavar="MS", help="from this time of the loop on")
    reader.add_argument("--bare", action="store_true", help="without the functions of JavaScript, Python and Lua: nothing is loaded with the program")
    reader.add_argument(
        "--lift", action="store_true", help="a second recording, NAME.lift.rec: each timer and immediate of JavaScript is a handle of its own"
    )
    reader.add_argument("--keep", type=positive, nargs="?", const=KEPT, metavar="MIB", help=f"only so many MiB of the log ({KEPT} without a number)")
    reader.add_argument("--late", type=positive, metavar="MS", help="with --keep: apart what stood around something that took so long")
    reader.add_argument("program", nargs=argparse.REMAINDER, metavar="PROGRAM", help="the program, and its words")
    asked = reader.parse_args()
    words = asked.program[1:] if asked.program[:1] == ["--"] else asked.program
    if bool(words) == bool(asked.log) and not (asked.keep and not asked.log):
        reader.error("a program, or --log FILE")
    if (asked.keep and asked.log) or (asked.late and not asked.keep):
        reader.error("--keep is for a program that runs, and --late goes with it")
    for number in (signal.SIGTERM, signal.SIGHUP):
        signal.signal(number, end)
    worst = asked.begin is None and asked.last is None and (asked.worst or asked.most is None)
    part = Part(asked.begin, asked.last, asked.most or MOST, worst)

    def record() -> int:
        if asked.lift and asked.bare:
            raise Fault("--lift takes what --bare leaves out")
        keeps_all()
        if asked.keep:
            keep = Keep(asked.keep, asked.late or 0)
            if words:
                return from_keeping(words, asked.name, keep, part, asked.bare, asked.lift)
            print(*words_to_start_with(asked.name, keep, asked.bare), sep="\n")
            return 0
        return from_log(asked.log, asked.name, part, asked.lift) if asked.log else from_program(words, asked.name, part, asked.bare, asked.lift)

    return run_tool("uvt-record", record, failed=2)
