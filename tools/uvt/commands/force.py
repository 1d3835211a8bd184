"""Runs a real program in the order of a session: what comes from outside comes where the session has it.

  ./uvt force [-o NAME] [--stop] [--early] [--loop N] SESSION [--] PROGRAM [ARG..]
  ./uvt force --test [--limit S] [--check CMD] [--early] [--loop N] SESSION [--] PROGRAM [ARG..]
  ./uvt force [-o NAME] [--stall MS] [--seed S] --random N [--] PROGRAM [ARG..]

SESSION is what find or hunt has found, what shell has saved, or a recording. The program runs unmodified: its clock moves as the session says,
the pool's workers take and hand in their requests where it says, threads send where it says. So what the session shows happens in the
program itself, under gdb, valgrind or a sanitizer too. Where the program does something else than the session, that is said, with the step.

The run is recorded as by ./uvt record: NAME.rec. --stop: the program gets SIGTRAP at the session's last step, before it is done (for gdb).
--early: the work of a request begins where a worker takes it, and runs beside the loop; without it at the step where it is finished.
PROGRAM may be gdb (gdb --args PROGRAM ..) or valgrind with the program behind it.

--random N: without a session, up to N runs, each in an order at random, until one ends badly: by a signal, with a sanitizer's report, with
another status than a run that nobody forces, or never. Its order is NAME.rec, which `./uvt force NAME.rec PROGRAM` forces again. --stall MS: now
and then the clock jumps by up to MS ms. --seed S: the first order's number.

--test: as a test of CI, without a recording. Status 0: all steps came, and the program ended well. 3: it ended badly, or hangs, or took more than
--limit S seconds (60), or a command of yours calls it bad (--check CMD, as in ./uvt hunt). 77, which automake, meson and ctest take for skipped: it
departs from the order, which says nothing of it any more.

Status 0: all steps of the session have come, with no departure, and the program ended well (at random: each run did). 1: it departs, and ended
well. 2: it could not be done. 3: the program ended badly, whether or not it departs: by a signal, or with a status that isn't 0. Under gdb the
status says nothing of how the program ended.
"""

from __future__ import annotations

import argparse
import shlex
import tempfile
from pathlib import Path

from launch.tool import run_tool
from uvt.conversation import INSTALLED
from uvt.inputs import read_input
from uvt.forcing import Order, Ran, badly, bound, first_run, limit, recording_of, run
from uvt.schedule import agreement
from uvt.hunt_ends import place_of
from uvt.judging import judged
from uvt.notes import harmless, times

WELL, DEPARTS, FAULT, BADLY = 0, 1, 2, 3
# A test that says nothing, as automake, meson and ctest (SKIP_RETURN_CODE 77) have it; and how long one may take, in seconds.
SKIPPED, TEST = 77, 60
# How much of a program's output is shown, in lines.
LINES = 12
FORCE = "uvt force" if INSTALLED else "./uvt force"


def summary(ran: Ran, order: Order, recorded: bool) -> tuple[str, bool]:
    """All in a line; and whether all went as in the session."""
    length = len(order.lines)
    steps = f"all {length} steps" if ran.done else f"{ran.steps} of {length} steps"
    says = agreement(order.lines, recording_of(ran.name, order.loop)) if recorded else ""
    good = ran.done and ran.departures == 0 and says in ("", "same")
    return ", ".join(filter(None, [steps, times(ran.departures, "departure"), says])), good


def in_order(words: list[str], order: Order, name: str, records: bool) -> int:
    ran = run(words, order, name, None, records)
    is_gdb = Path(words[0]).name == "gdb"
    bad = "" if is_gdb else ran.ended()
    shown = [it for it in ran.told if order.stop or bad or not it.startswith("step ")]
    line, good = summary(ran, order, records)
    said = [f"the program {bad}", *(f"    {it}" for it in ran.hang)] if bad else []
    print("\n".join([*said, *shown, *ran.recorded.splitlines(), line]), flush=True)
    return BADLY if bad else WELL if good else DEPARTS


def tested(words: list[str], order: Order, session: str, seconds: float, check: str) -> int:
    """An order that was bad, as a test: it fails where the program ends badly in it again, and says nothing where the program departs from it."""
    ran = run(words, order, f"{Path(words[0]).name}.forced", seconds, False)
    print(ran.output, end="" if ran.output.endswith("\n") or not ran.output else "\n")
    place, length = place_of(ran.output)[0], len(order.lines)
    if bad := ran.ended() or (judged(check, ran) if check else ""):
        lines = [f"FAIL {session}: the program {bad}{f', in {place}' if place else ''}", *(f"    {it}" for it in ran.hang)]
        status = BADLY
    elif ran.done and not ran.departures:
        lines, status = [f"PASS {session}: all {length} steps, and the program ended well"], WELL
    else:
        why = next((it for it in ran.told if it.startswith(("departs", "ends"))), f"{ran.steps} of {length} steps came")
        lines, status = [f"SKIP {session}: the program isn't that of the order any more, which says nothing now: hunt again", f"    {why}"], SKIPPED
    print(harmless("\n".join(lines)), flush=True)
    return status


def busiest(words: list[str], folder: Path) -> tuple[Ran, int, int]:
    """A run that nobody forces, its loop that has the most steps, and how many: the first loops of node are its own."""
    first = first_run(words, str(folder / "first"))
    steps = {it: len(read_input(it)[1]) for it in folder.glob("first*.rec")}
    most = max(steps, key=lambda it: steps[it], default=None)
    return (first, read_input(most)[0].notes.loop, steps[most]) if most else (first, 0, 0)


def at_random(words: list[str], runs: int, wanted: Order, name: str) -> int:
    """Runs it in orders at random until it ends badly. WANTED: the first of them; its loop is negative where nobody has said which."""
    with tempfile.TemporaryDirectory() as folder:
        first, busy, steps = busiest(words, Path(folder))
    loop = busy if wanted.loop < 0 else wanted.loop
    if first.ended():
        print(f"a run that nobody forces {first.ended()}", flush=True)
    for number in range(1, runs + 1):
        order = bound(Order(seed=(wanted.seed or 0) + number - 1, stall=wanted.stall, loop=loop), first, steps)
        ran = run(words, order, name, limit(first), lambda it: badly(it, first))
        if bad := badly(ran, first):
            print(f"run {number} {bad}")
            print("\n".join([*(f"    {it}" for it in ran.hang), *ran.output.splitlines()[:LINES]]))
            print(f"its order: {FORCE}{' --early' if ran.early else ''} {recording_of(name, loop)} {shlex.join(words)}", flush=True)
            return BADLY
    print(f"{times(runs, 'run')}, and each ended {'as that did' if first.ended() else 'well'}")
    return WELL


def main() -> int:
    reader = argparse.ArgumentParser(description=__doc__, formatter_class=argparse.RawDescriptionHelpFormatter)
    reader.add_argument("-o", dest="name", help="the recording's name, without .rec")
    reader.add_argument("--stop", action="store_true", help="SIGTRAP at the last step")
    reader.add_argument("--early", action="store_true", help="work begins where it is taken")
    reader.add_argument("--quiet", action="store_true", help="no recording")
    reader.add_argument("--test", action="store_true", help="as a test: 0 it passes, 3 it fails, 77 it says nothing any more")
    reader.add_argument("--limit", type=float, default=TEST, metavar="S", help="as a test: how long it may take, in seconds")
    reader.add_argument("--check", default="", metavar="CMD", help="as a test: it fails, too, where this command calls the run bad")
    reader.add_argument("--random", type=int, metavar="N", help="no session: up to N orders at random")
    reader.add_argument("--loop", type=int, metavar="N", help="which loop of the program (a recording says so itself; else 0, the first)")
    reader.add_argument("--stall", type=int, default=0, metavar="MS", help="at random: jumps of the clock")
    reader.add_argument("--seed", type=int, default=1, metavar="S", help="at random: the first order's number")
    reader.add_argument("session", help="what is forced; with --random the program")
    reader.add_argument("program", nargs=argparse.REMAINDER)
    asked = reader.parse_args()
    words = asked.program[1:] if asked.program[:1] == ["--"] else asked.program
    if asked.random is not None and asked.session != "--":
        words = [asked.session, *words]
    if not words:
        reader.error("PROGRAM is missing")
    if asked.test and asked.random is not None:
        reader.error("--test has a session, and no orders at random")

    def force() -> int:
        if asked.random is not None:
            wanted = Order(seed=asked.seed, stall=asked.stall, loop=-1 if asked.loop is None else asked.loop)
            return at_random(words, asked.random, wanted, asked.name or f"{Path(words[0]).name}.random")
        script, commands = read_input(Path(asked.session))
        loop = script.notes.loop if asked.loop is None else asked.loop
        if asked.test:
            return tested(words, Order(script, commands, loop, early=asked.early), asked.session, asked.limit, asked.check)
        return in_order(words, Order(script, commands, loop, asked.stop, asked.early), asked.name or f"{Path(words[0]).name}.forced", not asked.quiet)

    return run_tool("uvt-force", force, failed=FAULT, what="the run")
