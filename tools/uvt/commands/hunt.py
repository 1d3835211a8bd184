"""Hunts for an order in which a program on libuv ends badly: it records it, asks find, forces what was found, and learns from that.

  ./uvt hunt [-o NAME] [--for TIME] [--part K/N] [--seed S] [--report FILE] [--same-output] [--check CMD] [--] PROGRAM [ARG..]
  ./uvt hunt --join FILE..

A run ends badly by a signal, with a report of AddressSanitizer (build the program with -fsanitize=address), with another status than the first
run, where it hangs, or never, where the first run ended. First come ten orders at random. Then questions, which are the same of each program: a
timer, an async handle or a request that is called, called twice or never called, or called before another one; an op on what is gone or closed; a
cancel that comes in time, or too late; a loop that waits for ever. Each also with a stall, as long as the longest callback. Each order that find has
found is forced upon the program. What callbacks do that were never called before is known from then on, and the questions are asked again. At the
end come a hundred more orders at random.

Where a run ends badly, its order is NAME.uvt, and the same order is forced ten times more (twice, where each takes long): it is said in how many of
these it ended badly. Where that isn't each time, a better one is looked for, for as many runs as it took. NAME is the program's, with `.hunt`. --for
TIME (60s, 10m, 2h): it ends by then, and until then it goes on with orders at random; a run under way is ended then, those that try a bad order again
are not. Ctrl-C ends it at any time, and it says what it has done.

--same-output: a run that says something else than the first one is bad, too. --check CMD: so is one that CMD calls bad. A shell runs it behind each
run that ended well, with that run's output as its input, and its status in UVT_STATUS. Status 0: it is well. 125: it can't tell. Another one: it is
bad.

--part K/N: the K-th of N parts, each of which asks other questions, and has other orders at random. Its report is NAME.K-of-N.report. --join: what
the parts have found, of their reports.

--seed S: the first order at random has this number, in place of 1. --report FILE: for a machine, as often as wanted: SARIF 2.1.0 where FILE ends with
.sarif, JUnit's XML where it ends with .xml, else JSON.

Status 0: each run ended well; that doesn't say that there is no such order. 3: one ended badly. 2: it could not be done. 130: it was interrupted.
"""

from __future__ import annotations

import argparse
import dataclasses
import itertools
import json
import os
import re
import shlex
import shutil
import signal
import sys
import tempfile
import time
from pathlib import Path
from typing import Any

from launch.tool import run_tool
from uvt.conversation import INSTALLED, Fault, built_program, search_program
from uvt.hunting import Hunt, Wishes
from uvt.hunt_ends import Bad, Counts
from uvt.notes import harmless, times
from uvt.record.compiled import recorder
from uvt.record.files import room_in, write
from uvt.reports import junit, sarif

WELL, FAULT, BADLY, INTERRUPTED = 0, 2, 3, 130
FORCE = "uvt force" if INSTALLED else "./uvt force"
TIMES = {"": 1, "s": 1, "m": 60, "h": 3600}
REPORT = "uvt-hunt 1"
# Into so many parts a hunt is cut at the most, and no count of a report is larger than that.
MOST_PARTS, MOST_COUNTED = 1_000_000, 1e18


def prepare() -> str:
    """What is compiled once is there before the first run begins: a fresh clone compiles for minutes, and no run is given so long. Answers the
    program that searches."""
    recorder()
    recorder(forcing=True)
    os.environ["UVT"], os.environ["UVT_FIND"] = built_program(), search_program()
    return os.environ["UVT_FIND"]


class Teller:
    """How far it is, in a line at a terminal."""

    def __init__(self) -> None:
        self.shows, self.began, self.shown = sys.stderr.isatty(), time.monotonic(), False
        self.counts = Counts()

    def tell(self, what: str) -> None:
        if self.shows:
            minutes, seconds = divmod(int(time.monotonic() - self.began), 60)
            it = self.counts
            line = f"uvt hunt: {minutes}:{seconds:02}, {times(it.questions, 'question')}, {it.found} forced, {it.random} at random: {what}"
            width = shutil.get_terminal_size().columns - 1
            print(f"\r\x1b[K{harmless(line)[:width]}", end="", file=sys.stderr, flush=True)
            self.shown = True

    def done(self) -> None:
        if self.shown:
            print("\r\x1b[K", end="", file=sys.stderr, flush=True)


# ---- what is said


def how_often(bad: Bad) -> str:
    return f", and in {bad.bad_again} of {times(bad.again, 'further run')} in the same order" if bad.again else ""


def of_bad(bad: Bad, name: str, words: list[str]) -> list[str]:
    """How it ended badly, where its order is, and the words to see it."""
    lines = [f"the program {bad.how}{how_often(bad)}"]
    lines += [f"    {it}" for it in bad.hang]
    lines += [f"    in {bad.place}"] if bad.place else []
    if not bad.order:
        return [*lines, f"    in {bad.by}, of which nothing was recorded"]
    program, loop = shlex.join(words), (f" --loop {bad.loop}" if bad.loop else "") + (" --early" if bad.early else "")
    # (where a signal or a sanitizer ends it, a debugger stops there by itself)
    stop = "" if bad.how.startswith("was ended by") or "Sanitizer" in bad.how else " --stop"
    return [
        *lines,
        f"    in {bad.by}",
        f"    its order is {name}.uvt. To see it:",
        f"    {FORCE}{loop} {name}.uvt {program}",
        f"    {FORCE}{loop}{stop} {name}.uvt gdb --args {program}",
    ]


def keep_order(bad: Bad, name: str) -> None:
    if bad.order:
        write(Path(f"{name}.uvt"), bad.order.encode("ascii", "surrogateescape"))


def say(counts: Counts, bad: Bad | None, lines: list[str], part: str, fault: str) -> int:
    lines = [*lines]
    lines.append(f"    {counts.text()}{part}")
    print(harmless("\n".join(lines)), flush=True)
    if fault:
        print(f"uvt hunt: a question could not be asked: {harmless(fault)}", file=sys.stderr)
    return BADLY if bad else WELL


# ---- reports


@dataclasses.dataclass
class Report:
    """What a hunt has found, for machines."""

    wishes: Wishes
    counts: Counts
    bad: Bad | None
    # what is said of it, and the name of its order, without .uvt
    lines: list[str]
    name: str
    status: int

    def write(self, file: str) -> None:
        """By the file's name: SARIF, JUnit's XML, or what --join reads."""
        if file.endswith(".sarif"):
            text = sarif(self.wishes.words, self.bad, self.lines, f"{self.name}.uvt", self.status)
        elif file.endswith(".xml"):
            text = junit(self.wishes.words, self.bad, self.lines, self.counts.seconds, self.counts.text())
        else:
            text = self.json()
        write(Path(file), text.encode("utf-8", "replace"))

    def json(self) -> str:
        found: dict[str, object] = {"form": REPORT, "part": self.wishes.part, "program": self.wishes.words}
        found["ended"] = "interrupted" if self.status == INTERRUPTED else ""
        found["counts"] = dataclasses.asdict(self.counts)
        found["bad"] = dataclasses.asdict(self.bad) if self.bad else None
        return json.dumps(found, indent=1) + "\n"


# ---- parts


def read_report(path: str) -> dict[str, Any]:
    """A report of a part, which may be anybody's file: it is refused where anything of it isn't as it is written here."""
    try:
        found: dict[str, Any] = json.loads(Path(path).read_text(encoding="utf-8"))
        mine, of = found["part"]
        words = found["program"]
        if found["form"] != REPORT or not (type(mine) is type(of) is int and 1 <= mine <= of <= MOST_PARTS):
            raise ValueError
        if type(words) is not list or not words or not all(is_text(it) for it in [*words, found["ended"]]):
            raise ValueError
        are_typed(Counts(**found["counts"]))
        if found["bad"]:
            are_typed(bad := Bad(**found["bad"]))
            bad.order.encode("ascii", "surrogateescape")
        return found
    except OSError as fault:
        raise Fault(f"{path}: {fault.strerror}") from None
    except (ValueError, TypeError, KeyError, RecursionError):
        raise Fault(f"{path}: this is no report of a part of a hunt") from None


def is_text(value: object) -> bool:
    return isinstance(value, str) and "\0" not in value


def is_count(value: object) -> bool:
    return isinstance(value, (int, float)) and 0 <= value < MOST_COUNTED


def are_typed(found: Counts | Bad) -> None:
    """Refuses a report whose numbers are none, or whose texts are none."""
    for it in dataclasses.fields(found):
        value, kind = getattr(found, it.name), str(it.type)
        is_list, fits = kind.startswith("list["), is_text if "str" in kind else is_count
        if isinstance(value, list) != is_list or not all(map(fits, value if is_list else [value])):
            raise ValueError


def ranges(numbers: list[int]) -> str:
    """`3`, `1 to 4, 7`."""
    runs = [[it for _, it in run] for _, run in itertools.groupby(enumerate(numbers), lambda it: it[1] - it[0])]
    return ", ".join(f"{it[0]} to {it[-1]}" if len(it) > 1 else f"{it[0]}" for it in runs)


def join(paths: list[str], name: str | None) -> int:
    """What all parts have found."""
    reports = [read_report(it) for it in paths]
    of, words = reports[0]["part"][1], reports[0]["program"]
    seen: dict[int, str] = {}
    for path, it in zip(paths, reports):
        if it["part"][1] != of or it["program"] != words:
            raise Fault(f"{path}: this part is of another hunt than {paths[0]}")
        if (other := seen.setdefault(it["part"][0], path)) is not path:
            raise Fault(f"{path}: part {it['part'][0]} is there already, in {other}")
    all_counts = [Counts(**it["counts"]) for it in reports]
    total = Counts(**{it.name: sum(getattr(one, it.name) for one in all_counts) for it in dataclasses.fields(Counts)})
    have = set(seen)
    missing = [it for it in range(1, of + 1) if it not in have]
    cut = sorted(it["part"][0] for it in reports if it["ended"])
    bad = [(it["part"][0], Bad(**it["bad"])) for it in sorted(reports, key=lambda it: int(it["part"][0])) if it["bad"]]
    name = name or f"{Path(words[0]).name}.hunt"
    lines = [f"part{'s' * (len(missing) > 1)} {ranges(missing)} of {of} {'are' if len(missing) > 1 else 'is'} missing"] if missing else []
    lines += [f"part {it} was interrupted" for it in cut]
    for number, one in bad:
        order = name if len(bad) == 1 else f"{name}.{number}"
        keep_order(one, order)
        lines += [f"part {number} of {of}:", *of_bad(one, order, words)]
    lines += [] if bad else ["each run ended well"]
    lines.append(f"    {total.text()}, in {times(len(have), 'part')}")
    print(harmless("\n".join(lines)), flush=True)
    return BADLY if bad else WELL


# ---- words


def seconds_of(text: str) -> float:
    found = re.fullmatch(r"(\d+)([smh]?)", text)
    if not found:
        raise argparse.ArgumentTypeError(f"{text}: a time is 60s, 10m or 2h")
    return int(found[1]) * TIMES[found[2]]


def part_of(text: str) -> tuple[int, int]:
    found = re.fullmatch(r"(\d+)/(\d+)", text)
    if not found or not 1 <= int(found[1]) <= int(found[2]) <= MOST_PARTS:
        raise argparse.ArgumentTypeError(f"{text}: a part is K/N, from 1/N to N/N, and N is a million at the most")
    return int(found[1]), int(found[2])


def interrupted(number: int, frame: object) -> None:
    raise KeyboardInterrupt


def hunted(wishes: Wishes, name: str, reports: list[str]) -> int:
    search, teller = prepare(), Teller()
    folder = room_in(Path(tempfile.gettempdir()), "uvt-hunt.")
    hunt = Hunt(wishes, search, folder, teller.tell)
    teller.counts = hunt.counts
    bad, ended = None, False
    for it in (signal.SIGTERM, signal.SIGHUP):
        # (who started it may have it pass over a signal, as nohup does, or an interrupt, as a shell in the background)
        if signal.getsignal(it) != signal.SIG_IGN:
            signal.signal(it, interrupted)
    try:
        bad = hunt.run()
    except KeyboardInterrupt:
        bad, ended = hunt.spare, True
    finally:
        shutil.rmtree(folder, ignore_errors=True)
        teller.done()
    hunt.counts.seconds = time.monotonic() - hunt.began
    mine, of = wishes.part
    of_parts = f", part {mine} of {of}" if of > 1 else ""
    name = f"{name}.{mine}-of-{of}" if of > 1 else name
    lines = of_bad(bad, name, wishes.words) if bad else ["each run ended well"]
    if bad:
        keep_order(bad, name)
    status = say(hunt.counts, bad, lines, of_parts, hunt.fault)
    report = Report(wishes, hunt.counts, bad, lines, name, INTERRUPTED if ended else status)
    for file in [*reports, *([f"{name}.report"] if of > 1 else [])]:
        report.write(file)
    if ended:
        print("it was interrupted, and not at its end", flush=True)
    return report.status


def main() -> int:
    reader = argparse.ArgumentParser(description=__doc__, formatter_class=argparse.RawDescriptionHelpFormatter)
    reader.add_argument("-o", dest="name", help="the name of what is written")
    reader.add_argument("--for", dest="seconds", type=seconds_of, metavar="TIME", help="how long: 60s, 10m, 2h")
    reader.add_argument("--part", type=part_of, default=(1, 1), metavar="K/N", help="this part of the questions and seeds")
    reader.add_argument("--same-output", action="store_true", help="a run that says something else than the first one ends badly, too")
    reader.add_argument("--check", default="", metavar="CMD", help="a run that this command calls bad ends badly, too")
    reader.add_argument("--seed", type=int, default=1, metavar="S", help="the first order's number: another night, other orders")
    reader.add_argument("--report", action="append", default=[], metavar="FILE", help="FILE.sarif, FILE.xml (JUnit), or JSON")
    reader.add_argument("--join", action="store_true", help="the reports of the parts")
    reader.add_argument("program", nargs=argparse.REMAINDER)
    asked = reader.parse_args()
    words = asked.program[1:] if asked.program[:1] == ["--"] else asked.program
    if not words:
        reader.error("FILE is missing" if asked.join else "PROGRAM is missing")

    def hunt() -> int:
        try:
            if asked.join:
                return join(words, asked.name)
            name = asked.name or f"{Path(words[0]).name}.hunt"
            return hunted(Wishes(words, asked.seconds, asked.part, asked.seed, asked.same_output, asked.check), name, asked.report)
        except ValueError as fault:
            raise Fault(str(fault)) from None

    return run_tool("uvt-hunt", hunt, failed=FAULT, what="the hunt")
