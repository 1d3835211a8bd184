"""Runs a real program in the order of a session, or in one at random: what `force` and `hunt` have in common.

The library is that of tools/uvt/record/recorder, compiled with force.c. Here it gets its schedule, and what it has said is read.
"""

from __future__ import annotations

import contextlib
import glob
import io
import math
import os
import re
import shlex
import shutil
import signal
import struct
import subprocess
import time
from collections.abc import Callable, Iterator
from dataclasses import dataclass, field
from pathlib import Path

from uvt.conversation import Fault, Script
from uvt.hangs import read_hang
from uvt.inputs import HOOKED
from uvt.notes import signal_name
from uvt.record.compiled import recorder
from uvt.record.files import room_for, taken
from uvt.record.parts import Part
from uvt.record.run import from_fresh, from_log
from uvt.record.started import in_front_of, sanitizers, why_not, with_hooks
from uvt.schedule import schedule, workers_of

# A sanitizer's own words. (A leak is none of an order: nobody looks for it, unless the user asks.)
REPORT = re.compile(r"(?:ERROR|WARNING): (\w+Sanitizer: (?:attempting )?[\w-]+)")
# So many departures are listed.
SHOWN = 8
# How long a run may take, in seconds: so often the time of the first run, and as long at the least. Where that didn't end by itself: so long, and
# so long behind the session's last step.
TIMES, LEAST, ENDLESS, GRACE = 10, 30, 10, 2
# How long a run that nobody forces may take; and where it has called nobody by then, or others had the processors meanwhile, so long in turn.
FIRSTS = (10, 30, 90)
# How often it is looked whether it is over.
LOOK = 0.2
# What the page says of a run that hangs: that nothing moves, that nothing could, or that the loop goes round in its timers.
STILL, SURE, ROUND = 1, 2, 3
# How many turns of the loop with nothing but timers are too many: so often those of the first run, and so many at the least. And how long nothing
# may move where somebody from outside could come, in seconds: so often the time of the first run, and so long at the least.
TURNS, MOVES = 1000, 10


@dataclass
class Order:
    """In which order the program is to run: a session's, or, with a seed, one at random."""

    script: Script | None = None
    commands: list[str] = field(default_factory=list)
    loop: int = 0
    stop: bool = False
    early: bool = False
    seed: int | None = None
    stall: int = 0
    # (made of the session)
    rows: list[str] = field(default_factory=list)
    lines: list[str] = field(default_factory=list)
    # the program doesn't end by itself: it is ended behind the last step, or, at random, where the clock has gone so far, in ms
    endless: int = 0
    # how long nothing may move, in seconds, and so many turns of the loop with nothing but timers are too many
    still: float = MOVES
    turns: int = TURNS

    def __post_init__(self) -> None:
        if self.script:
            self.rows, self.lines = schedule(self.script, self.commands)


@dataclass
class Ran:
    """What became of a run."""

    status: int
    seconds: float
    output: str = ""
    # it was ended, since it took too long; and for how much of that its first thread waited for a processor, in seconds
    late: bool = False
    waited: float = 0
    told: list[str] = field(default_factory=list)
    steps: int = 0
    departures: int = 0
    # all steps of the session have come
    done: bool = False
    # work began where it was taken
    early: bool = False
    name: str = ""
    # what is said of its recording
    recorded: str = ""
    # who waits for whom, where it hangs; how sure that is; and PATH:LINE
    hang: list[str] = field(default_factory=list)
    hangs: int = 0
    hangs_at: str = ""
    # how it went wrong by what a command of the user's says, None where nobody has asked
    judged: str | None = None

    def is_told_at_once(self) -> bool:
        """A run that only took too long, or in which nothing moved for long, may have been the machine's matter, or another process's."""
        return not self.late or self.hangs == SURE

    def ended(self) -> str:
        """How the program ended, `` where that was well."""
        if self.hangs:
            return "hangs, its timers excepted" if self.hangs == ROUND else "hangs"
        if self.late:
            return f"didn't end within {self.seconds:.0f} s"
        report = REPORT.search(self.output)
        words = f" ({report[1]})" if report else ""
        if self.status < 0:
            return f"was ended by {signal_name(-self.status)}{words}"
        return f"ended with status {self.status}{words}" if self.status or report else ""


def environment_of(words: list[str], folder: Path, order: Order) -> dict[str, str]:
    """What the program, and no tool around it, finds in its environment."""
    given = {
        "UVT_LOG": str(folder / "log"),
        "UVT_ENDS_WITH": str(os.getpid()),
        "UVT_FORCE_SAID": str(folder / "said"),
        "UVT_FORCE_AT": str(folder / "at"),
        "UVT_FORCE_LOOP": str(order.loop),
        **({} if order.endless else {"UVT_FORCE_HANGS": str(int(1000 * order.still)), "UVT_FORCE_ROUNDS": str(order.turns)}),
        # (libuv of 1.45 to 1.48 asks the kernel, and no worker, where it can: what the kernel does has no order here)
        "UV_USE_IO_URING": "0",
        "LD_PRELOAD": " ".join(
            filter(None, [*next(filter(None, map(sanitizers, words)), []), str(recorder(True)), os.environ.get("LD_PRELOAD", "")])
        ),
        "ASAN_OPTIONS": ":".join(filter(None, ["detect_leaks=0", os.environ.get("ASAN_OPTIONS", "")])),
    }
    if order.seed is not None:
        return given | {"UVT_FORCE_RANDOM": str(order.seed), "UVT_FORCE_STALL": str(order.stall), "UVT_FORCE_UNTIL": str(order.endless)}
    if not order.script:
        return given
    (folder / "schedule").write_text("\n".join(order.rows) + "\n")
    given |= {"UVT_FORCE": str(folder / "schedule"), "UV_THREADPOOL_SIZE": str(workers_of(order.script))}
    given |= {"UVT_FORCE_STOP": "1"} if order.stop else {}
    given |= {"UVT_FORCE_EARLY": "1"} if order.early else {}
    # (what the recorder has node, Python and Lua load asks something of the loop as well)
    return {**given, **hooks(given)} if is_hooked(order.script) else given


def is_hooked(script: Script) -> bool:
    """Was the program recorded with it? What find has found of such a recording says so itself."""
    return bool(script.notes.javascript) or HOOKED in script.lines


def hooks(given: dict[str, str]) -> dict[str, str]:
    found = with_hooks(dict(os.environ))
    more = {it: found[it] for it in found if os.environ.get(it) != found[it]}
    return more | {"UVT_RECORDER": str(recorder(True))}


@dataclass
class At:
    """How far a forced run has come (struct page of tools/uvt/record/recorder/force.h)."""

    # of the session; of these; all of it has come; nothing is forced any more; STILL, SURE or ROUND; work began where it was taken
    steps: int = 0
    departures: int = 0
    done: int = 0
    free: int = 0
    hangs: int = 0
    early: int = 0


def read_page(path: Path) -> At:
    try:
        return At(*struct.unpack("iiiiii", path.read_bytes()[:24]))
    except (OSError, struct.error):
        return At()


def told(path: Path) -> list[str]:
    """What the forced run said, for a person."""
    lines: list[str] = []
    departs: list[str] = []
    for line in path.read_text(errors="replace").splitlines() if path.exists() else []:
        word, _, rest = line.partition(" ")
        if word in ("DEPARTS", "ENDS"):
            departs.append(("departs " if word == "DEPARTS" else "ends ") + rest)
        elif word == "AT":
            lines.append(f"step {rest.partition(' ')[0]}: {rest.partition(' ')[2]}")
        elif word == "STALE":
            lines.append(f"    {rest}")
        elif word not in ("DONE", "HANGS", "WAITS"):
            lines.append(line)
    more = [f"and {len(departs) - SHOWN} more departures"] if len(departs) > SHOWN else []
    return departs[:SHOWN] + more + lines


@contextlib.contextmanager
def folder_for(name: str) -> Iterator[Path]:
    folder = room_for(name)
    try:
        yield folder
    finally:
        shutil.rmtree(folder, ignore_errors=True)


def end_all(ran: subprocess.Popen[bytes]) -> None:
    """Ends what was started in a session of its own, with its children."""
    with contextlib.suppress(ProcessLookupError):
        os.killpg(ran.pid, signal.SIGKILL)
    ran.wait()


def waited_by(process: int) -> float:
    """How long the first thread of a process has waited for a processor, in seconds; 0 where the system doesn't say."""
    try:
        return int(Path(f"/proc/{process}/schedstat").read_text().split()[1]) / 1e9
    except (OSError, ValueError, IndexError):
        return 0


def wait_for(ran: subprocess.Popen[bytes], seconds: float, grace: Callable[[], float | None]) -> bool:
    """Waits for its end. False where it took too long, or all is over but its end: so long is it waited then."""
    until = time.monotonic() + seconds
    while time.monotonic() < until:
        try:
            ran.wait(min(LOOK, max(0.0, until - time.monotonic())))
            return True
        except subprocess.TimeoutExpired:
            if (more := grace()) is not None:
                until = min(until, time.monotonic() + more)
    return False


def run_here(words: list[str], environment: dict[str, str], folder: Path) -> tuple[int, Ran]:
    """Runs it at the terminal, until it ends or hangs. Answers its process too."""
    began = time.monotonic()
    try:
        ran = subprocess.Popen(words, env=dict(os.environ, **environment))
    except OSError as fault:
        raise Fault(why_not(words[0], fault)) from None
    # (who looks on in a debugger wants it alive)
    ends = () if Path(words[0]).name == "gdb" else (SURE, ROUND)
    late = False
    with in_front_of(ran):
        while ran.poll() is None and not late:
            with contextlib.suppress(subprocess.TimeoutExpired):
                ran.wait(LOOK)
            late = ran.poll() is None and read_page(folder / "at").hangs in ends
        if late:
            ran.kill()
        status = ran.wait()
    return ran.pid, Ran(status, time.monotonic() - began, late=late)


def run_for(words: list[str], environment: dict[str, str], folder: Path, seconds: float, grace: Callable[[], float | None]) -> tuple[int, Ran]:
    """The same with its output kept and its time limited."""
    began = time.monotonic()
    with (folder / "output").open("wb") as output:
        try:
            ran = subprocess.Popen(
                words, env=dict(os.environ, **environment), stdin=subprocess.DEVNULL, stdout=output, stderr=subprocess.STDOUT, start_new_session=True
            )
        except OSError as fault:
            raise Fault(why_not(words[0], fault)) from None
        try:
            late = not wait_for(ran, seconds, grace)
            waited = waited_by(ran.pid) if late else 0
        finally:
            end_all(ran)
    text = (folder / "output").read_text(errors="replace")
    return ran.pid, Ran(ran.returncode, time.monotonic() - began, text, late, waited)


def run(
    words: list[str], order: Order, name: str, seconds: float | None = None, records: bool | Callable[[Ran], object] = True, part: Part = Part()
) -> Ran:
    """Runs the program in this order, and records it, or this part of it: NAME.rec. RECORDS may ask how it ended: that takes most of the time."""
    with folder_for(name) as folder:
        environment = environment_of(words, folder, order)
        started = words
        if Path(words[0]).name == "gdb":
            # (the program is to have it, and not gdb)
            environment["ASAN_OPTIONS"] = f"{environment['ASAN_OPTIONS']}:abort_on_error=1"
            # (a shell reads it: a folder may have any name)
            wrapper = " ".join(shlex.quote(f"{a}={b}") for a, b in environment.items())
            started, environment = [words[0], "-ex", f"set exec-wrapper env {wrapper}", *words[1:]], {}

        def grace() -> float | None:
            at = read_page(folder / "at")
            return 0 if at.hangs else GRACE if order.endless and at.free else None

        pid, ran = run_here(started, environment, folder) if seconds is None else run_for(started, environment, folder, seconds, grace)
        ran.told = told(folder / "said")
        at = read_page(folder / "at")
        ran.steps, ran.departures, ran.done, ran.early, ran.name = at.steps, at.departures, bool(at.done), bool(at.early), name
        if ran.late and at.hangs:
            ran.hangs = at.hangs
            ran.hang, ran.hangs_at = read_hang(folder / "said")
        logs = sorted(folder.glob("log.*.log"), key=lambda it: (not it.name.startswith(f"log.{pid}."), it.stat().st_mtime_ns))
        if logs and (records(ran) if callable(records) else records):
            said = io.StringIO()
            with contextlib.redirect_stdout(said):
                from_fresh(
                    taken(logs[0], Path(f"{name}.log")), name, False, part, signal_name(-ran.status) if ran.status < 0 and not ran.late else ""
                )
            ran.recorded = said.getvalue()
        return ran


def first_run(words: list[str], name: str, until: float = math.inf) -> Ran:
    """A run that nobody forces, recorded. One that is late, and of which there is nothing to record, or which waited for a processor most of that
    time, is made again for longer, where that is over by UNTIL."""
    seen: list[Ran] = []

    def records(ran: Ran) -> bool:
        seen[:] = [ran]
        return True

    for seconds in FIRSTS:
        is_last = seconds == FIRSTS[-1] or time.monotonic() + 2 * seconds > until
        try:
            ran = run(words, Order(), name, min(seconds, max(FIRSTS[0], until - time.monotonic())), records)
        except Fault:
            # (its log had no line yet)
            if is_last or not seen or not seen[0].late:
                raise
            continue
        made = any(Path(name).parent.glob(f"{glob.escape(Path(name).name)}*.rec"))
        if is_last or not ran.late or (made and ran.waited < ran.seconds / 2):
            break
    return ran


def remake(name: str) -> None:
    """The recording of the whole log, where it was of a part."""
    with contextlib.redirect_stdout(io.StringIO()):
        from_log(Path(f"{name}.log"), name, Part())


def recording_of(name: str, loop: int) -> Path:
    """Of several loops each has its own."""
    own = Path(f"{name}.{loop}.rec")
    return own if own.exists() and not Path(f"{name}.rec").exists() else Path(f"{name}.rec")


def bound(order: Order, first: Ran, steps: int) -> Order:
    """What is too long for a run in this order, by the first run, of which the recording has so many steps."""
    order.endless = int(1000 * first.seconds) if first.late else 0
    order.still, order.turns = max(MOVES, 5 * first.seconds), max(TURNS, steps)
    return order


def limit(first: Ran) -> float:
    """How long a run may take where the first one took so long."""
    return max(ENDLESS, first.seconds) if first.late else max(LEAST, TIMES * first.seconds)


def badly(ran: Ran, first: Ran) -> str:
    """How a run ended, where that is bad: `` where it ended well, or as the first run did."""
    if ran.late and first.late:
        return ""
    ended = ran.ended()
    if ended == first.ended() and not REPORT.search(ran.output):
        return ""
    more = f", and the first run took {first.seconds:.1f} s" if ran.late and not ran.hangs else ""
    return ended + more if ended else ""
