"""Nothing of uvt harms a program, or who reads what somebody else has made: programs that were harmed once (harms/), and words and reports that
hold anything.

Without a C compiler `cc` and libuv's header all of it is left out but the reports.
"""

from __future__ import annotations

import json
import os
import re
import shutil
import signal
import subprocess
import tempfile
import time
from pathlib import Path

from tests.helper import LATE, ROOT, SECONDS, Check, Tries, limited
from tests.tools.records import has_libuv
from uvt.hunt_ends import Bad, Counts
from uvt.record.compiled import recorder

HERE = Path(__file__).resolve().parent / "harms"
TOOLS = ROOT / "tools" / "uvt"
# How the program ends that filters its calls of the system, by its source.
FILTERED = 55
# What harms/kinds.c does.
KINDS = (
    *("plain", "segv", "trap", "urgent", "prof", "jump", "abort", "exit", "_exit", "kill", "null", "leave", "daemon", "fork", "vfork", "system"),
    *("exec", "setuid", "chdir", "closes", "fsize", "files", "memory", "requests", "threads"),
)
# A thousand loops more cost as much behind three thousand as behind one, in instructions: more than this is a cost of those that were closed.
ROUNDS, LINEAR = (1000, 2000, 3000, 4000), 1.3


def ran(words: list[str], folder: Path, **more: str) -> subprocess.CompletedProcess[str]:
    """What it says, errors too."""
    return limited(
        words,
        SECONDS,
        cwd=folder,
        stdout=subprocess.PIPE,
        stderr=subprocess.STDOUT,
        text=True,
        errors="replace",
        env=dict(os.environ, **more),
    )


def tool(word: str, words: list[str], folder: Path, **more: str) -> tuple[int, str]:
    done = ran([str(TOOLS / f"uvt-{word}"), *words], folder, **more)
    return done.returncode, done.stdout


# A ring, of which is kept apart what takes so many ms.
RING = {"UVT_KEEP": "2", "UVT_LATE": "20"}
BOTH: tuple[dict[str, str], ...] = ({}, RING)


class Room:
    """A folder with the programs of harms/."""

    def __init__(self, folder: Path) -> None:
        self.folder = folder
        for it in HERE.glob("*.c"):
            subprocess.run(["cc", "-O1", "-g", "-w", "-rdynamic", str(it), "-o", str(folder / it.stem), "-luv", "-lpthread"], check=True)

    def plain(self, *words: str) -> subprocess.CompletedProcess[str]:
        return ran([str(self.folder / words[0]), *words[1:]], self.folder)

    def run(self, *words: str, before: tuple[str, ...] = (), **more: str) -> subprocess.CompletedProcess[str]:
        """A program under the recorder."""
        more = more | {"UVT_LOG": str(self.folder / "log"), "LD_PRELOAD": str(recorder())}
        done = ran([*before, str(self.folder / words[0]), *words[1:]], self.folder, **more)
        for it in self.folder.glob("log.*"):
            it.unlink()
        return done


# ---- programs under the recorder


def try_handler(check: Check, room: Room) -> None:
    """The handler comes where the program is within the recorder, and may not wait for it."""
    for more in (*BOTH, *BOTH, *BOTH):
        done = room.run("handler", "10000", before=(), **more)
        check(f"harms: a signal's handler that sends{', in a ring' if more else ''}", done.returncode == 0, done)


def try_kinds(check: Check, room: Room) -> None:
    for kind in KINDS:
        plain = room.plain("kinds", kind)
        for more in BOTH:
            recorded = room.run("kinds", kind, before=(), **more)
            alike = (plain.returncode, plain.stdout) == (recorded.returncode, recorded.stdout)
            check(f"harms: {kind}{', in a ring' if more else ''}: its status and output", alike and plain.returncode != LATE, (plain, recorded))


def try_names(check: Check, room: Room) -> None:
    """The program's functions are called by itself alone, and the recorder's by the recorder, whatever their names."""
    for more in BOTH:
        done = room.run("names", before=(), **more)
        check("harms: functions with the recorder's names", (done.returncode, done.stdout) == (0, "3 calls\n"), done)
    status, said = tool("record", ["./names"], room.folder)
    check("harms: a program with the recorder's names is recorded", status == 0 and ": same\n" in said, said)


def instructions(room: Room, loops: int) -> int:
    done = room.run("loops", str(loops), before=("valgrind", "--tool=callgrind", "--callgrind-out-file=/dev/null"))
    found = re.search(r"Collected : (\d+)", done.stdout)
    return int(found[1]) if found else 0


def try_loops(tries: Tries, room: Room) -> None:
    for more in BOTH:
        done = room.run("loops", "4000", before=(), **more)
        grown = re.match(r"(\d+) kB more", done.stdout)
        tries.check("harms: loops that are closed keep no memory", done.returncode == 0 and grown and int(grown[1]) < 1000, (more, done))
    if not shutil.which("valgrind"):
        tries.leave_out("what loops that are closed cost", "there is no valgrind")
        return
    first, second, third, last = (instructions(room, it) for it in ROUNDS)
    alike = 0 < first < second and third < last and last - third < LINEAR * (second - first)
    tries.check("harms: loops that are closed slow down none that comes later", alike, (first, second, third, last))


def try_filters(tries: Tries, room: Room) -> None:
    plain = room.plain("filter", "some").returncode
    if plain != FILTERED:
        tries.leave_out("programs that filter their calls of the system", f"this one ends with {plain} by itself here")
        return
    for how in ("one", "some", "first"):
        done = room.run("filter", how)
        tries.check(f"harms: a filter of system calls, {how}", done.returncode == FILTERED, done)
        done = room.run("filter", how, UVT_KEEP="3", UVT_LATE="10")
        tries.check(f"harms: a filter of system calls, {how}, in a ring", done.returncode == FILTERED, done)
    status, said = tool("record", ["./filter", "first", "20000"], room.folder)
    tries.check("harms: a program that filters is recorded", ": same" in said and "filters its calls" not in said, said)
    status, said = tool("record", ["--last", "0.1", "./filter", "some", "400000"], room.folder)
    tries.check("harms: a log that is full ahead of a filter", "the program filters its calls of the system" in said, said)


# ---- the tools that start programs


def try_signals(check: Check, room: Room) -> None:
    number = signal.SIGRTMIN + 2
    status, said = tool("record", ["./ended", str(number)], room.folder)
    good = f"the program was ended by signal {number}" in said and "3 of 3 callbacks" in said and "Traceback" not in said
    check("harms: a signal without a name ends the program", good, said)
    status, said = tool("why", ["ended.rec"], room.folder)
    check("harms: and that is told", f"signal {number}: this loop was in the callback of beat" in said, said)


def parent_of(process: int) -> int:
    return int(Path(f"/proc/{process}/stat").read_text().rpartition(")")[2].split()[1])


def is_gone(process: int, seconds: float = SECONDS) -> bool:
    """It is, within this time."""
    end = time.monotonic() + seconds
    while time.monotonic() < end:
        try:
            if Path(f"/proc/{process}/stat").read_text().rpartition(")")[2].split()[0] == "Z":
                return True
        except OSError:
            return True
        time.sleep(0.1)
    return False


def try_killed(check: Check, room: Room) -> None:
    """Who starts a program, and is killed, takes it along; and what is left of it goes with the next call."""
    words = [str(TOOLS / "uvt-record"), "-o", "left", "./ended", "0"]
    with subprocess.Popen(words, cwd=room.folder, stdout=subprocess.PIPE, stderr=subprocess.DEVNULL, text=True) as tools:
        program = int(tools.stdout.readline() or 0)
        os.kill(parent_of(program), signal.SIGKILL)
        check("harms: record is killed, and its program ends", is_gone(program), program)
    check("harms: record is killed: its folder is there still", list(room.folder.glob(".left.*")))
    tool("record", ["-o", "left", "./ended", "15"], room.folder)
    check("harms: the next record takes that away", not (left := list(room.folder.glob(".left.*"))), left)


def started_in(folder: Path, words: bytes) -> list[tuple[int, int]]:
    """The processes in this folder that were started by these words, each with the one that started it."""
    found = []
    for it in Path("/proc").glob("[0-9]*"):
        try:
            if (it / "cmdline").read_bytes() == words and (it / "cwd").resolve() == folder.resolve():
                found.append((int(it.name), parent_of(int(it.name))))
        except OSError:
            # (it has ended meanwhile)
            continue
    return found


def try_hunt_killed(check: Check, room: Room) -> None:
    temporary = room.folder / "temporary"
    temporary.mkdir()
    words = [str(TOOLS / "uvt-hunt"), "--for", "120s", "./ended", "0"]
    more = dict(os.environ, TMPDIR=str(temporary))
    with subprocess.Popen(words, cwd=room.folder, env=more, stdout=subprocess.DEVNULL, stderr=subprocess.DEVNULL) as tools:
        found: list[tuple[int, int]] = []
        end = time.monotonic() + SECONDS
        while not found and time.monotonic() < end:
            time.sleep(0.2)
            found = started_in(room.folder, b"./ended\x000\x00")
        check("harms: hunt has started its program", found)
        if found:
            program, hunter = found[0]
            os.kill(hunter, signal.SIGKILL)
            check("harms: hunt is killed, and its program ends", is_gone(program), found)
        tools.kill()
    check("harms: hunt is killed: its folder is there still", list(temporary.glob("uvt-hunt.*")))
    tool("hunt", ["--for", "1s", "./ended", "15"], room.folder, TMPDIR=str(temporary))
    check("harms: the next hunt takes that away", not (left := list(temporary.glob("uvt-hunt.*"))), left)


def try_folder(check: Check, room: Room) -> None:
    """gdb hands the program's environment to a shell: a folder may have any name."""
    folder = room.folder / "it's $(touch pwned)"
    folder.mkdir()
    shutil.copy(room.folder / "ended", folder / "ended")
    tool("record", ["./ended", "15"], folder)
    words = ["ended.rec", "gdb", "-batch", "-ex", "run", "--args", "./ended", "15"]
    status, said = tool("force", words, folder)
    check("harms: force .. gdb in a folder with any name", re.search(r"^all \d+ steps, 0 departures, same$", said, re.MULTILINE), said)
    check("harms: no shell runs what a folder is called", not (found := list(room.folder.rglob("pwned"))), found)


# ---- reports that somebody sends


def reports() -> dict[str, str]:
    """What is no report of a part of a hunt; of each what is wrong in it."""
    good: dict[str, object] = {"form": "uvt-hunt 1", "part": [1, 2], "program": ["./a"], "ended": "", "counts": vars(Counts()), "bad": None}
    bad = vars(Bad("ended", "order 1", "uvt 1\n", 0))

    def but(**more: object) -> str:
        return json.dumps(good | more)

    return {
        "nothing": "",
        "no JSON": "{",
        "brackets": "[" * 100_000,
        "braces": '{"form":' * 100_000,
        "a list": "[]",
        "a number": "7",
        "another form": but(form="uvt-hunt 2"),
        "no part": json.dumps({key: it for key, it in good.items() if key != "part"}),
        "part 3 of 2": but(part=[3, 2]),
        "a part of 10^30": but(part=[1, 10**30]),
        "a part that is a text": but(part="12"),
        "half a part": but(part=[1.5, 2]),
        "no program": but(program=[]),
        "a program that is a text": but(program="./a"),
        "a program of numbers": but(program=[1]),
        "a zero in the program's name": but(program=["a\0b"]),
        "counts that are texts": but(counts=dict.fromkeys(vars(Counts()), "1")),
        "counts that aren't known": but(counts={"queries": 1}),
        "a count below 0": but(counts={"questions": -1}),
        "a count of 10^4000": but(counts={"questions": 1}).replace('"questions": 1', '"questions": 1' + "0" * 4000),
        "no number": but(counts={"seconds": float("nan")}),
        "an end that is a number": but(ended=7),
        "a bad end without an order": but(bad={"how": "ended", "by": "order 1"}),
        "an order that is a number": but(bad=bad | {"order": 7}),
        "an order in other signs": but(bad=bad | {"order": "é"}),
        "who waits for whom as a text": but(bad=bad | {"hang": "all"}),
    }


def try_reports(check: Check, folder: Path) -> None:
    path = folder / "part.report"
    for what, text in reports().items():
        path.write_text(text)
        status, said = tool("hunt", ["-o", "joined", "--join", path.name], folder)
        check(
            f"hunt --join, {what}",
            status == 2 and said == "uvt-hunt: part.report: this is no report of a part of a hunt\n",
            f"{status} {said[-500:]}",
        )
    bad = vars(Bad("ended with \x1b[2J\ud800", "order 1", "uvt 1\n", 0, hang=["it waits"]))
    good = {"form": "uvt-hunt 1", "part": [2, 900_000], "program": ["./a"], "ended": "", "counts": vars(Counts()), "bad": bad}
    path.write_text(json.dumps(good))
    status, said = tool("hunt", ["-o", "joined", "--join", path.name], folder)
    wanted = "parts 1, 3 to 900000 of 900000 are missing\npart 2 of 900000:\nthe program ended with ?[2J?\n    it waits\n"
    check("hunt --join, a report whose program steers terminals", status == 3 and said.startswith(wanted), f"{status} {said[-500:]}")
    status, said = tool("hunt", ["--join", path.name, path.name], folder)
    check("hunt --join, a part twice", status == 2 and "part 2 is there already, in part.report" in said, f"{status} {said[-500:]}")


def try_harms(tries: Tries) -> None:
    with tempfile.TemporaryDirectory() as name:
        try_reports(tries.check, Path(name))
        if not has_libuv():
            tries.leave_out("programs that were harmed once", "there is no C compiler `cc` with libuv's header")
            return
        room = Room(Path(name))
        for part in (try_loops, try_filters):
            part(tries, room)
        for one in (try_handler, try_kinds, try_names, try_signals, try_killed, try_hunt_killed):
            one(tries.check, room)
        if shutil.which("gdb"):
            try_folder(tries.check, room)
        else:
            tries.leave_out("force .. gdb in a folder with any name", "there is no gdb")
