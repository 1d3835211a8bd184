"""Programs of which the last windows are kept (./uvt record --keep), and copies of them while they run (./uvt dump).

The program is kept.c. Without a C compiler `cc` and libuv's header these are left out.
"""

from __future__ import annotations

import contextlib
import os
import platform
import re
import resource
import shutil
import subprocess
import sys
import tempfile
import time
from pathlib import Path
from typing import Callable, Iterator

from tests.helper import ROOT, SECONDS, Check, Tries, limited, waited
from tests.tools.records import has_libuv
from uvt.conversation import Fault
from uvt.record import ring
from uvt.record.javascript import Reader
from uvt.record.events import Event
from uvt.record.log import read_log
from uvt.record.compiled import recorder
from uvt.record.tracing import SYSCALL, Memory, Thread
from uvt.record.window import moved

UVT = str(ROOT / "uvt")
HERE = Path(__file__).resolve().parent
# So many turns of kept.c are more than two windows.
MANY = "60000"
LOOP = re.compile(r"^loop (\d+): (\d+) of (\d+) callbacks, \d+ steps: (.*)$", re.MULTILINE)


# ---- windows that are put together


def window(number: int, *lines: str) -> bytes:
    return b"".join(it.encode() + b"\n" for it in (f"- W {number}", *lines)).ljust(ring.WINDOW, b"\0")


def try_windows(check: Check, folder: Path) -> None:
    words, path = folder / "w.1.words", folder / "w.1.ring"
    words.write_bytes(b"head\ncut")

    def lines(*windows: bytes) -> list[str]:
        path.write_bytes(b"".join(windows))
        return ring.log_of(path).decode().split("\n")[:-1]

    check("keep, windows in their order", lines(window(4, "d"), window(2, "b"), window(3, "c")) == ["head", "- W 2", "b", "c", "d"])
    check("keep, what stands before a gap is left out", lines(window(5, "e"), window(2, "b"), window(6, "f")) == ["head", "- W 5", "e", "f"])
    check("keep, one that is being cleared", lines(b"\0" * ring.WINDOW, window(2, "b")) == ["head", "- W 2", "b"])
    cut = bytearray(window(3, "c", "dd"))
    cut[cut.index(b"dd")] = 0
    check("keep, a line that is being written", lines(window(2, "b"), bytes(cut)) == ["head", "- W 2", "b", "c"])
    (folder / "w.1.late-1.ring").write_bytes(window(1, "a") + window(2, "b"))
    check("keep, the past of a ring that began behind one that was kept apart", lines(window(3, "c")) == ["head", "- W 1", "a", "b", "c"])
    check("keep, a ring and its words", ring.words_of(folder / "w.1.late-2.ring") == words and ring.is_ring(path) and not ring.is_ring(words))


# ---- times of node's


def dues(*lines: str) -> list[int | None]:
    """When the calls of these lines J were due."""
    reader = Reader(read_log(HEAD))
    for number, line in enumerate(lines):
        now, words = line.split(" ", 1)
        reader.read(Event("J", int(now), int(now), words, number), ("on", "timer", 1))
    return [it.due for it in reader.done([]).spans]


HEAD = b"uvt-log 2 1.46.0 1 4 node\n"
# An interval of 100 ms that was there before, and its call at 200 ms: node's own time is 5000 ms more. (It counts from its call before.)
BEFORE = ("0 was 1 interval -1 -1 100 3000 20", "200 run 1 5100 100 1", "201 ran 1")
# A timer that was asked for in it, and started anew 100 ms before its call.
ANEW = ("10 new 2 timer -1 -1 50", "160 run 2 5110 50", "161 ran 2")


def try_dues(check: Check) -> None:
    """Of an interval that was there before nobody knows which of its calls was its first. Where node's time is known, that is enough."""
    said_by_node = "0 thread 0 -5000"
    check("keep, node: an interval from before, where node's time is known", dues(said_by_node, *BEFORE) == [200], dues(said_by_node, *BEFORE))
    check("keep, node: a timer that was started anew", dues(said_by_node, *ANEW) == [160], dues(said_by_node, *ANEW))
    check("keep, node: an interval from before, where it isn't", dues(*BEFORE) == [None], dues(*BEFORE))
    (moved_line,) = [moved(Event("J", 40, 40, said_by_node[2:], 1), 30).words]
    check("keep, node: node's time in a part", moved_line == "thread 0 -5030", moved_line)


# ---- programs


class Room:
    """A folder with the program."""

    def __init__(self, folder: Path) -> None:
        self.folder = folder
        self.program = str(folder / "kept")
        subprocess.run(["cc", "-O1", "-g", "-rdynamic", str(HERE / "kept.c"), "-o", self.program, "-luv", "-lpthread"], check=True)

    def uvt(self, *words: object) -> subprocess.CompletedProcess[str]:
        return limited([UVT, *map(str, words)], cwd=self.folder, capture_output=True, text=True, seconds=SECONDS)

    def kept(self, prefix: str, windows: int = 2, late: int = 0) -> dict[str, str]:
        return dict(os.environ, UVT_LOG=str(self.folder / prefix), UVT_KEEP=str(windows), UVT_LATE=str(late), LD_PRELOAD=str(recorder()))

    def run(self, prefix: str, *words: str, before: Callable[[], None] | None = None, windows: int = 2, late: int = 0) -> int:
        env = self.kept(prefix, windows, late)
        return limited([self.program, *words], env=env, cwd=self.folder, preexec_fn=before, seconds=SECONDS).returncode

    def rings(self, prefix: str) -> list[Path]:
        return sorted(self.folder.glob(f"{prefix}.*.ring"))


def becomes(holds: Callable[[], object]) -> bool:
    """Does it hold in the time that a command may take?"""
    until = time.monotonic() + SECONDS
    while not (held := holds()) and time.monotonic() < until:
        time.sleep(0.2)
    return bool(held)


def is_same(ran: subprocess.CompletedProcess[str], loops: int = 1) -> bool:
    """Does each recording go all the way?"""
    found = LOOP.findall(ran.stdout)
    return ran.returncode == 0 and len(found) == loops and all(it[1] == it[2] and it[3] == "same" for it in found)


def said(ran: subprocess.CompletedProcess[str]) -> str:
    return ran.stdout + ran.stderr


def try_record(check: Check, room: Room) -> None:
    ran = room.uvt("record", "--keep", 2, "--late", 80, room.program, "flood", MANY, "30000")
    # (on a machine on which much else runs more may be kept apart)
    apart = sorted(room.folder.glob("kept.late-*.rec"))
    check("keep: the last windows, and what took long, are recorded", apart and is_same(ran, 1 + len(apart)), said(ran))
    log = (room.folder / "kept.log").read_bytes() if (room.folder / "kept.log").is_file() else b""
    first = re.search(rb"^- W (\d+)$", log, re.MULTILINE)
    check("keep: no more than that", first and int(first[1]) > 1 and len(log) < (2 + ring.PAST) * ring.WINDOW + 10_000, (first, len(log)))
    check("keep: what was kept is in the logs alone", not list(room.folder.glob("kept.*.ring")) + list(room.folder.glob("kept.*.words")))
    kept = r"^KEPT APART, SINCE turn, on_turn \(kept\.c:\d+\), took (\d+) ms(?: \(.*\))?, up to \d+ ms$"
    whys = {it: room.uvt("why", it.name).stdout for it in apart}
    late = next((it for it in apart if (found := re.search(kept, whys[it], re.MULTILINE)) and int(found[1]) >= 120), Path())
    check("keep, --late: why it was kept", late.name, whys)
    check("keep, --late: it is named", re.search(r"\d{3,} ms.*on_turn \(kept\.c:\d+\)", whys.get(late, "")), whys)
    told = [it for it in ran.stdout.split("kept apart, since ") if late.name and f" {late.name}\n" in it]
    check("keep, --late: it begins no earlier than it has to", told and begins_last(late.with_suffix(".log").read_bytes(), told[0]), said(ran))
    why = room.uvt("why", "beat", late.name)
    unknown = "before the recording begins, so by whom and when isn't known"
    check("keep: who made what was there before isn't guessed", f"made {unknown}" in why.stdout and f"started {unknown}" in why.stdout, said(why))
    two = room.uvt("record", "--keep", 2, "-o", "two", room.program, "wait", MANY)
    check("keep: a loop that waits all the time is recorded beside one that doesn't", is_same(two, 2), said(two))


def begins_last(log: bytes, told: str) -> bool:
    """Does the first recording begin at the last place a second before what took long at which all that there was is written down? Where none is so
    early, at the first place."""
    places = [int(it) for it in re.findall(rb"^0 K (\d+) all$", log, re.MULTILINE)]
    late = re.search(rb"^- T \w+ 0 (\d+) (\d+) ", log, re.MULTILINE)
    begun = re.search(r"it begins at (\d+) ms of the loop's time", told)
    if not places or not late or not begun:
        return False
    early = [it for it in places if it <= int(late[1]) - int(late[2]) - 1000]
    return int(begun[1]) == (early or places[:1])[-1]


def lates(room: Room, prefix: str) -> list[Path]:
    return [it for it in room.rings(prefix) if ".late-" in it.name]


def room_of(rings: list[Path]) -> int:
    """How much of the disk they have."""
    return sum(512 * it.stat().st_blocks for it in rings)


def try_many_late(check: Check, room: Room) -> None:
    """More things that took long than the ring has room for, and those of a program that writes little."""
    room.run("full", "often", "400000", "45000", windows=4, late=20)
    found = lates(room, "full")
    check("keep, --late: no more than four times the MiB", found and room_of(found) <= 4 * 4 * ring.WINDOW, found)
    program = subprocess.Popen([room.program, "serve"], env=room.kept("little", windows=4, late=2), cwd=room.folder)
    try:
        check("keep, --late: more than four, where each is short", becomes(lambda: len(lates(room, "little")) > 5), lates(room, "little"))
    finally:
        program.kill()
        program.wait()
    # (where others take the processor just as the callback begins, its time may count as theirs: then none is kept apart)
    for _ in range(RESTS):
        room.run("rests", "rests", MANY, windows=4, late=100)
        if found := lates(room, "rests"):
            break
    check("keep, --late: what stood long before is given back", found and room_of(found[-1:]) < found[-1].stat().st_size, found)
    ran = room.uvt("record", "-o", "rests", "--log", *found[-1:])
    check("keep, --late: it begins a second before, and no earlier than it has to", begins_last(ring.log_of(found[-1]), ran.stdout), said(ran))
    ran = room.uvt("why", *found[-1:])
    check(
        "keep, --late: and the rest can be read",
        re.search(r"^KEPT APART, SINCE beat, on_rest \(kept\.c:\d+\), (?:took|was called) \d{3,} ms", ran.stdout, re.M),
        said(ran),
    )


# So much of a second others have the processor in front of the program, where it has nothing to say.
OTHERS = 300


def has_waited(path: Path) -> bool:
    """Has a callback, or a poll, waited so long for a processor?"""
    lines = ring.log_of(path).decode(errors="replace").splitlines()
    used = [it.split(" ") for it in lines if " E " in it and " cpu " in it]
    held = [it.split(" ") for it in lines if " H " in it]
    return any(len(it) > 11 and int(it[11]) >= OTHERS for it in used) or any(len(it) > 5 and int(it[5]) >= OTHERS for it in held)


def try_others(check: Check, room: Room) -> None:
    """On a processor that others have: what is late by that alone is nothing of the program's."""
    program = subprocess.Popen([room.program, "serve"], env=room.kept("others", late=OTHERS), cwd=room.folder)
    others: list[subprocess.Popen[bytes]] = []
    try:
        check("keep: it runs", becomes(lambda: room.rings("others")))
        processor = max(os.sched_getaffinity(0))
        busy = f"import os\nos.sched_setaffinity(0, [{processor}])\nwhile True: pass"
        others += [subprocess.Popen([sys.executable, "-c", busy]) for _ in range(2)]
        os.sched_setaffinity(program.pid, [processor])
        os.sched_setscheduler(program.pid, os.SCHED_IDLE, os.sched_param(0))
        check("keep, --late: others have the processor", becomes(lambda: has_waited(room.folder / f"others.{program.pid}.ring")))
    finally:
        for it in [program, *others]:
            it.kill()
            it.wait()
    check("keep, --late: that others had the processor is kept nowhere apart", not lates(room, "others"), lates(room, "others"))


OPEN_AT, WAITS = 257, (232, 281)
SCHEDSTAT = "/proc/thread-self/schedstat"
# So long it stands still there, in s; and how often.
HELD, ROUNDS = 0.4, 3
# How often a program is run until something of it is kept apart.
RESTS = 5


@contextlib.contextmanager
def hurried() -> Iterator[None]:
    """This process waits for no processor, where that may be asked for: who waits for it stands still meanwhile."""
    before = os.sched_getscheduler(0)
    with contextlib.suppress(OSError):
        os.sched_setscheduler(0, os.SCHED_RR | os.SCHED_RESET_ON_FORK, os.sched_param(1))
    try:
        yield
    finally:
        with contextlib.suppress(OSError):
            os.sched_setscheduler(0, before, os.sched_param(0))


@hurried()
def held_as_it_looks(process: int) -> None:
    """Has a program stand still where the recorder reads, in front of a callback, what its thread had of the processor."""
    memory, thread = Memory(process), Thread(process)
    try:
        thread.interrupt()
        thread.looked(True)
        waited = False
        while True:
            thread.go_on(SYSCALL)
            thread.looked(True)
            registers = thread.registers()
            waited |= registers["orig_rax"] in WAITS
            if waited and registers["orig_rax"] == OPEN_AT and memory.text(registers["rsi"]) == SCHEDSTAT:
                time.sleep(HELD)
                return
    finally:
        thread.leave()
        memory.close()


def try_looks(tries: Tries, room: Room) -> None:
    """What goes by while the recorder looks at the processor's time in front of a callback is no part of that."""
    program = subprocess.Popen([room.program, "serve"], env=room.kept("looks", late=int(HELD * 500)), cwd=room.folder)
    try:
        tries.check("keep: it runs", becomes(lambda: room.rings("looks")))
        for number in range(ROUNDS):
            held_as_it_looks(program.pid)
            becomes(lambda: len(lates(room, "looks")) > number)
    except Fault as fault:
        tries.leave_out("keep, --late: what the recorder itself takes", str(fault))
        return
    finally:
        program.kill()
        program.wait()
    why = [line for it in lates(room, "looks") for line in ring.log_of(it).decode().splitlines() if line.startswith("- T ")]
    tries.check("keep, --late: what the recorder itself takes is no callback's", why and not any("callback" in it for it in why), why)


def try_starts(check: Check, room: Room) -> None:
    """What was late as the loop began: all of that is there, though nothing was written down before."""
    program = subprocess.Popen([room.program, "starts"], env=room.kept("starts", late=300), cwd=room.folder)
    try:
        check("keep, --late: a loop that begins late", becomes(lambda: lates(room, "starts")))
    finally:
        program.kill()
        program.wait()
    ran = room.uvt("why", *lates(room, "starts")[:1])
    wanted = r"^KEPT APART, SINCE \w+, on_\w+ \(kept\.c:\d+\),"
    check("keep, --late: a loop that begins late can be read", re.search(wanted, ran.stdout, re.M), said(ran))


# So many callbacks of `serve` come to more than a second: what was late before that is kept apart by then.
SOON_KEPT = 600


def try_opens(check: Check, room: Room) -> None:
    """What goes by while the recorder opens its files is no timer's lateness."""
    program = subprocess.Popen([room.program, "opens"], env=room.kept("opens", late=300), cwd=room.folder)
    try:
        check("keep: it runs", becomes(lambda: any(ring.log_of(it).count(b" B ") > SOON_KEPT for it in room.rings("opens"))))
    finally:
        program.kill()
        program.wait()
    check("keep, --late: what the recorder takes to open its files is kept nowhere apart", not lates(room, "opens"), lates(room, "opens"))


def try_by_hand(check: Check, room: Room) -> None:
    ran = room.uvt("record", "--keep", 2, "-o", "hand")
    lines = dict(it.split("=", 1) for it in ran.stdout.splitlines())
    check("keep: what a program that is started by hand needs", {"UVT_LOG", "UVT_KEEP", "LD_PRELOAD"} <= set(lines), said(ran))
    env = room.folder / "env"
    env.write_text(ran.stdout)
    limited(["sh", "-c", f'set -a; . {env}; exec "$0" flood {MANY}', room.program], cwd=room.folder, check=True, seconds=SECONDS)
    rings = room.rings("hand")
    ran = room.uvt("record", "--log", *rings)
    check("keep, record --log X.ring", len(rings) == 1 and is_same(ran), said(ran))
    ran = room.uvt("why", "beat", *rings)
    check("keep, why NAME X.ring", "beat: a timer" in ran.stdout, said(ran))


def try_spins(check: Check, room: Room) -> None:
    """A callback that is on the processor, and never ends: where it was looked at."""
    program = subprocess.Popen([room.program, "spins", MANY], env=room.kept("spins"), cwd=room.folder, stdout=subprocess.PIPE)
    try:
        program.stdout.readline()
        # (it is looked at where it has the processor)
        wanted = r"of never, on_never .*, for \d+ ms: \d+ ms before it was found in solve \(kept\.c:\d+\)"
        found = becomes(lambda: re.search(wanted, room.uvt("dump", "-o", "spun", program.pid).stdout))
        check("dump: where a callback is that never ends", found, said(room.uvt("dump", "-o", "spun", program.pid)))
    finally:
        program.kill()
        program.wait()


def try_ended(check: Check, room: Room) -> None:
    program = subprocess.Popen([room.program, "hang", MANY], env=room.kept("hang"), cwd=room.folder, stdout=subprocess.PIPE)
    try:
        program.stdout.readline()
        time.sleep(0.5)
        ran = room.uvt("dump", "-o", "hung", program.pid)
        check("dump: of a loop that stands still", is_same(ran), said(ran))
        found = re.search(r"in the callback of never, on_never \(kept\.c:\d+\), for (\d+) ms", ran.stdout)
        check("dump: in which callback, and since when", found and int(found[1]) >= 500, said(ran))
        found = re.search(r", for \d+ ms: \d+ ms in pause, at kept\.c:\d+, in on_never", ran.stdout)
        check("dump: in which call of it", found, said(ran))
        ran = room.uvt("why", "hung.rec")
        check("dump: a copy is no end", "A COPY OF A PROGRAM THAT WENT ON, MADE at " in ran.stdout and "ENDED BY" not in ran.stdout, said(ran))
    finally:
        program.kill()
        program.wait()
    ran = room.uvt("record", "--log", *room.rings("hang"))
    check("keep: behind SIGKILL", is_same(ran), said(ran))
    try_spins(check, room)
    ran = room.uvt("dump", program.pid)
    check("dump: of no process", ran.returncode == 2 and "no process" in ran.stderr, said(ran))
    ran = room.uvt("dump", os.getpid())
    check("dump: of a process that keeps nothing", ran.returncode == 2 and "keeps no ring" in ran.stderr, said(ran))


def try_bounds(check: Check, room: Room) -> None:
    def limit() -> None:
        resource.setrlimit(resource.RLIMIT_FSIZE, (3 * ring.WINDOW, 3 * ring.WINDOW))

    check("keep: a file that may not grow", room.run("small", "flood", MANY, before=limit, windows=8) == 0)
    rings = room.rings("small")
    check("keep: it has as many windows as there was room for", [it.stat().st_size for it in rings] == [3 * ring.WINDOW], rings)
    ran = room.uvt("record", "--log", *rings)
    check("keep: they are recorded", is_same(ran), said(ran))
    for _ in range(6):
        room.run("often", "flood", "100")
    left = room.rings("often")
    check("keep: of processes that ended the last ones stay", len(left) == 4 and len(list(room.folder.glob("often.*.words"))) == 4, left)
    room.run("again", "again", "3000")
    check("keep: a program that replaces itself has two", len(room.rings("again")) == 2, room.rings("again"))


def try_full(tries: Tries, room: Room) -> None:
    """A disk of 3 MiB, in a room of its own for files (which takes root)."""
    folder = room.folder / "disk"
    folder.mkdir()
    disk = f"mount -t tmpfs -o size=3m none {folder}"
    if limited(["unshare", "-m", "sh", "-c", disk], capture_output=True).returncode:
        tries.leave_out("a disk that is full", "no disk can be mounted here")
        return
    log = f"{UVT} record -o {room.folder}/disk-full --log {folder}/d.*[0-9].ring; ls {folder}"
    script = f"{disk} && {room.program} rests {MANY}; echo it ended with $?; unset LD_PRELOAD; {log}"
    env = room.kept("disk/d", windows=8, late=100)
    ran = limited(["unshare", "-m", "sh", "-c", script], env=env, cwd=room.folder, capture_output=True, text=True)
    tries.check("keep: where a disk is full the program goes on", "it ended with 0\n" in ran.stdout, said(ran))
    tries.check("keep: what there was room for is recorded", LOOP.search(ran.stdout) and ": same\n" in ran.stdout, said(ran))
    tries.check("keep, --late: where a disk is full the ring goes on", "it had no room" not in ran.stdout and ".late-" not in ran.stdout, said(ran))


def try_files(check: Check, room: Room) -> None:
    """Whose they are, where somebody has put a link, and of two processes at a time."""
    victim = room.folder / "victim"
    victim.write_text("kept")
    script = f"ln -s {victim} {room.folder}/link.$$.ring; exec {room.program} flood 3000"
    ran = limited(["sh", "-c", script], env=room.kept("link"), cwd=room.folder)
    check("keep: where a link lies nothing is written", ran.returncode == 0 and victim.read_text() == "kept", (ran, victim.read_text()[:100]))
    both = [subprocess.Popen([room.program, "flood", MANY], env=room.kept("both"), cwd=room.folder) for _ in range(2)]
    for it in both:
        check("keep: two processes in one folder", waited(it) == 0)
    rings = room.rings("both")
    modes = {it.stat().st_mode & 0o777 for it in room.folder.glob("both.*")}
    check("keep: its files are for their user alone", modes == {0o600}, modes)
    for number, ring_of_one in enumerate(rings):
        ran = room.uvt("record", "-o", f"both-{number}", "--log", ring_of_one)
        check("keep: each of two processes has its ring", len(rings) == 2 and is_same(ran), said(ran))


def try_node(check: Check, room: Room) -> None:
    """A timer that JavaScript has started before the ring begins."""
    server = HERE.parent / "recorder" / "servers" / "server.js"
    for seconds in (4, 16, 64, 256, 1024):
        ran = room.uvt("record", "--keep", 2, "-o", "js", "node", server, seconds)
        log = (room.folder / "js.log").read_bytes() if (room.folder / "js.log").is_file() else b""
        if re.search(rb"^- W ([2-9]|\d\d+)$", log, re.MULTILINE):
            break
    check("keep, node: a ring that has turned", ran.returncode == 0 and "it begins at" in ran.stdout, said(ran))
    ran = room.uvt("why", "heartbeat", "js.rec")
    wanted = r"heartbeat \(\S*server\.js:\d+\): an? interval of 100 ms, started at \S*server\.js:\d+"
    check("keep, node: a timer that was started before has its name", re.search(wanted, " ".join(ran.stdout.split())), said(ran))


def with_libuv(tries: Tries) -> bool:
    has = has_libuv()
    if not has:
        tries.leave_out("programs that keep their last windows", "there is no C compiler `cc` with libuv's header")
    return has


def try_keeps(tries: Tries) -> None:
    with tempfile.TemporaryDirectory() as name:
        try_windows(tries.check, Path(name))
        try_dues(tries.check)
        if not with_libuv(tries):
            return
        room = Room(Path(name))
        for part in (try_record, try_by_hand, try_ended, try_bounds, try_files):
            part(tries.check, room)
        try_full(tries, room)


def try_kept_apart(tries: Tries) -> None:
    """What took long."""
    if not with_libuv(tries):
        return
    with tempfile.TemporaryDirectory() as name:
        room = Room(Path(name))
        for part in (try_many_late, try_others, try_starts, try_opens):
            part(tries.check, room)
        if platform.machine() == "x86_64":
            try_looks(tries, room)


def try_kept_node(tries: Tries) -> None:
    if not with_libuv(tries):
        return
    if not shutil.which("node"):
        tries.leave_out("a ring of a program in node", "there is no node")
        return
    with tempfile.TemporaryDirectory() as name:
        try_node(tries.check, Room(Path(name)))
