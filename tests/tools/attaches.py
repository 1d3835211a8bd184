"""The recorder in programs that run already (./uvt attach), and out of them again (--detach): in C, with a loop that always has a request under
way, in node.

Without a C compiler `cc` and libuv's header these are left out, and where no process may be traced.
"""

from __future__ import annotations

import os
import platform
import re
import shutil
import signal
import subprocess
import sys
import tempfile
import time
from pathlib import Path

from tests.helper import Check, Tries, talked
from tests.tools.keeps import UVT, WAITS, Room, becomes, is_same, lates, said
from tests.tools.records import has_libuv
from uvt.record import ring
from uvt.record.tracing import Thread

HERE = Path(__file__).resolve().parent
# In s: more than the recorder waits for a program that sleeps.
STARVED = 5
STILL = re.compile(r"stood still for (\d+\.\d) ms")


def files_of(program: subprocess.Popen[bytes]) -> list[str]:
    """What it has open of the recorder's."""
    folder = f"/proc/{program.pid}/fd"
    return [it for it in (os.readlink(f"{folder}/{name}") for name in os.listdir(folder)) if it.endswith((".ring", ".words"))]


def end(program: subprocess.Popen[bytes]) -> None:
    program.send_signal(signal.SIGKILL)
    program.wait()


def may_trace(tries: Tries, room: Room) -> bool:
    """May a process be traced here? (Not in each container.)"""
    program = subprocess.Popen(["sleep", "1000"])
    try:
        ran = room.uvt("attach", program.pid)
    finally:
        end(program)
    if "let it be traced" in ran.stderr or "can't be written" in ran.stderr:
        tries.leave_out("programs that run already", "no process may be traced here")
        return False
    tries.check("attach: to a program without libuv", ran.returncode == 2 and "no libuv" in ran.stderr, said(ran))
    return True


# A filter that lets all through; and a root without the recorder's file.
FILTERS = """import ctypes, time
libc = ctypes.CDLL(None)
one = (ctypes.c_uint64 * 1)(0x7fff000000000006)
program = (ctypes.c_uint64 * 2)(1, ctypes.addressof(one))
libc.prctl(38, 1, 0, 0, 0), libc.prctl(22, 2, program, 0, 0)
print('ready', flush=True), time.sleep(1000)"""
ELSEWHERE = "import os, time\nos.chroot('.')\nprint('ready', flush=True), time.sleep(1000)"
STATIC = '#include <stdio.h>\n#include <unistd.h>\nint main(void) { puts("ready"); fflush(stdout); sleep(1000); return 0; }'


def refused(check: Check, room: Room, what: str, words: list[str], why: str, traced: bool = False) -> None:
    """It isn't done, a sentence says why, and the program goes on."""
    program = subprocess.Popen(words, cwd=room.folder, stdout=subprocess.PIPE)
    try:
        program.stdout.readline()
        tracer = Thread(program.pid) if traced else None
        ran = room.uvt("attach", program.pid)
        if tracer:
            tracer.leave()
        check(f"attach: to {what}", ran.returncode == 2 and why in ran.stderr and program.poll() is None, said(ran))
    finally:
        end(program)


def try_starved(check: Check, room: Room) -> None:
    """A program that gets no processor for some seconds as it begins: it is waited for, and then said what it is."""
    processor = max(os.sched_getaffinity(0))
    others = [subprocess.Popen([sys.executable, "-c", f"import os\nos.sched_setaffinity(0, [{processor}])\nwhile True: pass"]) for _ in range(2)]

    def last() -> None:
        os.sched_setaffinity(0, [processor])
        os.sched_setscheduler(0, os.SCHED_IDLE, os.sched_param(0))

    program = subprocess.Popen(["sleep", "1000"], preexec_fn=last)
    attaching = subprocess.Popen([UVT, "attach", str(program.pid)], stderr=subprocess.PIPE, text=True)
    try:
        time.sleep(STARVED)
        for it in others:
            end(it)
        os.sched_setscheduler(program.pid, os.SCHED_OTHER, os.sched_param(0))
        _, errors = talked(attaching)
        check("attach: to a program that gets no processor for a while", attaching.returncode == 2 and "no libuv" in errors, errors)
    finally:
        for it in (program, *others):
            end(it)


def try_refused(check: Check, room: Room) -> None:
    (room.folder / "static.c").write_text(STATIC)
    python = [sys.executable, "-c"]
    refused(check, room, "a program that filters its calls of the system", [*python, FILTERS], "filters its calls of the system")
    refused(check, room, "one that is traced", [*python, "import time\nprint('ready', flush=True), time.sleep(1000)"], "another debugger", True)
    if os.geteuid() == 0:
        refused(check, room, "one with other folders", [*python, ELSEWHERE], "it has other folders")
    if not subprocess.run(["cc", "-static", "static.c", "-o", "static"], cwd=room.folder, capture_output=True).returncode:
        refused(check, room, "one that is linked statically", ["./static"], "linked statically")


# So many callbacks have each of its timers among them.
SOME = 60


def has_called(room: Room, name: str) -> bool:
    return any(ring.log_of(it).count(b" B ") > SOME for it in room.rings(name))


def try_once(check: Check, room: Room, program: subprocess.Popen[bytes], name: str) -> None:
    ran = room.uvt("attach", "-o", name, "--keep", 4, program.pid)
    still = STILL.search(ran.stdout)
    check(f"attach, {name}", ran.returncode == 0 and still, said(ran))
    check(f"attach, {name}: it calls", becomes(lambda: has_called(room, name)))
    ran = room.uvt("dump", "-o", name, program.pid)
    check(f"attach, {name}: it is recorded from there on", is_same(ran), said(ran))
    ran = room.uvt("why", "late", f"{name}.rec")
    check(f"attach, {name}: its timers are named", "late: a timer" in ran.stdout, said(ran))
    ran = room.uvt("why", f"{name}.rec")
    check(f"attach, {name}: and their functions", "on_report (kept.c:" in ran.stdout, said(ran))
    ran = room.uvt("attach", program.pid)
    check(f"attach, {name}: while it is in", ran.returncode == 2 and "already" in ran.stderr, said(ran))


def try_detach(check: Check, room: Room, program: subprocess.Popen[bytes], code: bytes) -> None:
    ran = room.uvt("attach", "--detach", program.pid)
    check("attach --detach", ran.returncode == 0 and STILL.search(ran.stdout), said(ran))
    check("attach --detach: it has its own code again", code_of(program) == code)
    check("attach --detach: and no file of the recorder's", not files_of(program), files_of(program))
    kept = {it: it.stat().st_mtime_ns for it in room.rings("first")}
    time.sleep(0.5)
    check("attach --detach: what was kept stays as it is", kept and all(it.stat().st_mtime_ns == at for it, at in kept.items()), kept)
    ran = room.uvt("attach", "--detach", program.pid)
    check("attach --detach: a second time", ran.returncode == 2 and "nothing to leave" in ran.stderr, said(ran))


def code_of(program: subprocess.Popen[bytes]) -> bytes:
    """That of its libuv, as it is in its memory."""
    found = b""
    with open(f"/proc/{program.pid}/mem", "rb", buffering=0) as memory:
        for line in Path(f"/proc/{program.pid}/maps").read_text().splitlines():
            words = line.split()
            if "libuv.so" in line and words[1] == "r-xp":
                low, high = (int(it, 16) for it in words[0].split("-"))
                memory.seek(low)
                found += memory.read(high - low)
    return found


def is_in_poll(program: subprocess.Popen[bytes]) -> bool:
    """Does its loop wait by now? (`running` stands there where it doesn't.)"""
    return Path(f"/proc/{program.pid}/syscall").read_text().split()[0] in map(str, WAITS)


def state_of(program: subprocess.Popen[bytes]) -> str:
    """The letter of its state, as `ps` shows it."""
    return Path(f"/proc/{program.pid}/stat").read_text().rpartition(")")[2].split()[0]


def try_c(check: Check, room: Room) -> None:
    program = subprocess.Popen([room.program, "serve"], cwd=room.folder)
    try:
        check("attach: a program that waits for its timers", becomes(lambda: is_in_poll(program)))
        code = code_of(program)
        try_once(check, room, program, "first")
        check("attach: its code isn't its own", code and code_of(program) != code)
        try_detach(check, room, program, code)
        try_once(check, room, program, "second")
        check("attach: the program goes on", program.poll() is None)
        program.send_signal(signal.SIGSTOP)
        check("attach: a program that is stopped", becomes(lambda: state_of(program) == "T"), state_of(program))
        ran = room.uvt("attach", "--detach", program.pid)
        check("attach --detach: of one that is stopped", ran.returncode == 2 and "it is stopped" in ran.stderr, said(ran))
    finally:
        end(program)


def is_told(room: Room, name: str, wanted: str) -> bool:
    """Does `why` say so of something that was kept apart? (On a machine on which much else runs there is more of that.)"""
    return any(re.search(wanted, " ".join(room.uvt("why", it).stdout.split())) for it in lates(room, name))


def try_asks(check: Check, room: Room) -> None:
    """Its loop always has two requests that the pool does."""
    program = subprocess.Popen([room.program, "asks"], cwd=room.folder)
    try:
        check("attach: a program that waits for its requests", becomes(lambda: is_in_poll(program)))
        ran = room.uvt("attach", "-o", "asks", "--keep", 2, "--late", 100, program.pid)
        check("attach: where a request is always under way", ran.returncode == 0, said(ran))
        wanted = r"1[5-9]\d ms, .*?the after callback of always_\d, on_always \(kept\.c:\d+\),.*? in nanosleep, at kept\.c:\d+, in wait_ms"
        check("attach, --late: its function and line", becomes(lambda: is_told(room, "asks", wanted)), lates(room, "asks"))
        ran = room.uvt("dump", "-o", "asks", program.pid)
        check("attach: where a request is always under way, it goes all the way", is_same(ran), said(ran))
    finally:
        end(program)


def try_node(check: Check, room: Room) -> None:
    """A server in node, with timers that were there before; and what stalls in it behind a signal."""
    program = subprocess.Popen(["node", str(HERE / "attached.js")], cwd=room.folder, stdout=subprocess.PIPE)
    try:
        program.stdout.readline()
        ran = room.uvt("attach", "-o", "js", "--keep", 2, "--late", 250, "--javascript", program.pid)
        still = STILL.search(ran.stdout)
        check("attach, node", ran.returncode == 0 and still and "its JavaScript stood still for" in ran.stdout, said(ran))
        wanted = r"\d ms: serve \(\S*attached\.js:\d+\) took \d+ ms, .*in rebuildIndex \(\S*attached\.js:\d+\)"

        def stalls() -> bool:
            program.send_signal(signal.SIGUSR2)
            return is_told(room, "js", wanted)

        check("attach, node: its function and line", becomes(stalls), lates(room, "js"))
        ran = room.uvt("dump", "-o", "js", program.pid)
        check("attach, node: it is followed", is_same(ran), said(ran))
        ran = room.uvt("why", "heartbeat", "js.rec")
        wanted = r"^heartbeat \(\S*attached\.js:\d+\): an interval of 100 ms, nobody saw where it was started"
        # (its lines are folded by how long the file's path is)
        check("attach, node: a timer that was there before", re.search(wanted, " ".join(ran.stdout.split())), said(ran))
        ran = room.uvt("attach", "--detach", program.pid)
        check("attach --detach, node", ran.returncode == 0 and program.poll() is None and not files_of(program), said(ran))
        ran = room.uvt("attach", "--javascript", program.pid)
        check("attach, node: a second time", ran.returncode == 2 and "had the recorder before" in ran.stderr, said(ran))
    finally:
        end(program)


def try_attaches(tries: Tries) -> None:
    if not has_libuv() or platform.machine() != "x86_64":
        tries.leave_out("programs that run already", "there is no C compiler `cc` with libuv's header, or the machine isn't x86-64")
        return
    with tempfile.TemporaryDirectory() as name:
        room = Room(Path(name))
        ran = room.uvt("attach", 2**22 + 1)
        tries.check("attach: to no process", ran.returncode == 2 and "no process" in ran.stderr, said(ran))
        if not may_trace(tries, room):
            return
        try_starved(tries.check, room)
        try_refused(tries.check, room)
        try_c(tries.check, room)
        try_asks(tries.check, room)
        if shutil.which("node"):
            try_node(tries.check, room)
        else:
            tries.leave_out("a program in node that runs already", "there is no node")
