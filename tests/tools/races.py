"""Races in node and in Python on uvloop, hunted with no hint: javascript/races and python/races have the programs. Each ends well by itself, and with
status 1 in some order of what comes to its loop; what is assumed of that order stands at its head. Healthy programs are accused of nothing.
"""

from __future__ import annotations

import contextlib
import os
import re
import shutil
import tempfile
from pathlib import Path

from tests.helper import Tries, limited
from tests.tools.forces import BADLY, WELL, hunted, is_whole, tool

HERE = Path(__file__).resolve().parent
# Debian's, which has Debian's uvloop.
PYTHON = "/usr/bin/python3"
NODE = (
    "folder-first",
    "closed-file",
    "timer-first",
    "called-twice",
    "check-then-act",
    "ended-socket",
    "shared-variable",
    "quick-one-first",
    "late-message",
)
HEALTHY_NODE = ("app", "chain", "pool", "promise", "immediate", "crypto", "nested", "json")
UVLOOP = ("lost_update", "lookups_in_order", "timer_first", "answered_twice", "closed_session")
HEALTHY_LUA = ("async", "idle", "server")
# So often one is run by itself, until it ends well.
ALONE = 10
# How long a healthy one is hunted.
HUNTED = "12s"


def has(*words: str) -> bool:
    return bool(shutil.which(words[0])) and limited([*words], capture_output=True).returncode == 0


def hurry() -> None:
    """This process waits for no processor, where that may be asked for."""
    with contextlib.suppress(OSError):
        os.sched_setscheduler(0, os.SCHED_RR, os.sched_param(1))


def try_race(tries: Tries, words: list[str], folder: str) -> None:
    name = Path(words[-1]).name
    # (where others have the processors it may lose its race by itself)
    alone = [limited(words, capture_output=True, text=True, cwd=folder, preexec_fn=hurry)]
    while alone[-1].returncode and len(alone) < ALONE:
        alone.append(limited(words, capture_output=True, text=True, cwd=folder, preexec_fn=hurry))
    tries.check(f"{name}, by itself", alone[-1].returncode == 0, alone)
    status, said = hunted(["-o", f"{name}.found", *words], folder)
    found = re.match(r"the program ended with status 1, and in (\d+) of 10 further runs in the same order\n", said)
    tries.check(f"hunt, {name}", status == BADLY and found, f"{status} {said}")
    tries.check(f"hunt, {name}: its order is bad each time", found and found[1] == "10", said)


def try_lock(tries: Tries, folder: str) -> None:
    """A thread needs Python's lock to come to its send, and the loop's thread, which waits for that, has it: in a callback."""
    words = [PYTHON, str(HERE / "python" / "races" / "held_lock.py")]
    tool("record", ["-o", "lock", *words], folder)
    log = Path(folder, "lock.log").read_text()
    within = log.partition(" 3600000 0 = ok")[2].partition(" 7200000 0 = ok")[0]
    tries.check("record, Python's lock: the thread sends in the callback", "\n0 S " in within, log)
    status, said = tool("force", ["-o", "lock.forced", "lock.rec", *words], folder)
    tries.check("force, Python's lock: all steps, no departure, the same callbacks", status == WELL and is_whole(said), f"{status} {said}")


def try_healthy(tries: Tries, words: list[str], folder: str) -> None:
    status, said = tool("hunt", ["--for", HUNTED, *words], folder)
    tries.check(f"hunt, {Path(words[-1]).name}, which is healthy", status == WELL and said.startswith("each run ended well\n"), f"{status} {said}")


def has_node(tries: Tries) -> bool:
    """One in which libuv is seen, and its threads' sends are kept back."""
    has_it = has("node", "-e", "process.exit(+process.versions.node.split('.')[0] >= 20 ? 0 : 1)")
    if not has_it:
        tries.leave_out("hunts in node", "there is no node 20")
    return has_it


def try_races(tries: Tries) -> None:
    with tempfile.TemporaryDirectory() as folder:
        for name in NODE if has_node(tries) else ():
            try_race(tries, ["node", str(HERE / "javascript" / "races" / f"{name}.js")], folder)


def try_healthy_node(tries: Tries) -> None:
    with tempfile.TemporaryDirectory() as folder:
        for name in HEALTHY_NODE if has_node(tries) else ():
            try_healthy(tries, ["node", str(HERE / "javascript" / f"{name}.js")], folder)


def try_uvloop(tries: Tries) -> None:
    if not has(PYTHON, "-c", "import uvloop"):
        tries.leave_out("races in Python", f"there is no uvloop for {PYTHON}")
        return
    with tempfile.TemporaryDirectory() as folder:
        for name in UVLOOP:
            try_race(tries, [PYTHON, str(HERE / "python" / "races" / f"{name}.py")], folder)
        try_healthy(tries, [PYTHON, str(HERE / "python" / "races" / "healthy.py")], folder)
        try_lock(tries, folder)


def try_healthy_lua(tries: Tries) -> None:
    # (LuaJIT's compiled code has no frames that anybody could follow)
    os.environ["LUA_PATH"] = f"{HERE / 'lua'}/?.lua;;"
    if not has("luajit", "-e", "require('luv')"):
        tries.leave_out("healthy programs in Lua", "there is no luajit with luv")
        return
    with tempfile.TemporaryDirectory() as folder:
        for name in HEALTHY_LUA:
            try_healthy(tries, ["luajit", str(HERE / "lua" / f"{name}.lua")], folder)
