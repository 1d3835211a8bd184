"""What uvt-libuv says where it can't run a script; and where libuv is installed, that it runs some.

tests/libuv/run is the larger one: it looks at what the tool says of random scripts.
"""

from __future__ import annotations

import os
import subprocess
import sys
import tempfile
from pathlib import Path

ROOT = Path(__file__).resolve().parent.parent.parent
from tests.helper import Check, Tries, limited
from tests.tools.daps import BEFORE_SENDS, CONVERSATIONS
from uvt.conversation import Fault
from uvt.libuv.runner import installed

EXAMPLES = ROOT / "crates" / "examples" / "data"
# (by Python itself: without a PATH no script would start)
TOOL = [sys.executable, str(ROOT / "tools" / "start.py"), "libuv"]


def ran(path: Path, **environment: str) -> subprocess.CompletedProcess[str]:
    return limited([*TOOL, str(path)], capture_output=True, text=True, env={**os.environ, **environment})


def try_absence(check: Check) -> None:
    """Without a compiler, and without libuv's header: a sentence."""
    script = EXAMPLES / "two-timers.uvt"
    with tempfile.TemporaryDirectory() as folder:
        ended = ran(script, PATH=folder)
        told = "uvt-libuv: the runner can't be built: there is no `make` here\n"
        check("uvt-libuv without make", (ended.returncode, ended.stderr) == (1, told), ended)
    ended = ran(Path("nowhere.uvt"))
    check("uvt-libuv without a file", ended.returncode == 1 and "Traceback" not in ended.stderr and ended.stderr.count("\n") == 1, ended.stderr)


def try_scripts(check: Check) -> None:
    # (both versions call `b` first, and `a` behind it, and libuv before 1.45 then goes once more round)
    ended = ran(EXAMPLES / "two-timers.uvt")
    at = ended.stdout.find("call b 1.0\n")
    check("uvt-libuv, two timers", 0 <= at < ended.stdout.find("call a 0.0\n") and ended.returncode in (0, 3), ended.stdout + ended.stderr)
    # (docs/LIBUV.md has this script under this heading)
    heading = "`again` stops a timer that doesn't repeat"
    with tempfile.NamedTemporaryFile("w", suffix=".uvt") as file:
        file.write("var t\nmain init t timer\nmain start t 5 0\nmain again t\nmain active t\nbegin\nloop 100\n")
        file.flush()
        ended = ran(Path(file.name))
    parted = "active t = 1                             | active t = 0\n"
    check("uvt-libuv, a difference", ended.returncode == 3 and parted in ended.stdout and heading in ended.stdout, ended.stdout + ended.stderr)


# A step right behind the line `run default`: in the order of 1.44 nobody has looked at the clock by then, so its first iteration calls `b`.
BEHIND_RUN = "order 1.44\nvar b\nmain init b timer\nmain start b 5 5\nmain run default\non b close b\nbegin\nloop 3\ntick 7\nloop 8\n"


def try_older_order(check: Check) -> None:
    with tempfile.NamedTemporaryFile("w", suffix=".uvt") as file:
        file.write(BEHIND_RUN)
        file.flush()
        ended = ran(Path(file.name))
    called = "run default\nout tick 7\ncall b 0.0\n"
    check("uvt-libuv, a tick behind run default in 1.44", ended.returncode == 0 and called in ended.stdout, ended.stdout + ended.stderr)


IO = "io\nvar r\nvar s\nvar a\nmain init r io\nmain init s io\nmain init a async\nmain start r\n"
# Scripts whose I/O libuv can't be led along, and the beginning of the sentence that says so. By hand: the steps are counted along the sections.
NOT_LED = [
    ("in the section `pending`", IO + "main run nowait\nbegin\nloop 6\nio r\n", "step 7 is `io r` in the section `pending`: "),
    (
        "behind a poll whose time was over",
        IO + "main run nowait\nbegin\nloop 10\nio r\n",
        "step 11 is `io r` behind a poll that was left since its time was over: ",
    ),
    (
        "started since the poll was left",
        IO + "main run once\non r start s\nbegin\nloop 9\nio r\nloop\nio s\n",
        "step 12 is `io s`, and s was started or stopped since the end of that poll, at step 10: ",
    ),
    (
        "stopped since the poll was left",
        IO + "main start s\nmain run once\non r stop s\non r start s\nbegin\nloop 10\nio r\nloop 2\nio s\n",
        "step 14 is `io s`, and s was started or stopped since the end of that poll, at step 11: ",
    ),
    (
        "between after callbacks",
        (CONVERSATIONS / "a-callback-of-i-o-between-two-after-callbacks.uvt").read_text(),
        "step 17 is `io r` between the after and async callbacks of its poll: ",
    ),
]


def try_io(check: Check) -> None:
    """Scripts with I/O that libuv is led along, with the same lines; and what it isn't led along."""
    for name in (
        BEFORE_SENDS,
        "callbacks-of-i-o-before-and-behind-the-others-of-a-poll-that-was-woken",
        "what-the-ops-answer-of-a-handle-of-i-o",
        "with-timers-from-the-heap-and-i-o-in-the-order-of-1-44",
    ):
        ended = ran(CONVERSATIONS / f"{name}.uvt")
        check(f"uvt-libuv, {name}", ended.returncode == 0 and " and uvt: the same " in ended.stdout, ended.stdout + ended.stderr)
    for what, text, told in NOT_LED:
        with tempfile.NamedTemporaryFile("w", suffix=".uvt") as file:
            file.write(text)
            file.flush()
            ended = ran(Path(file.name))
        led = ended.returncode == 1 and not ended.stdout and ended.stderr.startswith(f"uvt-libuv: {told}") and ended.stderr.endswith("be led there\n")
        check(f"uvt-libuv, I/O {what}", led and ended.stderr.count("\n") == 1, ended.stdout + ended.stderr)


def try_libuv(tries: Tries) -> None:
    try_absence(tries.check)
    try:
        library = installed()
    except Fault as fault:
        print(f"tools: uvt-libuv: no script is tried: {fault}", flush=True)
        return
    try_scripts(tries.check)
    if library.order() == "1.44":
        try_older_order(tries.check)
    try_io(tries.check)
