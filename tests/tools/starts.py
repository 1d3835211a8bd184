"""How tools begin and end: an interrupt at any moment, an output that is full or closed, a file that isn't there: a sentence, never a traceback."""

from __future__ import annotations

import os
import signal
import subprocess
import time
from pathlib import Path

from tests.helper import Tries, limited, log_at, talked

ROOT = Path(__file__).resolve().parent.parent.parent
LAUNCHER = str(ROOT / "uvt")
SCRIPT = str(ROOT / "examples" / "late-timer.uvt")
# Where each is interrupted, in seconds behind its start: while the launcher, Python and the tool begin, and when it is at work.
MOMENTS = [*(0.003 * n for n in range(40)), *[0.1] * 60]
WORDS = (
    ["why", SCRIPT],
    ["view", SCRIPT],
    ["shell", SCRIPT],
    ["record", "--log", str(log_at(ROOT / "tests" / "tools" / "logs" / "storm.log")), "-o", "/dev/null/storm"],
)


def interrupted(words: list[str], moment: float) -> str:
    """What is told on the errors of a tool that is interrupted so long behind its start."""
    with subprocess.Popen(
        [LAUNCHER, *words], stdin=subprocess.PIPE, stdout=subprocess.DEVNULL, stderr=subprocess.PIPE, text=True, errors="replace"
    ) as tool:
        time.sleep(moment)
        tool.send_signal(signal.SIGINT)
        return talked(tool)[1]


def try_starts(tries: Tries) -> None:
    for number, moment in enumerate(MOMENTS):
        said = interrupted(WORDS[number % len(WORDS)], moment)
        tries.check(f"an interrupt {moment:.3f} s behind the start", "Traceback" not in said, said[-400:])
    for words in (["why", SCRIPT], ["view", SCRIPT], ["shell", SCRIPT]):
        with open("/dev/full", "wb") as full:
            ran = limited([LAUNCHER, *words], stdin=subprocess.DEVNULL, stdout=full, stderr=subprocess.PIPE, text=True)
        tries.check(f"{words[0]}, a full output", ran.returncode != 0 and ran.stderr.count("\n") == 1 and "No space left" in ran.stderr, ran.stderr)
        ran = limited(["sh", "-c", 'exec "$@" >&-', "sh", LAUNCHER, *words], stdin=subprocess.DEVNULL, stderr=subprocess.PIPE, text=True)
        tries.check(f"{words[0]}, a closed output", ran.returncode != 0 and "Traceback" not in ran.stderr and bool(ran.stderr), ran.stderr)
    # (a shell has what it starts in the background take no interrupts: from where that is no longer the shell itself)
    begun = "while tr '\\0' ' ' </proc/$!/cmdline | grep -q '^sh -c '; do :; done"
    text = f'"{LAUNCHER}" why "{SCRIPT}" >/dev/null 2>&1 & {begun}; kill -INT $!; wait $!'
    status = limited(["sh", "-c", text], env=os.environ).returncode
    tries.check("no interrupt is taken in the background", status == 0, status)
