"""What the tests share: a command that is run, and what was tried and what of it failed.

A runner makes one `Tries`, hands it on to its parts, and ends with `end`. So each of them prints a line for each try that failed and for
each that had to be left out, and at its end one line that says how many there were. Runners that have parts try each of them by a process of its
own, several at a time (`side_by_side`).
"""

from __future__ import annotations

import lzma
import os
import re
import select
import subprocess
import tempfile
import time
from concurrent.futures import ThreadPoolExecutor
from pathlib import Path
from typing import Any, Callable

ROOT = Path(__file__).resolve().parent.parent
EXAMPLES = ROOT / "crates" / "examples" / "data"
# How long a command may take. It is for one that hangs: on a quiet machine each takes less than a tenth of it, so none fails where much else runs.
SECONDS = 1200
# The status of a command that took longer, as that of `timeout`.
LATE = 124
Ended = tuple[int, bytes, bytes]
Check = Callable[..., None]


class Tries:
    """What was tried, and what of it failed."""

    def __init__(self, name: str) -> None:
        self.name = name
        self.count = self.failed = 0

    def check(self, what: str, holds: object, why: object = "") -> None:
        """One try; why it failed is only said where it did."""
        self.count += 1
        if not holds:
            self.failed += 1
            self.say(f"{what}: {why or 'failed'}")

    def same(self, what: str, real: object, due: object) -> None:
        self.check(what, real == due, f"wanted {due!r}, got {real!r}")

    def leave_out(self, what: str, why: str) -> None:
        """What can't be tried here is said, and counts for nothing."""
        self.say(f"{what}: not tried: {why}")

    def say(self, text: str) -> None:
        print(f"{self.name}: {text}", flush=True)

    def end(self) -> int:
        """The line at the end, and the status."""
        self.say(f"{self.count} tried, {self.failed} failed")
        return 1 if self.failed else 0


# So many parts at a time: they wait for half of their time, for runs that sleep and for hunts that go by the clock. On a machine that is busy
# already no more than there are processors.
PROCESSORS = os.cpu_count() or 1
AT_ONCE = PROCESSORS * (1 if os.getloadavg()[0] > PROCESSORS else 2)


def tried_alone(words: list[str]) -> tuple[int, int]:
    """Tries a part by a runner's process, and says what that says. How many were tried, and how many failed."""
    ran = subprocess.run(words, stdout=subprocess.PIPE, stderr=subprocess.STDOUT, text=True, errors="replace")
    *said, last = ran.stdout.splitlines() or [""]
    counts = re.fullmatch(r"\w+: (\d+) tried, (\d+) failed", last)
    if not counts:
        said += [last, f"{' '.join(words)}: it ended with status {ran.returncode}, and without its count"]
    print("".join(f"{line}\n" for line in said), end="", flush=True)
    return (int(counts[1]), int(counts[2])) if counts else (1, 1)


def side_by_side(tries: Tries, calls: list[list[str]], jobs: int) -> None:
    """So many calls of runners at a time, in this order: what they have tried counts as tried."""
    with ThreadPoolExecutor(jobs) as pool:
        for tried, failed in pool.map(tried_alone, calls):
            tries.count += tried
            tries.failed += failed


def limited(words: list[Any], seconds: float = SECONDS, **how: Any) -> subprocess.CompletedProcess[Any]:
    """Runs a command as `subprocess.run` does. One that takes longer than so many seconds is ended: its status is LATE then, and a line says so."""
    try:
        return subprocess.run(words, timeout=seconds, **how)
    except subprocess.TimeoutExpired as late:
        say_late(words, seconds)
        empty = "" if any(how.get(it) for it in ("text", "encoding", "universal_newlines")) else b""
        # (what came until then is of bytes, whatever was asked)
        out, errors = (bytes(it or b"").decode(errors="replace") if empty == "" else it or b"" for it in (late.stdout, late.stderr))
        return subprocess.CompletedProcess(words, LATE, out, errors)


def say_late(words: Any, seconds: float) -> None:
    command = words if isinstance(words, str) else " ".join(map(str, words))
    print(f"it took longer than {seconds:g} s, and was ended: {command[:400]}", flush=True)


def talked(process: subprocess.Popen[Any], text: Any = None, seconds: float = SECONDS) -> tuple[Any, Any]:
    """What a process that was started writes up to its end, on its output and its errors. One that takes longer is ended, as by `limited`."""
    try:
        return process.communicate(text, timeout=seconds)
    except subprocess.TimeoutExpired:
        say_late(process.args, seconds)
        process.kill()
        return process.communicate()


def waited(process: subprocess.Popen[Any], seconds: float = SECONDS) -> int:
    """The status of a process that was started; LATE where it took longer and was ended."""
    try:
        return process.wait(seconds)
    except subprocess.TimeoutExpired:
        say_late(process.args, seconds)
        process.kill()
        process.wait()
        return LATE


def come_to(terminal: int, wanted: bytes = b"", seconds: float = SECONDS) -> bytes:
    """What is shown at a terminal up to this, or in so many seconds; without WANTED what is there by now."""
    shown, end = b"", time.monotonic() + seconds
    while not wanted or wanted not in shown:
        left = end - time.monotonic() if wanted else 0
        if left < 0 or not select.select([terminal], [], [], left)[0]:
            break
        try:
            more = os.read(terminal, 65536)
        except OSError:
            # (nobody has the other end)
            break
        shown += more
    return shown


def run(words: list[Any], text: bytes = b"", **how: Any) -> Ended:
    """Runs a command on its input: its status, its output and its errors."""
    ended = limited(words, input=text, stdout=subprocess.PIPE, stderr=subprocess.PIPE, **how)
    return ended.returncode, ended.stdout, ended.stderr


def log_at(path: Path) -> Path:
    """Where the log of a recorded program is to be read. It is kept packed, as NAME.log.xz (`xz -dc` shows one, `xz -9` packs a new one), and is
    unpacked once, under out/logs."""
    packed, found = Path(f"{path}.xz"), ROOT / "out" / "logs" / path.relative_to(ROOT)
    at = packed.stat().st_mtime_ns
    if not found.is_file() or found.stat().st_mtime_ns != at:
        found.parent.mkdir(parents=True, exist_ok=True)
        # (others may do so at the same time)
        with tempfile.NamedTemporaryFile(dir=found.parent, delete=False) as made:
            made.write(lzma.decompress(packed.read_bytes()))
        os.utime(made.name, ns=(at, at))
        os.replace(made.name, found)
    return found


def logs_in(folder: Path) -> list[Path]:
    return [log_at(it.with_suffix("")) for it in sorted(folder.glob("*.log.xz"))]
