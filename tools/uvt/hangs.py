"""Who waits for whom where a forced run hangs: what the library has said (tools/uvt/record/recorder/force_hangs.c), for a person."""

from __future__ import annotations

import re
import subprocess
from dataclasses import dataclass, field
from functools import lru_cache
from pathlib import Path

# Whose frames say what is waited for, and not where in the program.
LIBRARIES = re.compile(r"/(?:libc|libpthread|libstdc\+\+|ld-linux[\w-]*|lib\w*san|libuv|force|recorder)(?:-[\d.]+)?(?:\.\d+)?\.so[\d.]*$")
# (a libuv within the program is none of its own functions)
LIBUV = re.compile(r"uv_\w+")
# What a function of these waits for, by its name without the underscores in front.
AWAITED = (
    (r"pthread_mutex_(?:lock|timedlock|clocklock)\w*|lll_lock_wait\w*|uv_mutex_lock", "a lock"),
    (r"pthread_cond_\w*wait\w*|uv_cond_wait|cnd_wait", "a condition"),
    (r"(?:new_)?sem_\w*wait\w*|uv_sem_wait", "a semaphore"),
    (r"pthread_rwlock_\w*lock\w*|uv_rwlock_\w+lock", "a lock for reading or writing"),
    (r"pthread_barrier_wait|uv_barrier_wait", "a barrier"),
    (r"pthread_(?:clock|timed)?join\w*|uv_thread_join", "the end of a thread"),
)
ROUND = "round "


@lru_cache(maxsize=None)
def source_of(file: str, offset: str) -> tuple[str, str]:
    """The function at an address of a file, and `PATH:LINE`, each `` where nobody knows."""
    try:
        ran = subprocess.run(["addr2line", "-f", "-C", "-e", file, offset], capture_output=True, text=True, errors="replace", timeout=120)
    except (OSError, subprocess.TimeoutExpired):
        return "", ""
    function, _, place = ran.stdout.strip().partition("\n")
    where = re.match(r"(.*):(\d+)", place)
    known = where and not where[1].startswith("?")
    return ("" if function.startswith("?") else function), f"{where[1]}:{where[2]}" if where and known else ""


@dataclass
class Frame:
    """`FILE+OFFSET SYMBOL`."""

    file: str
    offset: str
    symbol: str

    def is_own(self) -> bool:
        """Is it the program's?"""
        return not LIBRARIES.search(self.file) and not LIBUV.fullmatch(self.symbol) and not LIBUV.fullmatch(source_of(self.file, self.offset)[0])

    def place(self) -> str:
        """`FUNCTION (FILE:LINE)`."""
        function, line = source_of(self.file, self.offset)
        name = function or (self.symbol if self.symbol != "-" else Path(self.file).name)
        return f"{name} ({line.rpartition('/')[2]})" if line else name


@dataclass
class Waits:
    """What is said of a thread, or of a process."""

    who: str
    # what the library knows; `` where the stack has to say it
    what: str
    frames: list[Frame] = field(default_factory=list)

    def own(self) -> Frame | None:
        """The program's own innermost function."""
        return next((it for it in self.frames if it.is_own()), None)

    def path(self) -> str:
        """PATH:LINE, for a machine."""
        own = self.own()
        return source_of(own.file, own.offset)[1] if own else ""

    def awaited(self) -> str:
        """By the libraries' functions in front of the program's own one."""
        for it in self.frames:
            if it.is_own():
                break
            name = it.symbol.lstrip("_").removeprefix("interceptor_")
            if found := next((text for pattern, text in AWAITED if re.fullmatch(pattern, name)), ""):
                return found
        return "something"

    def text(self) -> str:
        own = self.own()
        place = f", in {own.place()}" if own else ""
        if self.what == "work":
            return f"{self.who} waits for work"
        if self.what == "its poll":
            return f"the loop waits in its poll, with no time limit{place}"
        if self.what.startswith(ROUND):
            called = " and ".join(it.place() for it in self.frames) or "nothing of the program's"
            return f"the loop calls nothing but {called}, in {int(self.what[len(ROUND):]):,} turns"
        return f"{self.who} waits for {self.what or self.awaited()}{place}"


def read_waits(lines: list[str]) -> list[Waits]:
    """`WAITS WHO<tab>WHAT<tab>FILE+OFFSET SYMBOL<tab>..`; the loop's thread first."""
    found = []
    for it in lines:
        if it.startswith("WAITS "):
            who, what, *frames = it[len("WAITS ") :].split("\t")
            parts = [re.fullmatch(r"(.*)\+(0x[0-9a-f]+) (.*)", one) for one in frames]
            found.append(Waits(who, what, [Frame(one[1], one[2], one[3]) for one in parts if one]))
    return sorted(found, key=lambda it: not it.who.startswith("the loop"))


def of_workers(all: list[Waits]) -> list[str]:
    """Of workers of which the same is said one line: `workers 0, 1 wait for work`."""
    same: dict[str, list[str]] = {}
    for it in sorted(all, key=lambda it: it.who):
        same.setdefault(it.text().removeprefix(f"{it.who} waits"), []).append(it.who.removeprefix("worker "))
    return [f"worker {it[0]} waits{rest}" if len(it) == 1 else f"workers {', '.join(it)} wait{rest}" for rest, it in same.items()]


def read_hang(path: Path) -> tuple[list[str], str]:
    """Who waits for whom, a line each; and where that is, for a machine: PATH:LINE of the loop's thread, or of the first one that has one."""
    lines = path.read_text(errors="replace").splitlines() if path.exists() else []
    begins = next((at for at, it in enumerate(lines) if it.startswith("HANGS ")), None)
    if begins is None:
        return [], ""
    all = read_waits(lines[begins + 1 :])
    workers = [it for it in all if re.fullmatch(r"worker \d+", it.who)]
    queued = int(lines[begins].split(" ")[2])
    more = [f"{queued} request{'s' if queued > 1 else ''} that no worker has taken"] if queued > 0 else []
    said = [it.text() for it in all if it not in workers] + of_workers(workers) + more
    return said, next(filter(None, (it.path() for it in all)), "")
