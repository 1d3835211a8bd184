"""Where the callbacks of a living process are at (recorder/now.c), as lines of a log: a callback that never ends has none of its own there.

Behind a copy of its ring stand, of each loop, `- A N OFFSET - FILE` for each place, and `- Y LOOP CLOCK WHAT @N<N..`: WHAT is the function in which
the callback waits since then, or `look`, where its stack was seen last.
"""

from __future__ import annotations

import bisect
import os
import struct
from dataclasses import dataclass
from pathlib import Path

# What stands of a loop: when it was changed, the loop, since when it waits and where, in which function, when it was looked at, and how deep it was.
HEAD = struct.Struct("<4Q32s2Q")
DEEPEST, LOOPS = 24, 16
SIZE = HEAD.size + 8 * DEEPEST
# (while it is being written it is read again)
TRIES = 20
FIRST = 100_000_000
MEMORY = "/memfd:uvt-now"
# A file that lies where it says, and nowhere else.
FIXED = 2


@dataclass
class Mapped:
    """A piece of a file in the memory of a process, and by how much that lies behind where the file itself has it."""

    begin: int
    end: int
    behind: int
    file: str


def is_fixed(process: int, file: str) -> bool:
    try:
        with open(f"/proc/{process}/root{file}", "rb") as opened:
            head = opened.read(18)
    except OSError:
        return False
    return head[:4] == b"\x7fELF" and struct.unpack_from("<H", head, 16)[0] == FIXED


def mapped_in(process: int) -> list[Mapped]:
    """The files of the process, by where they lie."""
    found, first = [], dict[str, int]()
    for line in Path(f"/proc/{process}/maps").read_text("utf-8", "replace").splitlines():
        words = line.split(None, 5)
        if len(words) < 6 or not words[5].startswith("/") or words[5].startswith(MEMORY):
            continue
        begin, end = (int(it, 16) for it in words[0].split("-"))
        file = words[5].removesuffix(" (deleted)")
        if file not in first:
            first[file] = 0 if is_fixed(process, file) else begin - int(words[2], 16)
        found.append(Mapped(begin, end, first[file], file))
    return sorted(found, key=lambda it: it.begin)


class Places:
    """The numbers of places, as lines of the log."""

    def __init__(self, mapped: list[Mapped]) -> None:
        self.mapped = mapped
        self.begins = [it.begin for it in mapped]
        self.lines: list[str] = []
        self.numbers: dict[int, int] = {}

    def number(self, address: int) -> int | None:
        at = bisect.bisect_right(self.begins, address) - 1
        if at < 0 or address >= self.mapped[at].end:
            return None
        if address not in self.numbers:
            self.numbers[address] = FIRST + len(self.numbers)
            self.lines.append(f"- A {self.numbers[address]} {address - self.mapped[at].behind:x} - {self.mapped[at].file}")
        return self.numbers[address]

    def stack(self, addresses: list[int]) -> str:
        known = [self.number(it) for it in addresses]
        return "<".join(str(it) for it in known if it is not None)


def read_slot(file: int, at: int) -> bytes:
    """What stands of one loop, as it was at one time; `` where it was being written all the time."""
    for _ in range(TRIES):
        one, other = os.pread(file, SIZE, at * SIZE), os.pread(file, SIZE, at * SIZE)
        if one == other and len(one) == SIZE and one[0] % 2 == 0:
            return one
    return b""


def lines_of(process: int, base: int) -> list[str]:
    """The lines of a process, by the time of its first loop."""
    folder = Path(f"/proc/{process}/fd")
    try:
        path = next((it for it in folder.iterdir() if os.readlink(it).startswith(MEMORY)), None)
        places = Places(mapped_in(process)) if path else Places([])
        file = os.open(path, os.O_RDONLY | os.O_CLOEXEC) if path else -1
    except OSError:
        return []
    try:
        found = [line for at in range(LOOPS if path else 0) for line in told(read_slot(file, at), places, base)]
    finally:
        if file >= 0:
            os.close(file)
    return places.lines + found


def told(slot: bytes, places: Places, base: int) -> list[str]:
    """Of one loop: in which call it waits, or where it was seen last."""
    if not slot:
        return []
    _, loop, waits, place, name, looked, depth = HEAD.unpack_from(slot)
    function = name.partition(b"\0")[0].decode("ascii", "replace")
    if loop and waits and function.replace("_", "").isalnum():
        stack = places.stack([place])
        return [f"- Y {loop - 1} {max(0, waits - base)} {function} @{stack}"] if stack else []
    stack = places.stack(list(struct.unpack_from(f"<{min(depth, DEEPEST)}Q", slot, HEAD.size))) if loop and looked else ""
    return [f"- Y {loop - 1} {max(0, looked - base)} look @{stack}"] if stack else []
