"""What a hunt has found: a bad end, and its place in the sources; and how much was asked, found and run."""

from __future__ import annotations

import re
from dataclasses import dataclass, field
from pathlib import Path

from uvt.notes import times

FRAME = re.compile(r"^ +#\d+ 0x[0-9a-f]+ in (\S+) (\S+):(\d+)", re.MULTILINE)
# Sources of the sanitizer's own, and of the C library, as distributions compile it.
OTHERS = re.compile(r"\.\.|\./(?:nptl|libio|stdlib|csu|string|elf|posix|io|misc|socket|inet|resolv|time|malloc|debug|nss|signal|sysdeps)/")


@dataclass
class Bad:
    """A bad end, and its order."""

    how: str
    # which question, or which order at random
    by: str
    # a session or a recording, as text, and which loop of the program it is of
    order: str
    loop: int
    # how often the same order was forced again, and in how many of these runs it ended badly too
    again: int = 0
    bad_again: int = 0
    # where, as a sanitizer has it, `` where it says nothing
    place: str = ""
    # who waits for whom, where it hangs
    hang: list[str] = field(default_factory=list)
    # the same place for a machine: PATH:LINE
    path: str = ""
    # work begins where it is taken: 1
    early: int = 0


@dataclass
class Counts:
    questions: int = 0
    found: int = 0
    never: int = 0
    departed: int = 0
    random: int = 0
    # runs that took too long, and didn't again
    once: int = 0
    seconds: float = 0

    def text(self) -> str:
        left = self.questions - self.found - self.never
        more = [f"{left} not settled"] if left else []
        departed = [f"{self.departed} departed"] if self.departed else []
        once = in_brackets([f"{self.once} took too long, and not again"] if self.once else [])
        return (
            f"{times(self.questions, 'question')}{in_brackets(more)}, {times(self.found, 'order')} found and forced{in_brackets(departed)},"
            f" {self.random} at random{once}, {self.seconds:.0f} s"
        )


def in_brackets(words: list[str]) -> str:
    return f" ({', '.join(words)})" if words else ""


def place_of(output: str) -> tuple[str, str]:
    """The innermost function of a sanitizer's report whose source is known and is neither the sanitizer's own nor the C library's; and PATH:LINE."""
    found = next((it for it in FRAME.finditer(output) if not OTHERS.match(it[2])), None)
    return (f"{found[1]} ({Path(found[2]).name}:{found[3]})", f"{found[2]}:{found[3]}") if found else ("", "")
