"""How far a tool is, in one line on standard error: at a terminal, and only where it takes more than a second."""

from __future__ import annotations

import sys
import time

AFTER, BETWEEN = 1.0, 0.2


class Teller:
    """Tells how many of something are done."""

    def __init__(self, tool: str, what: str) -> None:
        self.tool, self.what = tool, what
        self.began = self.said = time.monotonic()
        self.shows = sys.stderr.isatty()
        self.shown = False

    def tell(self, done: int, of: int) -> None:
        now = time.monotonic()
        if not self.shows or now - self.began < AFTER or now - self.said < BETWEEN or not of:
            return
        self.said, self.shown = now, True
        left = (of - done) * (now - self.began) / max(1, done)
        print(f"\r\x1b[K{self.tool}: {done} of {of} {self.what}, about {left:.0f} s left", end="", file=sys.stderr, flush=True)

    def done(self) -> None:
        """Takes the line away."""
        if self.shown:
            print("\r\x1b[K", end="", file=sys.stderr, flush=True)
            self.shown = False
