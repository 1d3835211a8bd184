"""How far a build is, in one line: at a terminal it is rewritten, and elsewhere it comes again when a crate is done."""
import shutil
import sys
import time
from typing import Dict

from launch.crates import Crate, chains


def clock(seconds: float) -> str:
    return "%d:%02d" % divmod(int(seconds), 60)


class Progress:
    def __init__(self, crates: Dict[str, Crate], processors: int) -> None:
        self.crates, self.processors = crates, processors
        self.chains = chains(crates)
        self.started = time.monotonic()
        self.done: Dict[str, int] = {}  # how many functions each has that is done
        self.running: Dict[str, float] = {}  # when each began
        self.far: Dict[str, "tuple[int, int]"] = {}  # of how many functions how many are checked
        # A crate whose proof took as long as was thought, so that the first estimates rest on something.
        self.taken, self.thought = 60.0, 60.0
        self.rewrites = sys.stderr.isatty()
        self.shown = self.started

    def elapsed(self) -> float:
        return time.monotonic() - self.started

    def begins(self, name: str) -> None:
        self.running[name] = time.monotonic()

    def checked(self, name: str, some: int, of: int) -> None:
        self.far[name] = (some, of)

    def ends(self, name: str, functions: int) -> None:
        began = self.running.pop(name)
        # (what an earlier command proved is only taken over, and says nothing of how long a proof takes)
        if functions:
            self.taken += time.monotonic() - began
            self.thought += self.crates[name].weight
        self.done[name] = functions
        self.tell(now=not self.rewrites)

    def left(self) -> float:
        """An estimate of the seconds that are left: by what is left to do, or by the longest chain of crates that depend on
        one another. One that takes longer than was thought is taken to have a fifth before it."""
        pace, now = self.taken / self.thought, time.monotonic()
        work, chain = 0.0, 0.0
        for name, crate in self.crates.items():
            if name not in self.done:
                spent = now - self.running.get(name, now)
                rest = max(crate.weight * pace - spent, spent / 4)
                work += rest
                chain = max(chain, rest + (self.chains[name] - crate.weight) * pace)
        return max(work / self.processors, chain)

    def line(self) -> str:
        functions = sum(self.done.values()) + sum(self.far.get(name, (0, 0))[0] for name in self.running)
        minutes = round(self.left() / 60)
        ahead = "about %d minutes left" % minutes if minutes > 1 else "about a minute left"
        at = ", ".join("%s %d/%d" % (name, *self.far[name]) if name in self.far else name for name in self.running)
        return "uvt: %d of %d crates, %d functions proved, %s, %s%s" % (
            len(self.done),
            len(self.crates),
            functions,
            clock(self.elapsed()),
            ahead,
            "; now " + at if at else "",
        )

    def tell(self, now: bool = False) -> None:
        """Shows the line: at a terminal each time, and else where it is asked for now, or after a minute."""
        if self.rewrites:
            line = self.line()[: shutil.get_terminal_size().columns - 1]
            print("\r\x1b[K" + line, end="", file=sys.stderr, flush=True)
        elif now or time.monotonic() - self.shown >= 60:
            self.shown = time.monotonic()
            print(self.line(), file=sys.stderr, flush=True)

    def say(self, text: str) -> None:
        """A line of its own."""
        print(("\r\x1b[K" if self.rewrites else "") + "uvt: " + text, file=sys.stderr, flush=True)
