"""Where the clock of a session went on: in which callback, or elsewhere, and what its thread did meanwhile."""

from __future__ import annotations

from dataclasses import dataclass, field

from uvt.node_names import InNode
from uvt.spent import Spent

WORDS = {"on": "the callback", "after": "the after callback", "closed": "the close callback"}
CALLBACKS = tuple(f"{it} of " for it in WORDS.values())
POLL = "the poll"
# The clock has whole ms, and what is known of the processor's time may be one ms more: so less than that is no difference.
DIFFERENCE = 3


def processor_told(processor: int, took: int) -> str:
    """How much of a time, in ms, a thread was on the processor, where it isn't all of it: it waited, or others had the processor."""
    return f", {processor or 'none'} of them on the processor" if 0 <= processor <= took - DIFFERENCE else ""


@dataclass
class Took:
    """Where the clock went on: in a callback, or elsewhere, from one step to another, and by which pieces of it."""

    what: str
    first: int
    last: int
    pieces: list[tuple[int, int]] = field(default_factory=list)
    # of a callback the program's function, where that is known; and of one of node's what it is in node
    function: str = ""
    node: InNode | None = None
    # how long its thread was on the processor, in ms; -1 where nobody knows
    processor: int = -1
    # what it did while it took long, where that is known
    spent: Spent | None = None

    def did(self) -> str:
        """The same in words; `` where nothing is known."""
        return self.spent.told(self.took(), self.processor) if self.spent and self.took() >= DIFFERENCE else ""

    def on_processor(self) -> str:
        """How much of it that was, where it isn't all of it."""
        return processor_told(self.processor, self.took())

    def where(self) -> str:
        """Where that was: in node what its callback does there."""
        return self.node.words if self.node else self.what

    def steps(self) -> str:
        return f"from step {self.first} to {self.last}" if self.first < self.last else f"at step {self.first}"

    def is_callback(self) -> bool:
        return self.what.startswith(CALLBACKS)

    def is_poll(self) -> bool:
        return self.what == POLL

    def took(self) -> int:
        return sum(end - begin for begin, end in self.pieces)

    def between(self, begin: int, end: int) -> int:
        """How much of it lies between two times of the clock."""
        return sum(max(0, min(end, b) - max(begin, a)) for a, b in self.pieces)
