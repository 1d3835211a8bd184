"""The tactics that are tried, how they are laid out, and the copies of lemmas that have one."""

from __future__ import annotations

from collections.abc import Iterator
from dataclasses import dataclass, field

from make.shorten.reading import WIDTH, Lemma


@dataclass(frozen=True)
class Call:
    """A tactic, and what it costs in the choice among those that pass."""

    text: str
    cost: int


@dataclass(frozen=True)
class Without:
    """A lemma that a copy cites no more, in how many places it did, and how many places there are in all."""

    name: str
    here: int
    everywhere: int


@dataclass(frozen=True)
class Made:
    """A copy of a lemma with something in place of its body, or of a part of it.

    Of a `merge` copy `behind` is the clause that comes last, and `call` the tactic there; of a `without` copy `without` says what goes."""

    lemma: Lemma
    kind: str
    lines: tuple[str, ...]
    cost: int
    behind: int = -1
    call: str = ""
    without: Without | None = field(default=None)

    @property
    def text(self) -> tuple[str, str]:
        """By what a copy that failed is known again."""
        return self.lemma.name, "\n".join(self.lines)


@dataclass(frozen=True)
class Means:
    """What may be put in place of a proof: the lemmas that the file knows, and grind's bound."""

    known: set[str]
    steps: int


def calls(listed: list[str], steps: int, more: list[str] | None = None) -> Iterator[Call]:
    """The tactics, with what the old text cites."""
    every = [*listed, *(more or [])]
    some, bound = ", ".join(every), f" steps {steps}" if steps else ""
    yield Call("assumption", 0)
    yield Call("cc", 1)
    yield Call(f"grind arith{bound}", 3)
    if not every:
        yield Call("search (sym)", 4)
        return
    inner = f"({some})" if len(every) > 1 else some
    yield Call(f"assumption {inner}", 1)
    yield Call(f"cc {inner}", 2)
    yield Call(f"simp {inner}", 2)
    yield Call(f"search {inner}", 4)
    yield Call(f"grind (arith, {some}){bound}", 5)


def laid(left: str, call: str) -> list[str]:
    """A clause on one line, or on as many as it needs."""
    if len(f"{left} = {call}") <= WIDTH:
        return [f"{left} = {call}"]
    lines, line = [f"{left} ="], "   "
    for word in call.split(" "):
        if len(line) + 1 + len(word) > WIDTH:
            lines.append(line)
            line = "   "
        line += f" {word}"
    return [*lines, line]


def copy(lemma: Lemma, kind: str, body: list[str], call: Call) -> Made:
    """A copy with this body."""
    return Made(lemma, kind, (*lemma.head, *body), len(body) * 10 + call.cost, call=call.text)
