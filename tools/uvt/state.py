"""A state of the loop, as `state` prints it, cut into values."""

from __future__ import annotations

import functools
from dataclasses import dataclass, field


@dataclass
class Slot:
    """A slot that was ever used: a handle's, a request's, or neither."""

    id: str
    kind: str
    name: str = ""
    values: dict[str, str] = field(default_factory=dict)
    # of a request: `waiting`, `running K`, `done`, `cancelled`
    outcome: str = ""


SLOT_VALUES = {"ref", "active", "closing", "begun", "due", "start", "repeat", "pending"}


def read_slot(words: list[str]) -> Slot:
    id, kind = words[1], words[2]
    if kind in ("empty", "retired"):
        return Slot(id, kind)
    if kind == "work":
        outcome = " ".join(words[4:6]) if words[4] == "running" else words[4]
        return Slot(id, kind, words[3], {}, outcome)
    rest = words[4:]
    return Slot(id, kind, words[3], {a: b for a, b in zip(rest[::2], rest[1::2]) if a in SLOT_VALUES})


class State:
    """What `state` prints, by its words. (It may have many thousand lines: what of it somebody asks for is cut into values then.)"""

    def __init__(self, lines: list[str]) -> None:
        self.lines = lines

    @functools.cached_property
    def numbers(self) -> dict[str, int]:
        words = self.lines[0].split(" ")
        found = {a: int(b) for a, b in zip(words[::2], words[1::2])}
        return found | {"unused": int(it.split(" ")[1]) for it in self.lines if it.startswith("unused ")}

    @property
    def place(self) -> str:
        return self.lines[1].removeprefix("place ")

    @functools.cached_property
    def names(self) -> list[list[str]]:
        return [it.split(" ") for it in self.lines if it.startswith("name ")]

    @functools.cached_property
    def bound(self) -> dict[str, str | None]:
        """Which id each name has."""
        return {it[1]: None if it[2] == "none" else it[2] for it in self.names}

    @functools.cached_property
    def counts(self) -> dict[str, tuple[int, int, int]]:
        """How many callbacks, after callbacks and close callbacks each name had."""
        return {it[1]: (int(it[3]), int(it[4]), int(it[5])) for it in self.names}

    @functools.cached_property
    def rows(self) -> dict[str, str]:
        """The line of each slot, by its id."""
        return {it.split(" ", 2)[1]: it for it in self.lines if it.startswith("slot ")}

    @functools.cached_property
    def slots(self) -> list[Slot]:
        return [read_slot(it.split(" ")) for it in self.rows.values()]

    @functools.cached_property
    def lists(self) -> dict[str, list[str]]:
        found = (it.split(" ") for it in self.lines[2:] if not it.startswith(("name ", "slot ", "unused ")))
        return {it[0]: it[1:] for it in found}

    def slot_at(self, id: str | None) -> Slot | None:
        row = self.rows.get(id) if id else None
        return read_slot(row.split(" ")) if row else None

    def slot_of(self, name: str) -> Slot | None:
        """The slot that the name's id holds still."""
        slot = self.slot_at(self.bound.get(name))
        return slot if slot and slot.name == name else None
