"""Slots that are wanted as they were on the way of a session: of each whose it is, whether that is active, and when it is due."""

from __future__ import annotations

import operator
import re
from typing import Iterator, NamedTuple

from uvt.inputs import Fault
from uvt.walk import Walk

# So many are asked for without waiting.
AT_ONCE = 5_000
# The answer about one: how many steps stand, and of the slot that its name holds there, if any, the id, the kind, and the rest of its line.
ANSWER = re.compile(r"at \d+\nname .*\n(?:slot (\S+) (\S+)(?: (\S+)(?: ref \d active (\d) closing \d(?: begun \d(?: due (\d+))?)?)?.*)?\n)?")


class Look(NamedTuple):
    """A slot that is wanted as it is where so many steps stand. It is the same up to another length: nothing of it is done on the way."""

    name: str
    id: str
    first: int
    last: int


class Seen(NamedTuple):
    """Of a slot that was wanted what is asked of it: whose it is, whether that is active, and of a timer when it is due."""

    name: str
    is_active: bool
    due: int | None


def seen_at(walk: Walk, looks: list[Look]) -> Iterator[tuple[Look, Seen | None]]:
    """All these slots, each by its name's own lines; None of one that is gone. (A name stands for another one only when its own is.)"""
    looks = sorted(looks, key=operator.attrgetter("last"))
    for first in range(0, len(looks), AT_ONCE):
        some = looks[first : first + AT_ONCE]
        found = ANSWER.findall(walk.talk.names_at([(it.last, it.name) for it in some]))
        if len(found) != len(some):
            raise Fault(f"the program tells of {len(found)} names where {len(some)} were asked for")
        for look, (id, _, name, active, due) in zip(some, found):
            is_active = active == "1"
            slot = Seen(look.name if name == look.name else name, is_active, int(due) if is_active and due else None)
            yield look, slot if id == look.id else None
