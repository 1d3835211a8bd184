"""The units of what a program did: a callback with what comes before it, and what happens on it, by which it is known again (fast.py)."""

from __future__ import annotations

import array
import bisect
import re
from collections.abc import Iterator

from uvt.record.items import Call, Done, End, Item, Op, Poll, Run, Send

# So many items a unit has at the most, and so many callbacks may come behind it before the next poll.
LONGEST = 24
# What an item is to a unit, as a letter: a callback, a poll, an op, and the end of a callback; and how a unit is made of these.
CALL, OP, POLL, DONE, NO_UNIT = b"COPD-"
LETTERS = {Poll: POLL, Done: DONE}
UNIT = re.compile(rb"[PO]*CO*D")
ASKS = ("queue ", "cancel ", "updatetime")
ENDS = (Poll, Run, End)
# What comes behind a poll's callbacks, and what is none of them, in place of a name's number.
ENDED, NO_CALL = -1, -2


def letter(item: Item) -> int:
    match item:
        case Call():
            return CALL if item.callback != "after" else NO_UNIT
        case Op():
            return OP if not item.text.startswith(ASKS) else NO_UNIT
    return LETTERS.get(type(item), NO_UNIT)


def is_called(item: Item) -> bool:
    """Is it a callback that is made ready for a poll? (All are but those of I/O.)"""
    return isinstance(item, Call) and not item.is_io()


class Happens:
    """Of each item a number for what happens with it, the same for the same; and of each of these numbers what it is."""

    def __init__(self, items: list[Item]) -> None:
        self.numbers = array.array("i")
        # what it is to a unit; and which name is called there
        self.letters: list[int] = []
        self.names: list[int] = []
        self.sends = False
        names: dict[str, int] = {}
        numbers: dict[object, int] = {}
        for it in items:
            happens: object = type(it)
            if isinstance(it, Call):
                happens = it.name, it.callback, it.section, it.kind
            elif isinstance(it, Op):
                happens = it.text, it.answer
            number = numbers.setdefault(happens, len(self.letters))
            self.numbers.append(number)
            if number == len(self.letters):
                self.letters.append(letter(it))
                if isinstance(it, Call) and is_called(it):
                    self.names.append(names.setdefault(it.name, len(names)))
                else:
                    self.names.append(ENDED if isinstance(it, ENDS) else NO_CALL)
                self.sends |= isinstance(it, Send) or isinstance(it, Op) and it.text.startswith("send ")


class Behind:
    """Of each item the callbacks that come from it on, up to the first end of a poll's callbacks: a number for their names, the same for the same
    ones, and how many they are."""

    def __init__(self, happens: Happens) -> None:
        count = len(happens.numbers) + 1
        self.names, self.many = array.array("i", bytes(4 * count)), array.array("i", bytes(4 * count))
        known: dict[tuple[int, int], int] = {}
        called, names, many = happens.names, 0, 0
        for at in range(count - 2, -1, -1):
            name = called[happens.numbers[at]]
            if name >= 0:
                names, many = known.setdefault((name, names), len(known) + 1), many + 1
            elif name == ENDED:
                names = many = 0
            self.names[at], self.many[at] = names, many


class Sent:
    """To whom somebody has sent as an item comes, of those that are called from it on."""

    def __init__(self, items: list[Item]) -> None:
        # of the callbacks that are made ready for a poll the names, and how many of them come before each item
        self.names: list[str] = []
        self.before = array.array("i")
        # of each of these the first send to its handle since that was called last; where there is none, behind all items
        self.first = array.array("i")
        sent: dict[str, int] = {}
        for at, it in enumerate(items):
            self.before.append(len(self.names))
            if isinstance(it, Call) and is_called(it):
                self.names.append(it.name)
                self.first.append(sent.pop(it.name, len(items)) if it.callback == "on" else len(items))
            elif isinstance(it, Op) and it.text.startswith("send "):
                sent.setdefault(it.text.split(" ")[1], at)
            elif isinstance(it, Send):
                sent.setdefault(it.name, at)
        self.before.append(len(self.names))

    def to(self, at: int, end: int, behind: int) -> tuple[str, ...]:
        """Of those that are called between these items, and so many behind them."""
        begin, last = self.before[at], self.before[end] + behind
        return tuple(name for name, first in zip(self.names[begin:last], self.first[begin:last]) if first < at)


class Units:
    """All of them, one behind the other."""

    def __init__(self, items: list[Item]) -> None:
        # the items at which they begin, and behind which they end
        self.begins, self.ends = array.array("i"), array.array("i")
        # of each what happens in it, who is called behind it before the next poll, and whom of all these somebody has sent to as it begins: as a
        # number, which is the same for the same
        self.what = array.array("i")
        # the latest time that stands in it
        self.latest: list[int] = []
        happens = Happens(items)
        behind, sent = Behind(happens), Sent(items) if happens.sends else None
        letters = bytes(map(happens.letters.__getitem__, happens.numbers))
        numbers, size = happens.numbers.tobytes(), happens.numbers.itemsize
        latest = [it.clock if it.clock > it.now else it.now for it in items]
        known: dict[tuple[bytes, int, tuple[str, ...]], int] = {}
        at = 0
        while at < len(items):
            found = UNIT.match(letters, at, at + LONGEST)
            if not found or behind.many[end := found.end()] > LONGEST:
                at += 1
                continue
            key = numbers[size * at : size * end], behind.names[end], sent.to(at, end, behind.many[end]) if sent else ()
            self.begins.append(at)
            self.ends.append(end)
            self.what.append(known.setdefault(key, len(known)))
            self.latest.append(max(latest[at:end]))
            at = end

    def at(self, item: int) -> int:
        """Which unit begins at this item; -1 where none does, which can be asked at once."""
        found = bisect.bisect_left(self.begins, item)
        return found if found < len(self.begins) and self.begins[found] == item else -1

    def rows(self, first: int, many: int) -> Iterator[tuple[int, int, int]]:
        """So many from one on: each with its first item, that behind it, and what happens."""
        part = slice(first, first + many)
        return zip(self.begins[part], self.ends[part], self.what[part])
