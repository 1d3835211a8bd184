"""What the log of a program has ahead of a place in it: its polls, the ends of its runs, and the callbacks that are made ready for a poll."""

from __future__ import annotations

import bisect
import collections
import heapq

from uvt.record.items import Call, End, Finish, Item, Op, Poll, Run, Send

# So many items ahead are near.
FAR = 40
# So many items ahead a thread may be held up in its send.
AHEAD = 200
# What looks at the clock, or shows that this was looked at.
LOOK = (Call, Poll, Run, End)


class Ahead:
    """Of a program's items, by their numbers."""

    def __init__(self, items: list[Item]) -> None:
        self.items = items
        self.ends: list[int] = []
        self.polls: list[int] = []
        # the requests whose after callbacks come, in their order
        self.afters: list[str] = []
        # requests whose work begins and ends by a line of its own; what becomes of the others, and when, nobody sees
        self.seen: set[str] = set()
        # of each name its callbacks that have to be made ready, and the sends to it
        self.calls: dict[str, list[int]] = collections.defaultdict(list)
        self.sends: dict[str, list[int]] = collections.defaultdict(list)
        self.closes: dict[str, list[int]] = collections.defaultdict(list)
        for at, it in enumerate(items):
            if isinstance(it, Call):
                if it.callback == "after":
                    self.afters.append(it.name)
                if it.is_polled():
                    self.calls[it.name].append(at)
            elif isinstance(it, Poll):
                self.polls.append(at)
            elif isinstance(it, Op):
                if it.text.startswith("close "):
                    self.closes[it.text.split(" ")[1]].append(at)
                elif it.text.startswith("send "):
                    self.sends[it.text.split(" ")[1]].append(at)
            elif isinstance(it, Send):
                self.sends[it.name].append(at)
            elif isinstance(it, End):
                self.ends.append(at)
            elif isinstance(it, Finish):
                self.seen.add(it.name)
        self.calls_before = calls_before(items, self.polls, self.calls, self.sends)

    def is_sent_before(self, name: str, at: int) -> bool:
        """Does a callback, or another thread, send to that one from this item on before it is called?"""
        calls, sends = self.calls[name], self.sends[name]
        call, send = bisect.bisect_left(calls, at), bisect.bisect_left(sends, at)
        return send < len(sends) and (call == len(calls) or sends[send] < calls[call])

    def has_end_near(self, at: int) -> bool:
        """Does a run end within the next items?"""
        found = bisect.bisect_left(self.ends, at)
        return found < len(self.ends) and self.ends[found] < at + FAR

    def is_behind_poll(self, name: str, at: int) -> bool:
        """Does the next poll come before the next callback of that name?"""
        polls, calls = self.polls, self.calls[name]
        poll, call = bisect.bisect_left(polls, at), bisect.bisect_left(calls, at)
        return poll < len(polls) and call < len(calls) and polls[poll] < calls[call]

    def last_poll(self, name: str, at: int) -> int:
        """The last poll from that item on before the handle of that name closes; the item itself where there is none."""
        closes = self.closes[name]
        found = bisect.bisect_left(closes, at)
        before = bisect.bisect_left(self.polls, closes[found] if found < len(closes) else len(self.items))
        return max(at, self.polls[before - 1]) if before else at

    def is_called(self, name: str, first: int, last: int) -> bool:
        """Does a callback of that name come from one item on, up to another one?"""
        calls = self.calls[name]
        return bisect.bisect_left(calls, first) < bisect.bisect_left(calls, last)

    def number_of_call(self, name: str, at: int) -> int:
        """Which of the name's callbacks comes next from that item on, by its number; 0 where none does."""
        calls = self.calls[name]
        found = bisect.bisect_left(calls, at)
        item = self.items[calls[found]] if found < len(calls) else None
        return item.number if isinstance(item, Call) else 0


def calls_before(items: list[Item], polls: list[int], calls: dict[str, list[int]], sends: dict[str, list[int]]) -> dict[int, int]:
    """Of the sends that are for a later callback than the next one: how many come before it. A thread may be held up between a send's line
    and what libuv does, up to the line of its next send; and the loop between that and the callback's line, from the end of its poll on. So
    each callback gets one of the sends that may be for it, where there is one."""
    found: dict[int, int] = {}
    for name, those in sends_by_name(items, sends).items():
        mine = calls.get(name, [])
        seen = [polls[behind - 1] if (behind := bisect.bisect_left(polls, at)) else at for at in mine]
        may_be_for = {at: (bisect.bisect_left(mine, at), bisect.bisect_left(seen, last)) for at, last in those}
        given = given_to(may_be_for, len(mine))
        found.update({at: number - may_be_for[at][0] for at, number in given.items() if number > may_be_for[at][0]})
    return found


def sends_by_name(items: list[Item], sends: dict[str, list[int]]) -> dict[str, list[tuple[int, int]]]:
    """Of each name the sends to it, in their order, and with each the item up to which it may be held up. The loop's own isn't."""
    held: dict[int, int] = {}
    next_of: dict[str, int] = {}
    for at in sorted((at for those in sends.values() for at in those), reverse=True):
        item = items[at]
        if isinstance(item, Send):
            held[at] = min(next_of.get(item.thread, len(items)), at + AHEAD)
            next_of[item.thread] = at
    return {name: [(at, held.get(at, at)) for at in those] for name, those in sends.items()}


def given_to(may_be_for: dict[int, tuple[int, int]], count: int) -> dict[int, int]:
    """Which of so many callbacks each send is for, of those sends that some callback needs. Each may be for one of a row of them, from its
    first one to its last one; a callback gets the one that can wait least."""
    coming, waiting = collections.deque(may_be_for.items()), list[tuple[int, int]]()
    needed: list[int | None] = []
    for number in range(count):
        while coming and coming[0][1][0] <= number:
            at, (_, last) = coming.popleft()
            heapq.heappush(waiting, (last, at))
        while waiting and waiting[0][0] < number:
            heapq.heappop(waiting)
        needed.append(heapq.heappop(waiting)[1] if waiting else None)
    # (none is put off where the callback has a send of its own that no other one needs)
    spare: dict[int, list[int]] = collections.defaultdict(list)
    for at in may_be_for.keys() - set(needed):
        spare[may_be_for[at][0]].append(at)
    given: dict[int, int] = {}
    for number, found in reversed(list(enumerate(needed))):
        if found is None:
            continue
        at = found
        if may_be_for[at][0] < number and spare[number]:
            spare[may_be_for[at][0]].append(at)
            at = spare[number].pop()
        given[at] = number
    return given
