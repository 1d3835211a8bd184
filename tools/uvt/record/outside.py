"""What comes to a loop from outside, as its recording is made: sends, and requests that workers take and finish; and which of these came later than
the log has them, so that what stood before is kept."""

from __future__ import annotations

import copy
import itertools
import re
from collections.abc import Iterator

from uvt.record.items import Call, End, Op, Poll, Run, Send
from uvt.record.leading import Leader, Stopped

# What is kept before a send or a finish that may be put off.
KEPT = (
    "where",
    "clock",
    "in_call",
    "queued",
    "taken",
    "finished",
    "taken_at",
    "ready",
    "later_on",
    "after_at",
    "senders",
    "sent_late",
    "uncalled",
    "kept",
    "kept_at",
    "trail",
)
CALLED = re.compile(r"(?:^|has `)(?:after|call) (\S+) ")


class Outside(Leader):
    """The same, and what comes to it from outside."""

    def make_ready(self, at: int) -> None:
        ready = False
        for item in self.group(at):
            if item.callback == "after":
                self.finish(item.name)
            elif self.send_late(item):
                pass
            elif ready and self.ahead.is_sent_before(item.name, at):
                # (where somebody woke the poll, nobody else has to)
                continue
            elif item.name not in self.senders or not self.is_pending(item.name):
                self.later(f"send {item.name}", f"out send {item.name} = ok")
            ready = True

    def is_pending(self, name: str) -> bool:
        """Was there a send to it since its last call?"""
        slot = self.talk.of_name(name).slot_of(name)
        return not slot or slot.values.get("pending") != "0"

    def put_off(self, item: Send, at: int, calls: int) -> None:
        """The send comes later: before the next call, or so many behind that one."""
        number = self.ahead.number_of_call(item.name, at) + calls
        if not number:
            self.uncalled = (*self.uncalled, (self.ahead.last_poll(item.name, at), item))
            return
        self.sent_late[item.name] = (*self.sent_late.get(item.name, ()), (number, item.clock, item.by))

    def send_uncalled(self, at: int) -> None:
        """A callback has begun, or a handle closes."""
        for item in (item for poll, item in self.uncalled if poll < at):
            self.later(f"send {item.name}", f"out send {item.name} = ok")
            self.know(self.talk.length + len(self.queue), item.clock, item.by)
            self.came_late += 1
        self.uncalled = tuple(it for it in self.uncalled if it[0] >= at)

    def send_late(self, item: Call) -> bool:
        """The sends that were put off until this call come. False where there are none."""
        waiting = self.sent_late.pop(item.name, ())
        for number, clock, by in waiting:
            if number <= item.number:
                self.later(f"send {item.name}", f"out send {item.name} = ok")
                self.know(self.talk.length + len(self.queue), clock, by)
                self.came_late += 1
        if left := tuple(it for it in waiting if it[0] > item.number):
            self.sent_late[item.name] = left
        return len(left) < len(waiting)

    def group(self, at: int) -> list[Call]:
        """The callbacks of this poll, from this item on, that the loop calls in this order in one iteration; except for those of I/O."""
        last, places = -1, None
        chosen: list[Call] = []
        for item in (self.items[it] for it in range(at, len(self.items))):
            if isinstance(item, (Poll, Run, End)):
                break
            if not isinstance(item, Call) or item.is_io():
                continue
            if not item.is_polled() or item.made >= at or any(it.name == item.name for it in chosen):
                break
            if item.callback == "after" and last >= 0:
                break
            if item.callback == "on":
                if last >= 0 and places is None:
                    places = {name: place for place, name in enumerate(self.talk.state().lists["async"])}
                    last = places.get(next(it.name for it in chosen if it.callback == "on"), len(places))
                place = 0 if places is None else places.get(item.name, -1)
                if place <= last and places is not None:
                    break
                last = place
            chosen.append(item)
        return chosen

    def take(self) -> None:
        """The request that waits longest is taken; where all workers are busy, one is through first."""
        busy = set(self.taken.values())
        worker = next((it for it in range(self.workers) if it not in busy), None)
        if worker is None:
            name = self.next_through()
            worker = self.taken[name]
            self.finish(name)
        line = self.ask([f"take {worker}"])[0]
        if not line.startswith("out take "):
            raise Stopped(f"has no request that waits (`{line}`)")
        self.taken[line.split(" ")[3]] = worker
        self.taken_at[line.split(" ")[3]] = self.talk.length

    def coming(self) -> Iterator[str]:
        """The requests whose after callbacks come, in their order."""
        return (self.ahead.afters[at] for at in range(self.after_at, len(self.ahead.afters)))

    def next_through(self) -> str:
        """Whose worker is free first: of those whose end nobody sees the one that calls back first."""
        return next(
            (it for it in self.coming() if it in self.taken and (it not in self.ahead.seen or it in self.ready)),
            next((it for it in self.coming() if it in self.taken), next(iter(self.taken))),
        )

    def finish(self, name: str) -> None:
        """The request is through; those that waited longer are taken before it."""
        if name in self.finished:
            return
        while name not in self.taken:
            self.take()
        self.finished.add(name)
        self.later_on.discard(name)
        worker = self.taken.pop(name)
        self.ask([f"finish {worker}"])
        if name in self.ready:
            self.know(self.talk.length, self.ready[name])

    def before_cancel(self, item: Op) -> None:
        """A cancel that succeeds puts its request behind those that are done: so they have to be. One that fails comes behind its take."""
        name = item.text.split(" ")[1]
        if item.answer == "ok":
            before = list(itertools.takewhile(lambda it: it != name, self.coming()))
            for other in before if len(before) < len(self.ahead.afters) - self.after_at else []:
                if other in self.queued:
                    self.finish(other)
            self.finished.add(name)
        elif item.answer == "EBUSY":
            while name not in self.taken and name not in self.finished:
                self.take()

    # ---- a send or a finish that the loop saw later than it came

    def is_for_later(self, name: str, at: int) -> bool:
        """Is what was sent to or is through called by a later poll than this one, which wasn't left yet? Then it has come behind its end."""
        return self.where == "poll" and self.ahead.is_behind_poll(name, at)

    def check(self, name: str, at: int) -> None:
        """All as it is before a send or a finish."""
        kept = {it: copy.copy(getattr(self, it)) for it in KEPT}
        kept["outcome"] = copy.copy(self.outcome)
        kept["outcome"].answers = list(self.outcome.answers)
        self.checks.append((name, at, self.talk.length, kept))

    def check_of(self, line: str) -> tuple[str, int, int, dict[str, object]] | None:
        """What was kept before the last send or finish whose callback that line has, if that hasn't come in the log since."""
        called = CALLED.search(line)
        found = next((it for it in reversed(self.checks) if called and it[0] == called[1]), None)
        return found if found and not self.ahead.is_called(found[0], found[1], self.at) else None
