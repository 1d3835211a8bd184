"""Leads `uvt debug` along what a program did, and so makes a recording of it.

This is a search, and isn't trusted. It has no loop of its own: the program answers each step, and what is written is what its
`record` prints. It decides when the clock goes on, when a worker takes or finishes a request, and when somebody sends. It looks ahead
in three ways:

  - the clock goes on to the time that the loop had at the next event, before a step that may look at the clock; and at a callback's end
    to the time that the clock had there, so the tick stands behind the callback that took the time
  - before a poll is left, all that the program's poll called is made ready: sends for async handles, finishes for requests. A callback of
    I/O is a step of its own, and needs nothing
  - at each poll of the program the loop is led to its own. Where that takes a callback, the steps are taken back
"""

from __future__ import annotations

from uvt.codes import SECTIONS
from uvt.record.ahead import FAR
from uvt.record.fast import CLOCK, END, NOW, Ways
from uvt.record.items import Call, Done, End, Finish, Item, Op, Poll, Run, Send, Take
from uvt.record.leading import POLLED, Outcome, Stopped
from uvt.record.events import NO_CLOCK
from uvt.record.outside import Outside
from uvt.record.where import NOWHERE, PENDING
from uvt.session_lines import LISTS

MANY_WORKERS = 64
PATIENCE = 5000
CALLS = {callback: word for word, callback in LISTS.items()}
# Where callbacks of I/O are of the same poll still.
BEHIND = (POLLED, "done", "async")


def section_of(item: Call) -> str:
    """Where in an iteration a callback comes."""
    if item.callback == "closed":
        return "closing"
    if item.callback == "after":
        return "done"
    return item.kind if item.kind in SECTIONS[1:] else "timers" if item.kind == "timer" else "async"


class NeedsWake(Exception):
    """The loop waits where the program went on, and nobody that is known woke it."""


class Follower(Outside):
    """One way along a program's items."""

    def at_poll(self, at: int) -> None:
        """All that this poll of the program called is made ready."""
        self.tick_to(at, NOW)
        self.flush()
        self.make_ready(at)

    def until(self, wanted: str, at: int, section: str) -> str:
        """Steps until a line that begins so. A line of another callback, op or run is a difference."""
        woken = False
        self.tick_to(at, NOW)
        if self.where in ("poll", POLLED):
            self.at_poll(at)
        for _ in range(PATIENCE):
            line = self.steps(self.distance(section), wanted)[-1]
            if line.startswith("refused blocked"):
                if not self.wake or woken:
                    raise Stopped("waits in the poll") if self.wake else NeedsWake()
                woken = True
                self.outcome.wakes += 1
                self.later("send wake", "out send wake = ok")
            elif line.startswith("refused"):
                raise Stopped("is at the end of its main program" if line == "refused ended" else f"refuses a step, with `{line}`")
            elif line.startswith(wanted):
                return line
            elif line.startswith("poll "):
                self.at_poll(at)
            elif line.split(" ")[0] not in SECTIONS and line and not (self.wake and line.startswith("call wake ")):
                raise Stopped(f"has `{line}` there")
        raise Stopped("goes round and round")

    def to_poll(self, at: int) -> None:
        """Leads the loop to its next poll, if there is no callback on the way; else it stays where it is."""
        if self.where in ("poll", "main"):
            return
        self.flush()
        length, where, clock, trail = self.talk.length, self.where, self.clock, len(self.trail)
        self.tick_to(at, NOW)
        for _ in range(FAR):
            line = self.steps(self.distance("poll"))[-1]
            if line.startswith("poll "):
                return
            if line and line.split(" ")[0] not in SECTIONS:
                if self.check_of(line):
                    # (what calls it has come behind that poll of the program)
                    raise Stopped(f"has `{line}` there")
                break
        self.move(length)
        self.where, self.clock = where, clock
        del self.trail[trail:]

    def do_op(self, item: Op) -> None:
        word = item.text.split(" ")[0]
        if word == "updatetime":
            self.tick(item.now)
        elif word == "close":
            self.send_uncalled(self.at)
        elif word == "cancel":
            self.flush()
            self.before_cancel(item)
        elif word == "queue":
            self.finished.discard(item.text.split(" ")[1])
            self.queued.add(item.text.split(" ")[1])
        self.later("loop", f"{item.text} = ", item)

    def do_run(self, item: Run, at: int) -> None:
        """A default run looks at the clock as it begins. What the clock says then has gone by in the main program."""
        self.tick(item.now)
        begun = next((it.now for it in self.items[at + 1 : at + FAR] if isinstance(it, (Call, Poll, End))), item.now)
        self.tick(min(item.clock, begun))
        if item.mode == "default":
            self.tick(begun)
        self.later("loop", f"run {item.mode}")
        self.where = "entry"

    def do_io(self, item: Call, at: int) -> None:
        """A callback of I/O: the loop is led to the poll or to the section pending, where the program's came, and there it is a step."""
        if item.section == PENDING and self.where != PENDING:
            self.until(PENDING, at, PENDING)
        elif item.section != PENDING and self.where not in BEHIND:
            if self.where != "poll":
                self.until("poll ", at, "poll")
            self.at_poll(at)
        elif self.where == "done" and not self.group(at):
            self.pass_over_done()
        self.answer(item, at)
        self.in_call = True
        self.outcome.callbacks += 1

    def pass_over_done(self) -> None:
        """Behind the last after callback of a poll I/O comes behind those of async handles: who is sent to from now on is called with the
        next poll."""
        length = self.talk.length
        if self.steps(1)[-1] != "async":
            self.move(length)
            self.where = "done"

    def answer(self, item: Call, at: int) -> None:
        """The step of such a callback. The one that leaves the poll makes the loop's time that of the clock: so what goes by before the
        callback begins comes behind its step."""
        leaves = self.where == "poll"
        if not leaves:
            self.tick_to(at, CLOCK)
        while not (line := self.ask([f"io {item.name}"])[0]).startswith("call ") and self.where == "async":
            # (the section passes over its handles that nobody has sent to, one in a step without a line)
            if passed := self.steps(1)[-1]:
                raise Stopped(f"has `{passed}` there")
        if not line.startswith("call "):
            raise Stopped(f"refuses `io {item.name}`")
        if leaves:
            self.where = POLLED
            self.tick_to(at, CLOCK)
            self.flush()

    def do_call(self, item: Call, at: int) -> None:
        wanted = f"{CALLS[item.callback]} {item.name} "
        line = self.until(wanted, at, section_of(item))
        self.go_on_before(item, at, wanted)
        self.in_call = True
        if item.callback == "after":
            if line.split(" ")[3] != item.what:
                raise Stopped(f"has `{line}` there")
            self.after_at += 1
            self.finished.discard(item.name)
            self.queued.discard(item.name)
            self.ready.pop(item.name, None)
            self.taken.pop(item.name, None)
        self.outcome.callbacks += 1

    def go_on_before(self, item: Call, at: int, wanted: str) -> None:
        """The clock goes on to where it was as the callback began, in front of it."""
        if item.clock <= self.clock:
            self.trail.append((self.talk.length - 1, at, CLOCK, True))
            return
        self.move(self.talk.length - 1)
        self.tick_to(at, CLOCK)
        self.later("loop", wanted)
        self.flush()

    def do(self, item: Item, at: int) -> None:
        if isinstance(item, (End, Call, Send, Finish)):
            self.flush()
        match item:
            case Op():
                self.do_op(item)
            case Run():
                self.do_run(item, at)
            case End():
                line = self.until("end ", at, "timers")
                self.outcome.ends += line != f"end {item.alive}"
            case Poll():
                self.to_poll(at)
            case Call() if item.section == NOWHERE:
                raise Stopped("hasn't polled there")
            case Call() if item.is_io():
                self.do_io(item, at)
                self.send_uncalled(at)
            case Call():
                self.do_call(item, at)
                self.send_uncalled(at)
            case Done():
                self.tick_to(at, END)
                self.in_call = False
            case Send():
                self.do_send(item, at)
            case Finish():
                self.do_finish(item, at)
            case Take():
                self.tick_within(item, at)
                self.flush()
                while item.name not in self.taken and item.name not in self.finished:
                    self.take()
                if item.name in self.taken and item.clock != NO_CLOCK:
                    self.know(self.taken_at[item.name], item.clock)

    def do_send(self, item: Send, at: int) -> None:
        self.senders.add(item.name)
        is_next = at in self.lazy or self.is_for_later(item.name, at)
        behind = self.ahead.calls_before.get(at, 0)
        if is_next or behind:
            self.put_off(item, at, behind)
            return
        self.check(item.name, at)
        self.tick_within(item, at)
        self.ask([f"send {item.name}"])
        self.know(self.talk.length, item.clock, item.by)

    def do_finish(self, item: Finish, at: int) -> None:
        """Work is through. Its step comes behind those of the requests that call back before it."""
        self.ready[item.name] = item.clock
        if at in self.lazy or self.is_for_later(item.name, at):
            self.later_on.add(item.name)
            return
        self.check(item.name, at)
        self.tick_within(item, at)
        while (name := next((it for it in self.coming() if it not in self.finished), None)) in self.ready and name not in self.later_on:
            self.finish(name)

    def again_from(self, stopped: Stopped) -> int | None:
        """Where the loop calls what the program calls only later: it left its poll before the send or the finish. So that comes where
        its callback does. Answers the item from which to go on; None where that isn't it."""
        found = self.check_of(stopped.model)
        if not found:
            return None
        _, at, length, kept = found
        self.queue = []
        self.move(length)
        for name, value in kept.items():
            setattr(self, name, value)
        self.lazy.add(at)
        while self.checks and self.checks[-1][1] >= at:
            self.checks.pop()
        return at

    def follow(self) -> Outcome:
        """Goes along all items, or up to where the loop does something else."""
        if self.wake:
            self.later("loop", "init wake async = ")
            self.later("loop", "unref wake = ok")
        at: int | None = 0
        while at is not None:
            try:
                self.go_along(at)
                self.flush()
                break
            except NeedsWake:
                self.talk.stop()
                raise
            except Stopped as stopped:
                at = self.again_from(stopped)
                if at is None:
                    self.move(self.kept)
                    self.outcome.why, self.outcome.item = stopped.model, self.items[self.at]
        self.record()
        return self.outcome

    def go_along(self, at: int) -> None:
        units, ways = self.units, Ways(self, self.units)
        while at < len(self.items):
            self.tell(at, len(self.items))
            unit = units.at(at)
            if unit >= 0:
                self.flush()
                if (behind := ways.run(unit)) > at:
                    at = self.kept_at = behind
                    continue
            begin, where, late, self.trail = self.talk.length, self.where, self.came_late, []
            end = units.ends[unit] if unit >= 0 else at + 1
            for self.at in range(at, end):
                self.do(self.items[self.at], self.at)
                if not self.queue:
                    self.kept, self.kept_at = self.talk.length, self.at + 1
            if unit >= 0:
                self.flush()
                ways.learn(unit, where, begin, late)
            at = end

    def record(self) -> None:
        self.outcome.steps = self.talk.length
        self.outcome.lines = self.said
        self.outcome.recording = self.talk.record()
        self.talk.close()
