"""Where the time of a request of the pool went."""

from __future__ import annotations

from uvt.beginnings import at_least
from uvt.causes import MANY, few, told
from uvt.notes import times
from uvt.waits import Wait
from uvt.took import DIFFERENCE, processor_told
from uvt.why_called import Called

# What libuv has only a part of its workers do at a time.
SLOW = ("addrinfo", "nameinfo")
HALF = "libuv has half of its workers at the most do lookups at a time, however many are free"
# As many workers a recording has where requests were passed by later ones (record/follow.py).
MANY_WORKERS = 64


class Work(Called):
    """The waits for after callbacks."""

    def request(self, wait: Wait) -> tuple[str, list[str]]:
        if wait.cancelled:
            return "cancelled before a worker took it", [f"cancelled at step {wait.cancelled} {self.walk.by(wait.cancelled)}", *self.unwoken(wait)]
        if wait.finished in self.notes.guessed:
            return self.unseen_request(wait)
        details = [self.waited(wait), self.ran(wait), *self.unwoken(wait), self.handed(wait)]
        passed = self.overtaken(wait)
        if self.notes.javascript:
            return self.request_parts(wait), details
        if passed:
            return f"behind {few(passed)}, queued later and done earlier", details
        return f"done at step {wait.through()}, {self.between(wait, wait.through())}", details

    def request_parts(self, wait: Wait) -> str:
        """Where its time went."""
        queued, called = self.walk.happened(wait.asked), self.walk.clock(wait.end())
        taken, through = self.walk.happened(wait.taken_by()[0]), self.walk.happened(wait.through())
        least = at_least(self.notes, wait.asked)
        return (
            f"called {least}{called - queued} ms after it was asked for: {least}{taken - queued} ms it waited for a worker,"
            f" {through - taken} ms it ran, {called - through} ms it waited for the loop"
        )

    def unseen_request(self, wait: Wait) -> tuple[str, list[str]]:
        """Nobody saw when it was through; but where each worker has work that is seen, it waits."""
        away = self.walk.clock(wait.end()) - self.walk.happened(wait.asked)
        kind = self.notes.kind(self.name)
        details = [] if wait.taken_by()[0] in self.notes.guessed else [self.waited(wait)]
        for it in self.walk.pool.full_between(wait.asked, wait.end()):
            ends = self.walk.happened(it.last) - max(self.walk.happened(it.first), self.walk.happened(wait.asked))
            details.append(
                f"for {ends} ms of them each worker had other work, from step {it.first} to {it.last}: {few(it.names)}" f"{self.asked_for(it.names)}"
            )
        blocked = [it for it in self.walk.causes(self.walk.happened(wait.asked), self.walk.clock(wait.end())) if not it.is_poll()]
        if blocked:
            details.append(f"meanwhile {'; '.join(told(it) for it in blocked[:MANY])}")
        kind = f" ({kind})" if kind and kind != "work" else ""
        return (
            f"called {at_least(self.notes, wait.asked)}{away} ms after it was queued; when a worker took it and was through nobody knows{kind}",
            details,
        )

    def worker(self, number: int) -> str:
        """Which worker; in a recording of which the pool has more of them than the program's, since libuv passes by slow work, that isn't known."""
        return "a worker" if self.notes.names and self.walk.pool.workers == MANY_WORKERS else f"worker {number}"

    def waited(self, wait: Wait) -> str:
        step, worker = wait.taken_by()
        state = self.walk.state(wait.asked)
        before = self.before(state.lists["waiting"])
        away = self.walk.happened(step) - self.walk.happened(wait.asked)
        had = self.walk.pool.names_between(wait.asked, step) if away and self.walk.pool.full_between(wait.asked, step) else []
        asked = self.asked_for(had)
        behind = (f": the workers had {times(len(had), 'request') if asked else few(had)}{asked}" if had else "") + (
            f", behind {few(before)}" if before and not asked else ""
        )
        if away > 1 and self.notes.kind(self.name) in SLOW:
            behind += f" ({HALF})"
        took = f"{self.worker(worker)} took it at step {step}"
        if step in self.notes.guessed:
            return f"waited for a worker from step {wait.asked} on{behind}; when one took it nobody knows"
        if least := at_least(self.notes, wait.asked):
            return f"waited for a worker {least}{away} ms, to step {step}{behind}; {took}"
        return f"waited for a worker from step {wait.asked} to {step}, {away} ms{behind}; {took}"

    def ran(self, wait: Wait) -> str:
        step, worker = wait.taken_by()
        function = self.notes.function("work", self.name, wait.call)
        called = f", {function}," if function else ""
        if step in self.notes.guessed:
            return f"it was through at step {wait.finished}"
        ran = self.walk.happened(wait.through()) - self.walk.happened(step)
        known = self.notes.processor.get(("work", self.name, wait.call), -1)
        spent = self.notes.spent.get(("work", self.name, wait.call))
        # (of what libuv itself does in a worker it is plain what it waits for)
        is_program = self.notes.kind(self.name) in ("", "work")
        did = spent.told(ran, known) if spent and ran >= DIFFERENCE and is_program else ""
        return f"{self.worker(worker)} ran it{called} from step {step} to {wait.finished}, {ran} ms{processor_told(known, ran)}{did}"

    def handed(self, wait: Wait) -> str:
        before = self.before(self.walk.state(wait.through()).lists["done"])
        behind = f", behind {few(before)}" if before else ""
        begun = self.walk.last_line(("done",), wait.end())
        return f"the turn of the after callbacks came at step {begun}{behind}"

    def overtaken(self, wait: Wait) -> list[str]:
        """The requests that were queued behind this one and stood in front of it as it was done."""
        before = self.before(self.walk.state(wait.through()).lists["done"])
        first = self.walk.state(wait.asked)
        return [it for it in before if (slot := first.slot_of(it)) is None or slot.kind != "work"]

    def request_so_far(self, wait: Wait) -> list[str]:
        if wait.cancelled:
            return [f"cancelled at step {wait.cancelled} {self.walk.by(wait.cancelled)}"]
        if not wait.taken:
            return []
        return [self.waited(wait), self.ran(wait) if wait.finished else f"worker {wait.taken[1]} runs it since step {wait.taken[0]}"]
