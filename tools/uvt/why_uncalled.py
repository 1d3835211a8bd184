"""Why a callback never came, or an op was refused."""

from __future__ import annotations

from uvt.causes import few, steps_of
from uvt.places import Place
from uvt.state import State
from uvt.waits import Refusal, Wait
from uvt.why_work import Work

KINDS = {
    "timer": "a timer",
    "idle": "an idle handle",
    "prepare": "a prepare handle",
    "check": "a check handle",
    "async": "an async handle",
    "io": "a handle of I/O",
    "work": "a request",
}
SECTIONS = {"work": "done", "close": "closing", "async": "async", "timer": "timers"}


class Uncalled(Work):
    """The waits that no call ended, and what was refused."""

    def not_called(self, wait: Wait) -> list[str]:
        if wait.how == "open":
            return self.still_open(wait)
        step = wait.end()
        head = f"step {step}: {self.no_call(wait)}: {wait.how} {self.walk.by(step)}"
        details = []
        if wait.what == "async":
            details.append(
                f"{'the send' if not wait.more else 'the sends'} at {steps_of([wait.asked, *wait.more])} "
                + ("is lost" if not wait.more else "are lost")
            )
            details += self.unwoken(wait)
        if wait.due is not None:
            state = self.walk.state(step - 1)
            aside = " and set aside to be called" if self.name in state.lists["ready"] else ""
            clock = state.numbers["clock"]
            due = f"it was due{aside}" if aside or wait.due <= clock else "not due yet"
            details.append(f"{due}: due at {wait.due} ms, {wait.how} at {clock} ms")
        return [head, *(f"    {it}" for it in [*details, *self.ends_between(wait), self.asked(wait)])]

    def still_open(self, wait: Wait) -> list[str]:
        state = self.walk.state(self.end)
        details = [] if wait.what != "work" else self.request_so_far(wait)
        if wait.due is not None:
            details.append(f"due at {wait.due} ms, and the session ends at {state.numbers['clock']} ms")
            details += self.polls(wait)
        if wait.more:
            details.append(f"asked for again at {steps_of(wait.more)}")
        if wait.what in ("async", "work"):
            details += self.unwoken(wait)
        if wait.what == "io" and (alive := self.keeps_alive("its start")):
            details.append(alive)
        ends = self.ends_between(wait)
        if ends and self.reason(wait) == "the run ended":
            ends.pop()
        head = f"the end, at {self.end}: {self.no_call(wait)}: {self.where_it_ends(wait, state)}"
        return [head, *(f"    {it}" for it in [*details, *ends, self.asked(wait)])]

    def reason(self, wait: Wait) -> str:
        """Why it isn't called up to the session's end, in a few words."""
        place = self.walk.place(self.end)
        if wait.what == "work" and not wait.finished and not wait.cancelled:
            return "it runs" if wait.taken else "it waits"
        if place.mode is None:
            last = self.walk.last_line(("end",), self.end)
            return "the run ended" if last and last > wait.asked else "no run"
        if self.walk.after == "blocked":
            return "blocked"
        if place.callback:
            return "a callback"
        if wait.due is not None and wait.due > self.walk.clock(self.end):
            return "not due"
        return "a section"

    def where_it_ends(self, wait: Wait, state: State) -> str:
        """The same in a sentence."""
        place = self.walk.place(self.end)
        match self.reason(wait):
            case "it runs":
                return "nobody has finished it"
            case "it waits":
                return self.who_works(state)
            case "the run ended":
                last = self.walk.last_one(("end",), self.end)
                return f"the run ended at step {last}: {self.why_ended(last)}"
            case "no run":
                return "no run began behind it" if self.walk.last_line(("run",), self.end) else "no run began, and only a run calls"
            case "blocked":
                until = place.where.removeprefix("poll ")
                how = "without end" if until == "infinite" else f"until {until} ms"
                return f"the loop waits in the poll, since step {self.walk.last_line(('poll',), self.end)} and {how}, and the session ends"
            case "a callback" if place.callback:
                return f"the session ends in the callback of {place.callback[1]}, and the loop calls one at a time"
            case "not due":
                return "it isn't due yet, and the session ends"
        if wait.what == "io":
            return f"nothing came for it, and the session ends (the loop is at {place.turn()})"
        turn = Place(0, where=SECTIONS.get(wait.what, wait.what)).turn()
        return f"the session ends before the loop comes to it, among {turn} (it is at {place.turn()})"

    def who_works(self, state: State) -> str:
        before = self.before(state.lists["waiting"])
        running = [it.partition(":") for it in state.lists["running"]]
        work = few([f"{name} (worker {worker})" for worker, _, name in running]) if running else ""
        behind = f"it waits behind {few(before)}" if before else "it is the next that a worker takes"
        return f"{behind}; the workers run {work}" if running else f"{behind}; no worker has one"

    def refused(self, it: Refusal) -> list[str]:
        return [f"step {it.step}: `{it.op}` returns {it.code}: {self.why_refused(it)}", f"    {self.walk.by(it.step)}"]

    def why_refused(self, it: Refusal) -> str:
        state = self.walk.state(it.step - 1)
        slot = state.slot_of(self.name)
        match it.code:
            case "ESTALE":
                return self.why_stale(it, state)
            case "EINVAL":
                closed = [at.asked for at in self.history.waits if at.what == "close" and at.asked < it.step]
                if slot and slot.values.get("closing") == "1":
                    return f"it closes, since step {closed[-1]}, {self.walk.by(closed[-1])}"
                return "it was never started"
            case "EKIND" if slot:
                return f"{self.name} is {KINDS[slot.kind]}"
            case "EBOUND" if slot:
                made = [at for at, _, _ in self.history.made if at < it.step]
                return f"{self.name} has {KINDS[slot.kind]} still, since step {made[-1]}"
            case "EFULL":
                return "no slot is free"
        return self.why_busy(it, slot.outcome if slot else "")

    def why_stale(self, it: Refusal, state: State) -> str:
        id = state.bound[self.name]
        if id is None:
            return f"no step had made {self.name} yet"
        gone = self.gone(it.step)
        close = [at for at in self.history.waits if at.what == "close" and at.id == id]
        by = f"; it was closed at step {close[-1].asked}, {self.walk.by(close[-1].asked)}" if close else ""
        number = id.split(".")[0]
        other = next((at for at in state.slots if at.name and at.id.split(".")[0] == number), None)
        holds = f"; its slot has {other.name} now ({other.id})" if other else ""
        return f"it is gone, since step {gone}{by}{holds}"

    def gone(self, step: int) -> int:
        """The last step before this one at which the name's handle or request went."""
        found = [*self.walk.steps_between("closed", 1, step - 1), *self.walk.steps_between("after", 1, step - 1)]
        return max(at for at in found if self.walk.line(at).split(" ")[1] == self.name)

    def why_busy(self, it: Refusal, outcome: str) -> str:
        wait = next(at for at in reversed(self.history.waits) if at.what == "work" and at.asked < it.step)
        if outcome.startswith("running"):
            return f"too late: worker {wait.taken_by()[1]} took it at step {wait.taken_by()[0]}"
        if outcome == "cancelled":
            return f"it is cancelled already, since step {wait.cancelled}"
        return f"it is done already, since step {wait.finished}"

    def never_asked(self) -> list[str]:
        """Why nothing asked for a callback of the handle."""
        kind = self.history.kind()
        if kind is None:
            return [] if self.history.refusals else [f"never called: up to the end, at {self.end}, no step makes it"]
        if kind == "work" or any(it.what not in ("close", "work") for it in self.history.waits):
            return []
        word = "send" if kind == "async" else "start"
        refused = [it for it in self.history.refusals if it.op.startswith(word + " ")]
        alive = [f"    {it}" for it in [self.keeps_alive("its init")] if it]
        if refused:
            return [f"never called: `{refused[-1].op}` at step {refused[-1].step} was refused, with {refused[-1].code}", *alive]
        return [f"never called: up to the end, at {self.end}, nobody {word}s {'to ' if kind == 'async' else ''}it", *alive]
