"""Who asked for a callback of a name, and which runs ended meanwhile: what each answer of `why` begins with."""

from __future__ import annotations

from uvt.arrivals import unwoken_between
from uvt.beginnings import asked_before
from uvt.causes import few
from uvt.javascript_pieces import at
from uvt.origins import Origins
from uvt.waits import History, Wait, follow, kind_of_call
from uvt.walk import LeftByIo, Walk

CALLS = {"call": "call", "after": "after callback", "closed": "close callback"}
ASKED = {"timer": "started", "async": "sent to", "work": "queued", "close": "closed"}
# A timer that was started so much before its due time was reckoned is told.
TOO_EARLY = 3


class Asked:
    """What is known of each wait of a name."""

    def __init__(self, walk: Walk, name: str, history: History | None = None) -> None:
        self.walk = walk
        self.name = name
        self.history = history or follow(walk, [name])[name]
        self.end = walk.length
        self.notes = walk.notes

    def begun_by(self, wait: Wait) -> int:
        """The step that began the callback in which it was asked for; 0 where it was in none."""
        return self.walk.inside(wait.asked)

    def is_again(self, wait: Wait) -> bool:
        """Whether a call asked for the next one: of a timer that repeats, of a watcher or a handle of I/O, which stays active."""
        return self.walk.line(wait.asked).startswith("call ")

    def is_late(self, wait: Wait, allowed: int = 0) -> bool:
        return wait.due is not None and self.walk.clock(wait.end()) > wait.when() + allowed

    def asked(self, wait: Wait) -> str:
        """Who asked for it, and when. (What nobody saw come is put where it needs to be.)"""
        if wait.what == "async" and wait.asked in self.notes.guessed:
            return f"in the recording that is the send at step {wait.asked}"
        if self.walk.line(wait.asked).startswith("call "):
            how = "it repeats, and was started again" if wait.what == "timer" else "it stayed active"
            return f"{how} by the call at step {wait.asked}"
        if before := asked_before(self.notes, wait.asked, ASKED.get(wait.what, "started")):
            return before
        at = self.loops_time(wait) if wait.what == "timer" else ""
        return f"{ASKED.get(wait.what, 'started')} at step {wait.asked}{at} {self.walk.by(wait.asked)}"

    def loops_time(self, wait: Wait) -> str:
        """The loop's time as a timer was started."""
        numbers = self.walk.state(wait.asked).numbers
        now, clock = numbers["now"], numbers["clock"]
        if begun := self.begun_late(wait):
            soon = f"so it is due {begun - now} ms too soon, reckoned from its start"
            return f", when the loop's time was {now} ms and the clock at {begun} ms ({soon})"
        already = f" (the clock was at {clock} ms already)" if now != clock else ""
        return f", when the loop's time was {now} ms{already or self.stood_still(wait, clock)},"

    def stood_still(self, wait: Wait, clock: int) -> str:
        """Of a timer that a callback started which took long: nobody knows when in it, and the loop's time doesn't go on in it."""
        causes = self.walk.causes(clock, self.walk.clock(wait.ended or wait.asked))
        inside = [it for it in causes if it.is_callback() and it.first <= wait.asked <= it.last]
        took = inside[0].took() if inside and self.notes.names else 0
        if took < TOO_EARLY or self.walk.lines[wait.asked].startswith("call "):
            return ""
        return f" (and stood still through that callback, which took {took} ms: so it is due up to {took} ms too early, reckoned from its start)"

    def by_javascript(self, wait: Wait) -> list[str]:
        """Which line of JavaScript asked for a request."""
        place = self.notes.javascript.asked.get((self.name, wait.call)) if wait.what == "work" else None
        return [f"asked for {at(place)}{Origins(self.walk).behind((self.name, wait.call))}"] if place else []

    def asked_for(self, names: list[str]) -> str:
        """Which lines of JavaScript asked for these requests."""
        places = dict.fromkeys(place for (name, _), place in self.notes.javascript.asked.items() if name in names)
        return f", asked for {few([at(it) for it in places])}" if places else ""

    def begun_late(self, wait: Wait) -> int | None:
        """The clock as a timer was started, where the loop's time was an earlier one and that is known."""
        if wait.asked not in self.notes.times:
            return None
        begun = self.walk.happened(wait.asked)
        return begun if begun > self.loop_time(wait) else None

    def loop_time(self, wait: Wait) -> int:
        """The loop's time as a timer was started: it is due so many ms behind that as the line of its start says."""
        words = self.walk.line(wait.asked).split(" ")
        if words[0] == "start" and wait.due is not None:
            return wait.due - int(words[2])
        return self.walk.state(wait.asked).numbers["now"]

    def is_before_due(self, step: int, due: int) -> bool:
        """Was a timer not due there, by the loop's time? (That isn't ahead of the clock.)"""
        return self.walk.clock(step) < due or self.walk.state(step).numbers["now"] < due

    def unwoken(self, wait: Wait) -> list[str]:
        """The polls behind which its callback would have come, if somebody had woken them."""
        section, first = ("done", wait.finished or wait.cancelled) if wait.what == "work" else ("async", wait.asked)
        found = unwoken_between(self.walk, first, wait.ended or self.end + 1, section) if first else []
        return [self.left_unwoken(it, section) for it in found]

    def left_unwoken(self, it: LeftByIo, section: str) -> str:
        name = self.walk.calls[it.call][1]
        return (
            f"the callback of {name} left the poll of step {it.poll} at step {it.call}, and nobody had woken it by then:"
            f" so {'no after callback' if section == 'done' else 'no async handle'} was called behind it"
        )

    def before(self, names: list[str]) -> list[str]:
        return names[: names.index(self.name)] if self.name in names else []

    def ends_between(self, wait: Wait) -> list[str]:
        """The runs that ended while it was asked for, each with its reason."""
        return [self.run_end(at) for at in self.walk.steps_between("end", wait.asked + 1, (wait.ended or self.end + 1) - 1)]

    def run_end(self, step: int) -> str:
        return f"meanwhile the run ended at step {step}: {self.why_ended(step)}"

    def ended_by(self, step: int) -> str:
        """Why a run ended: the stop flag, nothing that keeps the loop alive, or a mode of one iteration."""
        state = self.walk.state(step - 1)
        if state.numbers["stop"] == 1:
            return "stop"
        if self.walk.line(step) != "end 0":
            return "mode"
        slot = state.slot_of(self.name)
        return "unreferenced" if slot and slot.values.get("active") == "1" and slot.values.get("ref") == "0" else "not alive"

    def why_ended(self, step: int) -> str:
        """The same in a sentence."""
        match self.ended_by(step):
            case "stop":
                stop = self.walk.last_one(("stoploop",), step - 1)
                return f"it was asked to stop at step {stop} {self.walk.by(stop)}"
            case "mode":
                return f"a run `{self.walk.place(step - 1).mode}` has one iteration"
            case "unreferenced":
                unref = max(at for at, op in self.history.refs if at < step and op == "unref")
                return f"nothing kept the loop alive, for {self.name} is unreferenced since step {unref}, {self.walk.by(unref)}"
        return "nothing kept the loop alive"

    def no_call(self, wait: Wait) -> str:
        further = kind_of_call(wait.what) in self.history.counts and self.history.first_call[kind_of_call(wait.what)] <= wait.asked
        return f"no {'further ' if further else ''}{CALLS[kind_of_call(wait.what)]}"

    def keeps_alive(self, since: str) -> str:
        """That it keeps the loop alive where the session ends, from its init or its start on."""
        slot = self.walk.state(self.end).slot_of(self.name)
        place = self.walk.place(self.end)
        if not slot or slot.values.get("active") != "1" or slot.values.get("ref") != "1" or place.mode is None:
            return ""
        waits = f", and the poll waits since step {self.walk.last_line(('poll',), self.end)}" if self.walk.after == "blocked" else ""
        return f"it keeps the loop alive: it is active from {since} on, and referenced{waits}"
