"""Why a callback that came was late: of timers, watchers, async handles, handles of I/O, and closes."""

from __future__ import annotations

from uvt import machine
from uvt.arrivals import BEHIND, Came, LEFT, behind, called_between, came, left_by, waited
from uvt.causes import MANY, few, in_javascript, is_told, longest_of, named, sentence, steps_of, told
from uvt.notes import times
from uvt.places import read_place
from uvt.waits import Wait
from uvt.took import DIFFERENCE, Took
from uvt.why_asked import Asked, TOO_EARLY

# How many sentences that say the same of others.
FEW = 3
# Why a poll doesn't wait, of one and of several.
WERE = {"idle": ("was an active idle handle", "were active idle handles"), "closing": ("was closing", "were closing")}


class Called(Asked):
    """The waits that ended with a call."""

    def delay(self, begin: int, end: int) -> str:
        """Where the clock went on between two times of it."""
        found, causes = [], self.walk.causes(begin, end)
        causes = [it for it in causes if is_told(it, begin, end)] or causes
        shown, rest = longest_of(causes, begin, end)
        for took in shown:
            if took.is_poll() and begin < end:
                found.append(self.in_poll(took, begin, end, shown))
            else:
                found.append(sentence(self.walk, took, begin, end))
        return "; ".join(found + rest)

    def in_poll(self, took: Took, begin: int, end: int, told_already: list[Took]) -> str:
        """A poll waits as long as it is asked to, reckoned from the loop's time. Where the clock was farther then, who made it so is why it
        ends so much later."""
        state = self.walk.state(took.first)
        now, clock = state.numbers["now"], state.numbers["clock"]
        where = read_place(state.place).where.removeprefix("poll ")
        until = int(where) if where.isdecimal() else -1
        left = took.pieces[-1][1]
        if until < 0 or left <= until or begin < until:
            return told(took)
        if left - until <= 1 and self.notes.names:
            return f"the poll {machine.ended(self.walk, until, left)}, {steps_of([took.first])}"
        before = [it for it in self.walk.causes(now, clock) if it.first < took.first]
        if not before and self.notes.names:
            return f"the poll, from step {took.first} to {took.last}, {machine.ended(self.walk, until, left)}"
        if not before:
            return f"{told(took)}, where it was to end at {until} ms"
        rest = left - until - (clock - now)
        if machine.took_most(self.walk, left, left - until):
            # (what the loop itself lost in front of it is told where it is long)
            lost = f"; it began {clock - now} ms late: {'; '.join(map(told, before))}" if clock - now >= DIFFERENCE else ""
            return f"the poll, from step {took.first} to {took.last}, {machine.ended(self.walk, until + clock - now, left)}{lost}"
        more = machine.more(self.walk, rest, left)
        causes = [f"{told(it)}{in_javascript(self.walk, it, now, clock)}; " for it in before if it not in told_already]
        return (
            f"{''.join(causes)}so the loop's time was {now} ms still as its poll began at {clock} ms,"
            f" at step {took.first}, and it ended at {left} ms in place of {until} ms{more}"
        )

    def timer(self, wait: Wait) -> tuple[str, list[str]]:
        numbers = self.walk.state(wait.end()).numbers
        now, clock = numbers["now"], numbers["clock"]
        details = [f"due at {wait.due} ms, called at {clock} ms" + (f" (the loop's time was {now} ms still)" if now != clock else "")]
        slot = next((it for it in self.walk.state(wait.end()).slots if it.id == wait.id), None)
        repeat = int(slot.values["repeat"]) if slot else 0
        missed = (now - wait.when()) // repeat if repeat else 0
        if slot and missed > 0 and slot.values["active"] == "1":
            lost = [wait.when() + repeat * it for it in range(1, min(missed, MANY) + 1)]
            more = f" and {missed - MANY} more" if missed > MANY else ""
            details.append(f"fell behind: {times(missed, 'repeat')} lost ({', '.join(map(str, lost))}{more} ms), next due at {slot.values['due']} ms")
        details += self.polls(wait)
        return self.lateness(wait), details

    def lateness(self, wait: Wait) -> str:
        """How late a timer was, and why; or that it came too soon, reckoned from its start."""
        clock = self.walk.clock(wait.end())
        if (early := self.too_soon(wait)) > 0:
            return self.came_too_soon(wait, early)
        return f"late by {clock - wait.when()} ms: {self.delay(wait.when(), clock)}" if clock > wait.when() else "on time"

    def too_soon(self, wait: Wait) -> int:
        """By how many ms a timer was called too soon, reckoned from its start: it is due by the loop's time."""
        begun = self.begun_late(wait) if wait.due is not None and wait.how == "called" else None
        if begun is None:
            return 0
        early = begun - self.loop_time(wait) - max(0, self.walk.clock(wait.end()) - wait.when())
        return early if early >= TOO_EARLY else 0

    def came_too_soon(self, wait: Wait, early: int) -> str:
        now, begun, clock = self.loop_time(wait), self.begun_late(wait) or 0, self.walk.clock(wait.end())
        by = "; ".join(self.until_then(it, begun) for it in self.walk.causes(now, begun))
        return (
            f"called {max(0, clock - begun)} ms after its start, {early} ms too soon: it is due by the loop's time,"
            f" which was {now} ms still as it was started at {begun} ms{f': {by}' if by else ''}"
        )

    def until_then(self, took: Took, until: int) -> str:
        """What went by up to the time at which a timer was started, within it or behind it."""
        ms = took.between(took.pieces[0][0], until)
        return f"{named(took).rstrip(',')} had taken {ms} ms by then" if took.is_callback() else f"{ms} ms had gone by in {took.what}"

    def polls(self, wait: Wait) -> list[str]:
        """The polls that didn't wait for a timer that wasn't due, since somebody else was active or closed."""
        rows = []
        for what, spans in self.walk.unblocked.spans.items():
            found: dict[tuple[int, ...], list[str]] = {}
            for name, steps in self.walk.unblocked.polls(spans, wait.asked + 1, wait.ended or self.end):
                if before_due := tuple(it for it in steps if self.is_before_due(it, wait.when())):
                    found.setdefault(before_due, []).append(name)
            if len(found) > FEW:
                all_steps = sorted({it for row in found for it in row})
                all_names = list(dict.fromkeys(it for row in found.values() for it in row))
                rows.append(f"the poll didn't wait, at {steps_of(all_steps)}: each time one or more of {few(all_names)} {WERE[what][1]}")
            else:
                rows += [
                    f"the poll didn't wait, at {steps_of(list(steps))}: {few(names)} {WERE[what][len(names) > 1]}" for steps, names in found.items()
                ]
        return rows

    def watcher(self, wait: Wait) -> tuple[str, list[str]]:
        details = [f"started again meanwhile at {steps_of(wait.more)}, which changed nothing"] if wait.more else []
        if not self.is_again(wait) and self.walk.place(wait.asked).where == wait.what and self.walk.place(wait.asked).mode:
            begun = self.walk.last_line((wait.what,), wait.asked)
            next_one = self.walk.last_line((wait.what,), wait.end())
            return f"an iteration later: it was started in the turn of the {wait.what} handles, which had begun at step {begun}", [
                *details,
                f"their next turn began at step {next_one}",
            ]
        return f"in the turn of the {wait.what} handles that began at step {self.walk.last_line((wait.what,), wait.end())}", details

    def between(self, wait: Wait, first: int) -> str:
        begin, end = self.walk.happened(first), self.walk.clock(wait.end())
        return f"{end - begin} ms later: {self.delay(begin, end)}" if end > begin else "in the same millisecond"

    def something_came(self, wait: Wait) -> str:
        """That it came, or what it was; with the kind that it has in a program."""
        if self.notes.is_io(self.name):
            return f"{self.notes.kind(self.name)}: {self.notes.came(self.name, wait.call) or 'something came'}"
        return "something came" if wait.what == "io" else "somebody sent to it"

    def unseen(self, wait: Wait) -> tuple[str, list[str]]:
        """What nobody saw come: between the loop's last look and the one behind which it is called, or while it waited."""
        what = self.something_came(wait)
        poll = self.walk.last_line(("poll",), wait.end())
        if poll is None:
            return f"{what}, and when nobody knows", []
        waited = [it for it in self.walk.causes(self.walk.clock(poll), self.walk.clock(wait.end())) if it.is_poll() and it.first == poll]
        if waited:
            return f"{what} while the loop waited in the poll, {told(waited[0]).split(' in the poll, ')[0]} there, from step {poll}", []
        head, away = f"{what}, and when nobody knows", self.unseen_for(wait)
        before = self.walk.last_line(("poll",), poll - 1)
        if before is None or away <= 0:
            return head, []
        left = self.walk.left(before)
        return head, [
            f"between the end of the poll before, at {left} ms (step {before}), and the call lie {away} ms:"
            f" {self.delay(left, self.walk.clock(wait.end()))}"
        ]

    def unseen_for(self, wait: Wait) -> int:
        """How long the loop hadn't looked, where it didn't wait for what came: from the end of the poll before to the call, in ms."""
        poll = self.walk.last_line(("poll",), wait.end())
        before = self.walk.last_line(("poll",), poll - 1) if poll else None
        if poll is None or before is None or self.walk.left(poll) > self.walk.clock(poll):
            return 0
        return self.walk.clock(wait.end()) - self.walk.left(before)

    def sent(self, wait: Wait) -> tuple[str, list[str]]:
        sends = [wait.asked, *wait.more]
        if wait.asked in self.notes.guessed and len(sends) == 1:
            return self.unseen(wait)
        unwoken = self.unwoken(wait)
        later = "an iteration later, " if unwoken else ""
        if wait.more:
            return f"{later}{len(sends)} sends, and one call: those at {steps_of(sends)}", [self.between(wait, wait.asked), *unwoken]
        return f"{later}for the send at step {wait.asked}, {self.between(wait, wait.asked)}", unwoken

    def io(self, wait: Wait) -> tuple[str, list[str]]:
        """What came, and what the loop did from the end of its poll on until it was called."""
        it = came(self.walk, wait)
        if it.where == LEFT:
            cause, details = self.unseen(wait)
            return f"it left the poll: {cause}", [*details, *self.of_poll(it)]
        what = self.something_came(wait)
        if it.poll is None:
            return f"{what}, and it was called in `pending`, before any poll", []
        since, away = self.since(wait, it), behind(self.walk, wait)
        where = "" if it.where == BEHIND else ", in `pending`"
        if away:
            return f"{what}{where}, and it was called {away} ms behind {since}: {self.delay(self.walk.clock(it.since), self.walk.clock(it.step))}", []
        others = called_between(self.walk, it.since + (it.since == wait.asked), it.step)
        details = [f"behind the callback{'s' if len(others) > 1 else ''} of {few(others)}"] if others else []
        return f"{what}{where}, and it was called in the same millisecond as {since}", details

    def since(self, wait: Wait, it: Came) -> str:
        """From where on it may have been called, in words."""
        if it.since != wait.asked:
            return f"the end of the poll, at step {it.since}"
        return f"{'its last call' if self.is_again(wait) else 'its start'}, at step {it.since}"

    def of_poll(self, it: Came) -> list[str]:
        """Who waited since nobody had woken the poll that it left."""
        others = waited(self.walk, left_by(self.walk, it.step))
        return [f"nobody had woken that poll, so {few(others)} waited for the next one"] if others else []

    def close(self, wait: Wait) -> tuple[str, list[str]]:
        details = []
        busy = [at for at in self.walk.steps_between("closeloop", wait.asked, wait.end() - 1) if self.walk.line(at) == "closeloop = EBUSY"]
        if busy:
            details.append(f"until then the loop had it: `closeloop` at {steps_of(busy)} returns EBUSY")
        turn = self.walk.last_line(("closing",), wait.end())
        return f"it was closed at step {wait.asked}, and the turn of the close callbacks came at step {turn}", details
