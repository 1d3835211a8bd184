"""From the lines of a loop to a script, and to what the program did, item by item.

What the script says is what the program asked of libuv. Nothing here knows what the loop makes of it.
"""

from __future__ import annotations

import bisect
import functools
from collections.abc import Iterator

from uvt.record.items import Bound, Call, Done, End, Finish, Key, Nothing, Op, Poll, Request, Run, Send, Take, Waited, Written
from uvt.record.events import NO_CLOCK, WATCHERS, Event, When
from uvt.record.ops import Ops
from uvt.record.where import LOOKED, NEW
from uvt.spent import Held

# When a callback ends that is under way still.
ENDLESS = 1 << 60


def numbers(text: str) -> tuple[int, ...]:
    return tuple(map(int, text.split(" ")))


@functools.lru_cache(maxsize=1 << 14)
def begun_by(words: str) -> tuple[str, int, str, str, int]:
    """What a line says with which a callback begins: `on`, `after` or `closed`, the object, what it is called for, what is known of that, and which
    request of a stream it is of, -1 where of none."""
    one, id, *more = words.split(" ")
    request = int(more.pop()[1:]) if more and more[-1].startswith("%") else -1
    return one, int(id), more[0] if more else "", " ".join(more[1:]), request


@functools.lru_cache(maxsize=1 << 14)
def ended_by(words: str) -> tuple[bool, tuple[int, ...]]:
    """The same of its end: was something put off, and what its thread had of the processor."""
    words, _, used = words.partition(" cpu ")
    return words.endswith("+"), numbers(used) if used else ()


class Maker(Ops):
    """Reads the events of a loop one after another."""

    def read_begin(self, words: str, when: When) -> bool:
        callback, id, what, known, number = begun_by(words)
        request = self.under_way.pop(number, None) if number >= 0 else None
        begun = self.begin(when, callback, id, what, known)
        if begun and request and self.call:
            request.done, request.status, request.by = when[1], known, self.here()
        return begun

    def begin(self, when: When, callback: str, id: int, what: str, known: str) -> bool:
        bound = self.bound.get(id)
        if not bound:
            # (its close callback has begun with an earlier one)
            early = self.call is not None and self.call.what == f"early {id}" and self.depth == 1
            self.depth += early and callback == "on"
            return early and callback != "after"
        if (callback == "after") != bound.is_pool:
            return False
        if self.depth:
            self.program.notes["callbacks that came in another one, as part of it"] += 1
            self.depth += 1
            return True
        begins, joined = callback, None
        if bound.closing and callback == "on" and bound.kind in WATCHERS:
            joined = self.joined(bound)
            if not joined:
                callback, what = "closed", f"early {id}"
        self.depth = 2 if what.startswith("early") else 1
        call = self.call = joined or self.begin_call(when, bound, callback, what)
        if call.is_io():
            self.keep_known(call, what, known)
        self.keep_function(id, what if begins == "on" else begins)
        return True

    def keep_known(self, call: Call, what: str, known: str) -> None:
        """What came: several things where one call stands for several callbacks."""
        told = ":".join([what, *known.split(" ")] if known else [what])
        came = self.program.came.setdefault(call.name, {})
        came[call.number] = f"{came[call.number]}+{told}" if call.number in came else told
        call.known = call.known or known

    def keep_function(self, id: int, what: str) -> None:
        """Which function of the program is called there: several where one call stands for several callbacks."""
        if (told := self.function(id, what)) and told not in self.functions:
            self.functions.append(told)

    def function(self, id: int, what: str) -> str:
        """Its name, with its source where that is known; of one without a symbol its file."""
        place = self.callback.get((id, what), -1)
        if place not in self.told_of:
            address = self.log.addresses.get(place)
            self.told_of[place] = self.told(address) if address else ""
        return self.told_of[place]

    def functions_of(self, callback: str, name: str, call: int, told: str) -> None:
        """From this call on that is the function."""
        known = self.program.functions.setdefault((callback, name), [])
        if known and known[-1][0] == call:
            known.pop()
        if told != (known[-1][1] if known else ""):
            known.append((call, told))

    def sender(self, event: Event) -> str:
        """Who sends, in words, as far as that is known: another thread, and where in the program; or another loop of it."""
        at = f", {place}" if (place := self.log.place(event.place)) else ""
        return f"{by}{at}" if (by := self.by_loop(event)) else f"another thread{at}" if at else ""

    def by_loop(self, event: Event) -> str:
        """Which other loop sends: its number, the function of its callback that is under way, and since when that is."""
        words = event.words.split(" ")
        if len(words) < 3 or not (events := self.log.loops.get(int(words[2]))):
            return ""
        loop = int(words[2])
        if loop not in self.others:
            self.others[loop] = [events[it] for it in events.places_of("BE")], {}
            for at in events.places_of("C"):
                id, place, *what = events.said[at].words.split(" ")
                self.others[loop][1].update({(int(id), kind): int(place) for kind in what})
        bounds, places = self.others[loop]
        before = bisect.bisect_left(bounds, event.line, key=lambda it: it.line)
        last = bounds[before - 1] if before else None
        if last is None or last.type == "E":
            return f"loop {loop}"
        callback, id, *what = last.words.split(" ")
        address = self.log.addresses.get(places.get((int(id), what[0] if callback == "on" else callback), -1))
        told = self.told(address) if address else ""
        # (the times of a part of a log count from where that begins: its line has the log's own)
        mine = self.log.loops[self.loop]
        clock = mine.clocks[bisect.bisect_left(mine.lines, event.line)]
        ran = clock + self.log.behind(self.loop) - last.clock - self.log.behind(loop)
        since = f", {ran} ms after that began" if ran > 0 and NO_CLOCK not in (clock, last.clock) and self.log.is_one_clock() else ""
        return f"loop {loop}, in {told or 'a callback'}{since}"

    def joined(self, bound: Bound) -> Call | None:
        """What libuv calls of a watcher that its own callback has closed, in a row with that one, is a part of it."""
        match self.items[-1:]:
            case [Done(call=Call(name=bound.name, callback="on") as call)]:
                self.items.pop()
                return call
        return None

    def begin_call(self, when: When, bound: Bound, callback: str, what: str) -> Call:
        self.functions = []
        bodies = self.program.bodies[callback, bound.name]
        now, clock, line = when
        if self.javascript.begun is None and clock != NO_CLOCK:
            self.javascript.begun = clock
        call = Call(now, clock, line, bound.name, callback, len(bodies) + 1, bound.kind, bound.made, what)
        bodies.append(call.body)
        if bound.kind in WATCHERS and callback == "on":
            call.section = self.where.see_io(what, now)
        elif callback != "closed" and (bound.is_pool or bound.kind == "async"):
            call.section = self.where.see_call(now)
        else:
            self.where.see_other(bound.kind)
        self.items.append(call)
        if self.early:
            self.program.waits[callback, bound.name, call.number] += self.early
            self.early = []
        for op, foreign in self.stray:
            self.keep_op(call, op.text, foreign)
            self.items.append(op)
        self.stray = []
        if callback != "on":
            self.release(bound)
        return call

    def read_end(self, words: str, when: When) -> bool:
        if not self.depth or not self.call:
            return False
        self.depth -= 1
        put_off, used = ended_by(words)
        self.where.see_put_off(put_off)
        if used and self.depth == 0:
            self.see_used((self.call.callback, self.call.name, self.call.number), used)
        # (a close callback that began early goes on with the one that libuv calls last)
        if self.depth == 0:
            now, clock, line = when
            self.items.append(Done(now, clock, line, self.call))
            self.functions_of(self.call.callback, self.call.name, self.call.number, " and ".join(self.functions))
            self.call = None
        return True

    def see_used(self, key: Key, used: tuple[int, ...]) -> None:
        self.program.processor[key] += used[0]
        if more := used[1:]:
            before = self.program.used.get(key)
            self.program.used[key] = tuple(one + other for one, other in zip(before, more)) if before else more

    def read_wait(self, event: Event) -> None:
        function, took, *more = event.words.split(" ")
        work = next((int(it[1:]) for it in more if it.startswith("%")), None)
        owner = next((self.owner(it[1:]) for it in more if it.startswith("^")), "")
        waited = Waited(function, event.clock - int(took), int(took), self.log.waited_at(event.place), owner)
        if work is not None:
            if bound := self.bound.get(work):
                self.program.waits["work", bound.name, len(self.program.bodies["after", bound.name]) + 1].append(waited)
        elif key := self.here():
            self.program.waits[key].append(waited)
        elif function == "alloc":
            self.early.append(waited)

    def owner(self, word: str) -> str:
        """Who had a lock: the work of a request by its name, a thread by its own one or by its place."""
        if not word.startswith("%"):
            return word
        bound = self.bound.get(int(word[1:]))
        return f"%{bound.name}" if bound else ""

    def name_last(self) -> None:
        """The functions of a callback that never ended."""
        if self.depth and self.call:
            self.functions_of(self.call.callback, self.call.name, self.call.number, " and ".join(self.functions))

    def ended(self) -> Iterator[Done]:
        """The ends of callbacks of which all is known."""
        return (it for it in self.items if isinstance(it, Done) and NO_CLOCK not in (it.clock, it.call.clock))

    def called(self) -> list[tuple[int, int]]:
        """When each callback began and ended."""
        found = [(it.call.clock, it.clock) for it in self.ended()]
        if self.depth and self.call and self.call.clock != NO_CLOCK:
            found.append((self.call.clock, ENDLESS))
        return found

    # ---- the rest

    def read(self, event: Event) -> bool:
        """Takes an event. False where no program does that: the log is wrong there."""
        match event.type:
            case "O":
                return self.read_op(event)
            case "R" if not self.depth and not self.runs:
                self.read_run(event)
            case "r":
                if not self.runs or self.depth:
                    return False
                self.runs -= 1
                self.where.see_other()
                self.items.append(End(*event.when(), event.words))
            case "P" | "p":
                self.read_poll(event)
            case "T":
                if bound := self.bound.get(int(event.words)):
                    self.items.append(Take(*event.when(), bound.name))
                    self.functions_of("work", bound.name, len(self.program.bodies["after", bound.name]) + 1, self.function(bound.id, "work"))
            case "F":
                id, _, used = event.words.partition(" cpu ")
                if bound := self.bound.get(int(id)):
                    self.items.append(Finish(*event.when(), bound.name))
                    if used:
                        self.see_used(("work", bound.name, len(self.program.bodies["after", bound.name]) + 1), numbers(used))
            case "D":
                self.read_wait(event)
            case "H":
                late, waited, signalled, *before = map(int, event.words.split(" "))
                self.program.held.append((event.clock, Held(late, waited, bool(signalled), *before)))
            case "Y":
                if (key := self.here()) and (frames := self.log.frames(event.place)):
                    self.program.stacks[key].append((" ".join(frames), event.words))
            case "Z":
                if bound := self.bound.get(int(event.words)):
                    self.program.reaped.append((bound.name, self.log.place(event.place)))
            case "G":
                self.read_request(event)
            case "I":
                if bound := self.bound.get(int(event.words.split(" ")[0])):
                    self.program.nothings.append(Nothing(bound.name, event.words.split(" ")[1], event.place, self.here()))
            case "S":
                if event.clock != NO_CLOCK and (bound := self.bound.get(int(event.words.split(" ")[0]))) and not bound.closing:
                    self.items.append(Send(*event.when(), bound.name, self.sender(event), event.words.split(" ")[1]))
            case "W":
                self.read_foreign(event)
            case "Q":
                if bound := self.bound.get(int(event.words.split(" ")[1])):
                    self.program.again.append((event.line, bound.name))
            case "q":
                self.read_queued(event)
            case "J":
                self.read_javascript(event)
            case "M":
                id, whole, *more = event.words.split(" ")
                if bound := self.bound.get(int(id)):
                    made = self.log.place(self.made_at.get(int(id), ""))
                    over = Written(bound.name, bound.kind, int(whole), event.now, event.line, made, "stack" in more, "made" in more)
                    self.program.written.append(over)
            case "K" | "L":
                pass
            case "C":
                id, place, *what = event.words.split(" ")
                for it in what:
                    self.callback[int(id), it] = int(place)
        return True

    def here(self) -> Key | None:
        """The callback that is under way."""
        return (self.call.callback, self.call.name, self.call.number) if self.call else None

    def read_request(self, event: Event) -> None:
        id, stream, what, bytes = event.words.split(" ")
        if bound := self.bound.get(int(stream)):
            request = self.under_way[int(id)] = Request(bound.name, what, int(bytes), event.clock, event.place, self.here())
            self.program.requests.append(request)

    def read_javascript(self, event: Event) -> None:
        call = self.call
        inside = (call.callback, call.name, call.number) if call else ("main", "-", 0)
        if not event.words.startswith("by "):
            self.javascript.read(event, inside)
        elif bound := self.bound.get(int(event.words.split(" ")[1])):
            self.javascript.read_by(event, bound.name, len(self.program.bodies["after", bound.name]) + 1, inside)
            self.read_queued(event, 1)

    def read_queued(self, event: Event, at: int = 0) -> None:
        """When the request was queued, or the timer started, whose line stands just before."""
        bound, last = self.bound.get(int(event.words.split(" ")[at])), self.items[-1] if self.items else None
        asks = tuple(f"{it} {bound.name} " for it in ("queue", "start", "again")) if bound else ()
        if isinstance(last, Op) and f"{last.text} ".startswith(asks) and last.queued == NO_CLOCK:
            last.queued = event.clock

    def read_run(self, event: Event) -> None:
        mode, _, put_off = event.words.partition(" ")
        self.runs += 1
        self.where.see_run(mode, bool(put_off))
        self.program.main.append(f"run {mode}")
        self.items.append(Run(*event.when(), mode))

    def read_poll(self, event: Event) -> None:
        found = self.where.see_poll(event.type == "p")
        if found != LOOKED:
            self.items.append(Poll(*event.when(), int(event.words) if found == NEW else None))
        elif event.type == "P":
            next(it for it in reversed(self.items) if isinstance(it, Poll)).timeout = int(event.words)

    def read_place(self, event: Event) -> None:
        """Where an object lies, and its first callback: its name is made of these, and they may come behind its first op."""
        id, place, *more = event.words.split(" ")
        if event.type == "C":
            self.first_callback.setdefault(int(id), int(place))
        else:
            self.variable[int(id)] = int(place), int(more[0]) if more else 0
