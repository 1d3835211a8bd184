"""A session that is stepped once more, by a program of its own: the line of each step, and the state at any length."""

from __future__ import annotations

import array
import bisect
import functools
import re
from collections.abc import Iterable, Sequence
from dataclasses import dataclass
from typing import Any, Callable, Iterator

from uvt.conversation import Conversation, Fault, Script
from uvt.places import Place, next_line, read_place
from uvt.pool import Pool
from uvt.session_lines import LISTS, SECTIONS, Lines, OfName, StepLines, looked_at, parts
from uvt.state import State
from uvt.took import POLL, WORDS, Took
from uvt.unblocked import Unblocked

# The commands that do a step beside `loop`. A step `io` is from outside, and is the callback itself; all that its body does is the loop's.
OUTSIDE = ("take", "finish", "cancel", "send", "tick", "io")
ANY = re.compile(rb"(\d+) (.*)\n")
# So many lines of states are kept, and so many are asked for without waiting.
MANY_LINES = 1_000_000
AT_ONCE = 200
# How the lines begin behind which a request may be done, or an async handle sent to.
WAKES = ("send ", "out send ", "cancel ", "out cancel ", "out finish ")


@dataclass
class LeftByIo:
    """A poll that a callback of I/O left."""

    # the step that began it, and that of the callback
    poll: int
    call: int
    # whether a request was done by then, or an async handle was sent to
    woken: bool


class Walk(StepLines):
    """The steps of a session, from 1, with their lines. A length is how many steps stand."""

    def __init__(self, script: Script, steps: list[str], program: list[str] | None = None, tell: Callable[[int, int], None] | None = None) -> None:
        """The steps are those of a recording, or single steps of a script, of which the program may refuse some. These don't count.
        `tell` is told how many of them are done, and of how many."""
        self.script = script
        self.notes = script.notes
        self.talk = Conversation(script, program)
        self.steps: list[str] = []
        self.states: dict[int, State] = {}
        self.known_times: dict[int, tuple[int, int]] = {}
        self.kept_lines = 0
        try:
            self.go_through(steps, tell)
        except BaseException:
            self.talk.stop()
            raise

    def go_through(self, steps: list[str], tell: Callable[[int, int], None] | None) -> None:
        self.talk.do_all(steps, lambda done: tell(done, len(steps)) if tell else None)
        self.steps = steps
        if self.talk.length < len(steps):
            self.talk.ask(f"back {self.talk.length}")
            self.steps = list(self.taken(steps))
        self.length = len(self.steps)
        # the lines of the steps, each behind its step; a step has none where the program prints none, and there is no step 0
        self.walked = self.talk.walk()
        self.known = Lines()
        super().__init__(*looked_at(self.walked, self.known))
        self.after = self.ask_after()
        self.go_by_clock()
        self.look_through()

    def taken(self, steps: list[str]) -> Iterator[str]:
        """Does the steps one by one, and gives those that were not refused."""
        before = 0
        for step, answer in zip(steps, self.talk.ask_each(steps)):
            if self.talk.length > before:
                yield step
            elif self.script.is_recorded():
                raise Fault(f"step {before + 1} of the recording is `{step}`, and the program answers `{answer[-1]}`")
            before = self.talk.length

    def lines_between(self, first: int, last: int) -> list[str]:
        """The lines from one step to another, but those of sections."""
        return self.told[bisect.bisect_left(self.told_at, first) : bisect.bisect_right(self.told_at, last)]

    @functools.cached_property
    def lines(self) -> list[str]:
        """The line of each step, those of sections too."""
        found = [""] * (self.length + 1)
        for step, line in ANY.findall(self.walked):
            found[int(step)] = self.known[line]
        return found

    def steps_of(self, word: str) -> Sequence[int]:
        """The steps whose line begins with this word."""
        if word in SECTIONS and word not in self.words:
            of_section = re.compile(rb"^(\d+) %b$" % word.encode(), re.M)
            self.words[word] = array.array("i", (int(it) for part in parts(self.walked) for it in of_section.findall(part)))
        return self.words.get(word, ())

    def ask_after(self) -> str:
        """Why the loop can't go on behind the last step: `blocked` or `ended`; empty where it can."""
        answer = self.talk.ask("loop")
        if answer and answer[-1].startswith("refused "):
            return answer[-1].removeprefix("refused ")
        self.talk.ask("back 1")
        return ""

    def state(self, length: int) -> State:
        """The state where so many steps stand."""
        if length not in self.states:
            state = self.talk.state_at(length)
            self.kept_lines += len(state.lines)
            if self.kept_lines > MANY_LINES:
                self.states.clear()
                self.kept_lines = len(state.lines)
            self.states[length] = state
        return self.states[length]

    def states_at(self, lengths: list[int]) -> Iterator[tuple[int, State]]:
        """The same of many, which have to be in order: asked without waiting for each."""
        for at in range(0, len(lengths), AT_ONCE):
            yield from zip(lengths[at : at + AT_ONCE], self.talk.states_at(lengths[at : at + AT_ONCE]))

    def times(self, length: int) -> tuple[int, int]:
        """The loop's time and the clock where so many steps stand."""
        if length not in self.known_times:
            numbers = self.state(length).numbers
            self.known_times[length] = numbers["now"], numbers["clock"]
        return self.known_times[length]

    def ask_times(self, lengths: Iterable[int]) -> None:
        """The same of many, asked without waiting for each."""
        asked = sorted(it for it in lengths if it not in self.known_times)
        self.known_times.update(zip(asked, self.talk.times_at(asked)))

    def go_by_clock(self) -> None:
        """The clock at each length, and the steps at which it goes on: a line `out tick MS` says that it does."""
        clock = self.state(0).numbers["clock"]
        self.clocks = array.array("q")
        self.ticks: list[int] = []
        self.tick_ends: list[int] = []
        for step in self.steps_of("out"):
            line = self.line(step)
            if line.startswith("out tick ") and (ms := int(line[9:])):
                self.clocks.extend(array.array("q", [clock]) * (step - len(self.clocks)))
                clock += ms
                self.ticks.append(step)
                self.tick_ends.append(clock)
        self.clocks.extend(array.array("q", [clock]) * (self.length + 1 - len(self.clocks)))

    def clock(self, length: int) -> int:
        return self.clocks[length]

    def happened(self, step: int) -> int:
        """The clock where a take, a finish or a queueing happened, by the notes where these know better than the step."""
        return self.notes.times.get(step, self.clocks[step])

    def place(self, length: int) -> Place:
        return read_place(self.state(length).place)

    # ---- the lines, looked through once

    def look_through(self) -> None:
        """Which callback each step is in, where each tick is, and at which steps a line begins with a word."""
        # the steps that begin a callback, and those with which the loop goes on behind it
        self.called, self.called_until = self.calls.steps, array.array("i")
        # by that step: the last op, where there is one
        self.last_op: dict[int, int] = {}
        # the callbacks of I/O that left a poll, each with the step that began that; and the step that left each poll
        self.leaving: dict[int, int] = {}
        self.left_by_step: dict[int, int] = {}
        self.tooks: list[Took] = []
        self.took_at: dict[int, Took] = {}
        first, poll, runs, before = 0, 0, False, 0
        for step, line, word in zip(self.told_at, self.told, map(self.word_of.__getitem__, self.told)):
            if step > before + 1 and (first or poll):
                # (between two such lines the loop goes on, to a section or to a step without a line)
                if poll:
                    self.left_by_step[poll] = before + 1
                else:
                    self.called_until.append(before + 1)
                first = poll = 0
            before = step
            if word in LISTS:
                if poll:
                    self.leaving[step], self.left_by_step[poll] = poll, step
                elif first:
                    self.called_until.append(step)
                first, poll = step, 0
            elif word == "out":
                if self.clocks[step] > self.clocks[step - 1]:
                    self.note_tick(step, first, poll, runs)
            elif " = " in line:
                self.last_op[first] = step
            else:
                if poll:
                    self.left_by_step[poll] = step
                elif first:
                    self.called_until.append(step)
                first, poll, runs = 0, step if word == "poll" else 0, word != "end" and (runs or word == "run")
        if poll and self.length > before:
            self.left_by_step[poll] = before + 1
        if first:
            self.called_until.append(before + 1)
        if first and self.length == before and self.place(self.length).callback:
            self.last_op[first] = self.length
        for took in self.tooks:
            took.last = max(took.last, self.last_op.get(took.first, 0))

    def last_of(self, call: int) -> int:
        """The last op of the callback that begins at this step, or that step."""
        return self.last_op.get(call, call)

    def inside(self, step: int) -> int:
        """The step that begins the callback in which a step is done, or behind whose last op it comes; 0 where there is none."""
        at = bisect.bisect_right(self.called, step) - 1
        return self.called[at] if at >= 0 and step < self.called_until[at] else 0

    def note_tick(self, step: int, first: int, poll: int, runs: bool) -> None:
        if first and step in self.notes.outside:
            new = Took("the loop, between two callbacks", step, step)
        elif first:
            kind, name, call = self.calls[first]
            function, node = self.notes.function(kind, name, call), self.notes.in_node(name, kind, call)
            processor = self.notes.processor.get((kind, name, call), -1)
            spent = self.notes.spent.get((kind, name, call))
            new = Took(f"{WORDS[kind]} of {name}", first, step, function=function, node=node, processor=processor, spent=spent)
        elif not runs:
            new = Took("the main program", step, step)
        elif poll:
            new = Took(POLL, poll, step)
        else:
            place = self.place(step - 1)
            # (of a real program nobody knows when its run began, only when that looked at the clock first)
            before = place.where == "entry" and self.notes.names
            new = Took("the program, before its run looked at the clock" if before else f"the loop, at {place.turn()}", step, step)
        if not self.tooks or (self.tooks[-1].what, self.tooks[-1].first) != (new.what, new.first):
            self.tooks.append(new)
        took = self.took_at[step] = self.tooks[-1]
        took.last = step
        took.pieces.append((self.clocks[step - 1], self.clocks[step]))

    def line_done(self, step: int) -> int | None:
        """The number, from 0, of the script's line that this step did. None where it did none of them."""
        return next_line(self.script, self.place(step - 1)) if self.steps[step - 1] == "loop" else None

    def by(self, step: int) -> str:
        """Who did this step, in words."""
        at = self.line_done(step)
        if at is None:
            other = self.notes.by.get(step)
            return "by the loop" if self.steps[step - 1] == "loop" else f"by {other}" if other else "from outside"
        line = f"line {at + self.script.first}: {self.script.lines[at]}"
        function = self.notes.foreign.get(at + self.script.first)
        if function:
            return f"by ANOTHER THREAD, with {function}, while the loop ran; in the recording it stands in {line}"
        inside = self.calls.get(self.inside(step))
        told = self.notes.function(*inside) if inside else ""
        if place := self.notes.place(step):
            # (a place says its function: that of the callback is told where it is another one)
            return f"by {line}, {place}" + (f", in the callback {told}" if told and told.split(" ")[0] not in place.split(" ") else "")
        return f"by {line}" + (f", in {told}" if told else "")

    def last_line(self, words: tuple[str, ...], length: int) -> int | None:
        """The last step, of so many, whose line begins with one of these words."""
        found = [rows[at - 1] for it in words if (rows := self.steps_of(it)) and (at := bisect.bisect_right(rows, length))]
        return max(found, default=None)

    def last_one(self, words: tuple[str, ...], length: int) -> int:
        """The same, where there is one."""
        found = self.last_line(words, length)
        assert found is not None
        return found

    def next_line(self, word: str, step: int) -> int:
        """The next step behind this one whose line begins with this word, or the one behind the last of all."""
        rows = self.steps_of(word)
        at = bisect.bisect_right(rows, step)
        return rows[at] if at < len(rows) else self.length + 1

    def left_at(self, poll: int) -> int:
        """The step that left the poll which began at this one: the loop's, or a callback of I/O."""
        return self.left_by_step.get(poll, self.length)

    def left(self, poll: int) -> int:
        """The clock where the poll that began at this step was left."""
        return self.clocks[self.left_at(poll)]

    @functools.cached_property
    def took_of(self) -> dict[int, Took]:
        """Where the clock went on in a callback, by the step that begins that."""
        return {it.first: it for it in self.tooks if it.is_callback()}

    @functools.cached_property
    def left_by_io(self) -> list[LeftByIo]:
        """The polls that callbacks of I/O left, in order. Where the lines show nobody who waits for one, nobody had woken it; else the state
        says it."""
        found = [LeftByIo(poll, step, False) for step, poll in self.leaving.items()]
        asked = [it for it, waits in zip(found, self.someone_waits([it.call for it in found])) if waits]
        for it, (_, state) in zip(asked, self.states_at([it.call for it in asked])):
            it.woken = " polled woken" in state.place
        return found

    def someone_waits(self, steps: list[int]) -> Iterator[bool]:
        """At each of these steps, in order: may there be somebody who was sent to, or a request that is done, and wasn't called yet?"""
        waiting: set[str] = set()
        at = 0
        for step in steps:
            end = bisect.bisect_left(self.told_at, step)
            for line in self.told[at:end]:
                if line.startswith(WAKES):
                    words = line.split(" ")
                    waiting.add(words[3] if words[1] == "finish" else words[2] if words[0] == "out" else words[1])
                elif waiting and line.startswith(("call ", "after ", "close ")):
                    waiting.discard(line.split(" ", 2)[1])
            at = end
            yield bool(waiting)

    @functools.cached_property
    def of_name(self) -> dict[str, OfName]:
        """Of each name the steps whose line has it, with that line's words."""
        names = set(self.script.names())
        found: dict[str, OfName] = {}
        known: dict[str, tuple[str, list[str]] | None] = {}
        for step, line in zip(self.told_at, self.told):
            if line not in known:
                words = line.split(" ")
                name = next((it for it in words[1:4] if it in names), None)
                known[line] = (name, words) if name else None
            if row := known[line]:
                if row[0] not in found:
                    found[row[0]] = OfName()
                found[row[0]].add(step, row[1])
        return found

    @functools.cached_property
    def pool(self) -> Pool:
        return Pool(self)

    @functools.cached_property
    def unblocked(self) -> Unblocked:
        return Unblocked(self)

    def steps_between(self, word: str, first: int, last: int) -> Sequence[int]:
        """The steps from one to another whose line begins with this word."""
        rows = self.steps_of(word)
        return rows[bisect.bisect_left(rows, first) : bisect.bisect_right(rows, last)]

    # ---- where the clock went on

    def causes(self, begin: int, end: int) -> list[Took]:
        """Where the clock went on between these two times, and all that it went on there."""
        found: list[Took] = []
        for at in range(bisect.bisect_right(self.tick_ends, begin), len(self.ticks)):
            step = self.ticks[at]
            if self.clocks[step - 1] >= end:
                break
            if not found or found[-1] is not self.took_at[step]:
                found.append(self.took_at[step])
        return found

    def close(self) -> None:
        self.talk.close()

    def __enter__(self) -> Walk:
        return self

    def __exit__(self, *fault: Any) -> None:
        self.talk.__exit__(*fault)
