"""The words of uvt-shell that go on and back, and where they stop."""

from __future__ import annotations

import difflib
from collections.abc import Callable

from uvt.arrivals import what_came
from uvt.codes import CODES, SECTIONS
from uvt.conversation import BAD
from uvt.javascript_pieces import PLACE, fitted
from uvt.places import next_line
from uvt.shell_breaks import Break
from uvt.shell_typed import Typed

# How many steps `continue` asks for at a time: it can be stopped between two of them.
STRIDE = 1000
# How the line of a step begins that begins a callback.
CALLED = ("call ", "after ", "closed ")


class Steps(Typed):
    """The same, with steps and breaks."""

    # ---- on and back

    def on(self, most: int = 1) -> list[str]:
        """The next step, of what was opened while there is one, else the loop's; or so many of the loop's in a row."""
        at = self.talk.length
        step = self.steps[at] if at < len(self.steps) else "loop"
        if step == "loop" and most > 1:
            end = next((it for it in range(at, min(at + most, len(self.steps))) if self.steps[it] != "loop"), at + most)
            step = f"loop {end - at}"
        lines = self.own(step)
        if step.startswith("io ") and self.steps is self.recorded and (told := what_came(self.talk.script.notes, step, self.talk.of_name(step[3:]))):
            self.write(f"    {told}")
        if len(lines) == 1 and self.steps is self.recorded and (javascript := self.talk.script.notes.javascript):
            called = javascript.called(lines[0], self.talk.of_name(lines[0].split(" ")[1]).counts if lines[0].startswith(CALLED) else {})
            self.show([row for it in called for row in fitted(f"    {it}")])
        return lines

    def is_over(self, lines: list[str]) -> bool:
        """Was the step refused, or did it match a break of the program?"""
        if lines and lines[-1].startswith("break at "):
            self.breaks.stopped(self.breaks.of_line(lines[-2] if len(lines) > 1 else ""))
            return True
        return bool(lines) and lines[-1].startswith("refused ")

    def run_on(self, ends: Callable[[], bool] | None = None) -> None:
        """Goes on, a stride at a time, or step by step up to where `ends` holds: to a break, or to a step that is refused."""
        by_step = self.breaks.is_by_step()
        before = self.talk.state() if by_step else None
        try:
            while True:
                if self.is_over(self.on(1 if ends or by_step else STRIDE)):
                    return
                if before:
                    state = self.talk.state()
                    if found := self.breaks.between(before, state):
                        return self.stop_at(*found)
                    before = state
                if ends and ends():
                    return
        except KeyboardInterrupt:
            self.write(f"stopped, at {self.talk.length}")

    def stop_at(self, it: Break, said: str) -> None:
        self.show([f"{it.words()}, #{it.number}, at {self.talk.length}", *said.split("\n")])
        self.breaks.stopped(it)

    def do_step(self, words: list[str]) -> None:
        """step [N]: the next step, of what was recorded while there is one, else the loop's; or so many"""
        for _ in range(self.number(words) or 0):
            if self.is_over(self.on()):
                return

    def do_next(self, words: list[str]) -> None:
        """next: a step, and all of a callback that it begins"""
        if not self.is_over(self.on()) and self.place().is_in_callback():
            self.run_on(lambda: not self.place().is_in_callback())

    def do_continue(self, words: list[str]) -> None:
        """continue: steps up to a break, or until one is refused, along what was recorded; Ctrl-C stops it"""
        self.run_on()

    def do_until(self, words: list[str]) -> None:
        """until LINE, until NAME, CODE or SECTION: on to where that comes, or to a break before it"""
        if (found := self.what_to_break(words)) is None:
            return
        if self.breaks.add(*found, once=True) == ["break ok"]:
            mine = self.breaks.rows[-1]
            self.run_on()
            self.breaks.delete(mine.number)

    def do_finish(self, words: list[str]) -> None:
        """finish: steps to the end of the callback under way (`finish K` hands in what worker K did)"""
        if words:
            self.typed_own(" ".join(["finish", *words]))
        elif self.place().is_in_callback():
            self.run_on(lambda: not self.place().is_in_callback())
        else:
            self.write("no callback is under way")

    def do_restore(self, words: list[str]) -> None:
        """restore: the recorded session again, from where another one began"""
        if self.steps is self.recorded:
            self.write("it is what was recorded already")
            return
        same = next((at for at, (a, b) in enumerate(zip(self.steps, self.recorded)) if a != b), min(len(self.steps), len(self.recorded)))
        lines = self.talk.ask(f"back {self.talk.length - same}") if self.talk.length > same else []
        self.steps = self.recorded
        self.went_back(lines)
        self.write(f"{len(self.recorded) - self.talk.length} recorded steps come behind this")

    def went_back(self, lines: list[str]) -> None:
        self.show(lines)
        self.do_where([])

    def do_reverse_step(self, words: list[str]) -> None:
        """reverse-step [N]: takes the last step back, or so many"""
        if count := self.number(words):
            self.went_back(self.talk.ask(f"back {count}"))

    def do_reverse_next(self, words: list[str]) -> None:
        """reverse-next: takes a step back, and all of a callback that it was in"""
        lines = self.talk.ask("back 1")
        while lines != ["refused range"] and self.place().is_in_callback():
            lines = self.talk.ask("back 1")
        self.went_back(lines)

    def do_reverse_finish(self, words: list[str]) -> None:
        """reverse-finish: back to the step that began the callback under way, and in front of it"""
        if not self.place().is_in_callback():
            self.write("no callback is under way")
            return
        lines = self.talk.ask("back 1")
        while self.place().is_in_callback():
            lines = self.talk.ask("back 1")
        self.went_back(lines)

    def back_by_step(self, here: int, target: int) -> bool:
        """Goes back from one length to another, up to a line or a watch."""
        behind = self.talk.state_at(here)
        for length in range(here - 1, target, -1):
            state = self.talk.state_at(length)
            if found := self.breaks.between(state if length + 1 == here else behind, state):
                self.stop_at(*found)
                return True
            behind = state
        return False

    def do_reverse_continue(self, words: list[str]) -> None:
        """reverse-continue: back to the last break, or to the start where there is none"""
        here = self.talk.length
        lines = self.talk.ask("rback")
        if self.breaks.is_by_step():
            target = -1 if lines == ["refused range"] else self.talk.length
            if self.back_by_step(here, target):
                return
            self.talk.state_at(max(target, 0))
        if lines == ["refused range"]:
            self.write("no break matches before this step: back to the start")
            self.went_back(self.talk.ask(f"back {self.talk.length}"))
            return
        # (a step matches a break by its line, so the last line of the trace is that step's)
        self.went_back([*lines, *self.talk.trace()[-1:]])

    def do_run(self, words: list[str]) -> None:
        """run: back to the start; what was taken back can be run again by `forward N`"""
        self.went_back(self.talk.ask(f"back {self.talk.length}"))

    def do_checkpoint(self, words: list[str]) -> None:
        """checkpoint: keeps this length; `goto #N` goes to the N-th one"""
        self.checkpoints.append(self.talk.length)
        self.write(f"checkpoint #{len(self.checkpoints)}: at {self.talk.length}")

    def do_goto(self, words: list[str]) -> None:
        """goto LENGTH, goto #N: to where so many steps stand, back or by what was taken back"""
        word = self.one(words, "a length, or #N of a checkpoint")
        if word is None:
            return
        digits = word.removeprefix("#")
        if not digits.isdecimal() or (word[0] == "#" and not 0 < int(digits) <= len(self.checkpoints)):
            self.write(f"there is no {word} to go to")
            return
        length = self.checkpoints[int(digits) - 1] if word[0] == "#" else int(digits)
        away = length - self.talk.length
        lines = self.talk.ask(f"forward {away}" if away > 0 else f"back {-away}")
        if lines == [BAD]:
            # (more steps than a session may have)
            lines = ["refused range"]
        if lines == ["refused range"] and length <= len(self.steps):
            # (what was taken back is gone by another step: along what was recorded)
            for _ in self.talk.ask_each(self.steps[self.talk.length : length]):
                pass
            lines = [f"at {self.talk.length}"]
        if lines == ["refused range"]:
            self.write(f"only {self.talk.length} steps stand, and what was taken back doesn't reach to {length}")
        else:
            self.went_back(lines)

    def do_where(self, words: list[str]) -> None:
        """where: the section, the callback and the op that comes next"""
        place = self.place()
        self.write(f"at {self.talk.length}, {place.words()}")
        at = next_line(self.talk.script, place)
        if self.breaks.frames and place.callback and self.steps is self.recorded:
            self.show([f"    in {it.text()}" for it in self.breaks.frames.by_call.get(place.callback[:3], [])])
        if at is not None:
            self.write(f"{at + self.talk.script.first:>5} > {self.talk.script.lines[at]}")

    # ---- breaks

    def what_to_break(self, words: list[str]) -> tuple[str, str] | None:
        """The kind of a break that was typed, and of what; None where it is none."""
        word = self.one(words, "a name, a code, a section or the number of a line")
        if word is None:
            return None
        script = self.talk.script
        if PLACE.fullmatch(word) and self.breaks.frames:
            return self.in_javascript(word)
        if word.isdecimal():
            if script.first <= int(word) < script.first + len(script.lines):
                return "line", word
            self.write(f"the script has no line {word}")
            return None
        kind = "call" if word in self.names() else "code" if word in CODES else "section" if word in SECTIONS else None
        if kind is None:
            near = difflib.get_close_matches(word, [*self.names(), *CODES, *SECTIONS], 1)
            self.write(f"{word} is no name, code or section" + (f": did you mean `break {near[0]}`?" if near else ""))
            return None
        return kind, word

    def in_javascript(self, word: str) -> tuple[str, str] | None:
        """A line of the program's own: the callbacks of the loop in which it was seen."""
        file, _, line = word.rpartition(":")
        found = self.breaks.frames.nearest(file, int(line)) if self.breaks.frames else None
        if found is None:
            self.write(f"no function of {file} was seen under way in a callback")
            return None
        if found != int(line):
            self.write(f"nothing was seen at line {line}: the break is at line {found}")
        return "javascript", f"{file}:{found}"

    def do_break(self, words: list[str]) -> None:
        """break NAME, CODE, SECTION, LINE or FILE:LINE of JavaScript: stops at its callbacks, its answers, where it begins, where it comes next"""
        if found := self.what_to_break(words):
            self.show(self.breaks.add(*found))

    def do_tbreak(self, words: list[str]) -> None:
        """tbreak NAME, CODE, SECTION or LINE: the same, once"""
        if found := self.what_to_break(words):
            self.show(self.breaks.add(*found, once=True))

    def do_watch(self, words: list[str]) -> None:
        """watch NAME: stops where what it stands for changes (active, due, closing, ..)"""
        if (name := self.one_name(words)) is not None:
            self.show(self.breaks.add("watch", name))

    def do_delete(self, words: list[str]) -> None:
        """delete [N]: break N goes (`info breaks` has the numbers), or all of them"""
        if not words:
            self.breaks.keep([])
            self.show(["break ok"])
        elif (number := self.number(words)) is not None:
            self.write("break ok" if self.breaks.delete(number) else f"there is no break #{number}")
