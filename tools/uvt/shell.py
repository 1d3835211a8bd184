"""The commands of uvt-shell: gdb's words, each by the program's own commands."""

from __future__ import annotations

from uvt.conversation import Fault
from uvt.state import State
from uvt.javascript_pieces import fitted
from uvt.places import next_line
from uvt.shell_steps import Steps
from uvt.shell_typed import INFO, OWN, SHORT
from uvt.walk import Walk
from uvt.why import why
from uvt.why_javascript import WhyJavaScript


class Quit(Exception):
    """The person asked to leave."""


class Shell(Steps):
    """A conversation, with gdb's words for it."""

    # ---- what there is to see

    def do_list(self, words: list[str]) -> None:
        """list: the script's lines, with a mark at the one that comes next"""
        at = next_line(self.talk.script, self.place())
        lines = self.talk.script.lines
        first = 0 if at is None else max(0, at - 8)
        for number in range(first, min(len(lines), first + 17)):
            self.write(f"{number + self.talk.script.first:>5} {'>' if number == at else ' '} {lines[number]}")
        if at is None:
            self.write("the next step does no line of the script")

    def do_print(self, words: list[str]) -> None:
        """print NAME: what the name stands for, and where it is"""
        name = self.one_name(words)
        if name is None:
            return
        state = self.talk.state()
        counts = state.counts[name]
        slot = state.slot_of(name)
        if slot is None:
            was = state.bound[name]
            self.write(f"{name}: " + ("not made yet" if was is None else f"{was} is gone") + self.called(counts))
            return
        values = " ".join(f"{a} {b}" for a, b in slot.values.items()) or slot.outcome
        lists = [it for it, members in state.lists.items() if it != "running" and name in members]
        self.write(f"{name} = {slot.id} {slot.kind} {values}{self.called(counts)}; on {', '.join(lists) or 'no list'}")

    def called(self, counts: tuple[int, int, int]) -> str:
        told = [f"{count} {what}" for count, what in zip(counts, ("on", "after", "closed")) if count]
        return f"; called {', '.join(told)}" if told else "; never called"

    def do_why(self, words: list[str]) -> None:
        """why NAME: for each of its callbacks up to here, what made it late, or why it never came; in node a function or FILE:LINE, too"""
        if self.breaks.frames and len(words) == 1 and words[0] and words[0] not in self.names():
            return self.why_javascript(words[0])
        name = self.one_name(words)
        if name is None:
            return
        # (a program of its own goes through the steps, so that this one stays where it is)
        with Walk(self.talk.script, self.talk.recording().steps) as walk:
            self.show([row for line in why(walk, name) for row in (fitted(line) if self.breaks.frames else [line])])

    def why_javascript(self, name: str) -> None:
        """Of a function of JavaScript, or a line of it, in all that was recorded."""
        with Walk(self.talk.script, self.recorded) as walk:
            try:
                self.show(WhyJavaScript(walk).answer(name))
            except Fault as fault:
                self.write(str(fault))

    def do_info(self, words: list[str]) -> None:
        """info timers, handles, requests, loop, breaks: what there is of these"""
        match self.one(words, "one of " + ", ".join(INFO)):
            case "timers":
                self.info_timers(self.talk.state())
            case "handles":
                self.info_slots(self.talk.state(), False)
            case "requests":
                self.info_slots(self.talk.state(), True)
            case "loop":
                self.show(self.talk.ask("state")[:2])
            case "breaks":
                self.show([f"#{it.number} {it.words()}" for it in self.breaks.rows] or ["no breaks"])
            case None:
                pass
            case word:
                self.write(f"no `info {word}`: there are {', '.join(INFO)}")

    def info_timers(self, state: State) -> None:
        now = state.numbers["now"]
        for name in state.lists["timers"]:
            values = slot.values if (slot := state.slot_of(name)) else {}
            away = int(values["due"]) - now
            self.write(f"{name}: due {values['due']} ({f'in {away} ms' if away > 0 else 'now'}), repeat {values['repeat']}, ref {values['ref']}")
        if state.lists["ready"]:
            self.write(f"set aside, to be called: {' '.join(state.lists['ready'])}")
        if not state.lists["timers"] and not state.lists["ready"]:
            self.write("no timer is active")

    def info_slots(self, state: State, requests: bool) -> None:
        found = [it for it in state.slots if it.name and (it.kind == "work") == requests]
        for slot in found:
            values = " ".join(f"{a} {b}" for a, b in slot.values.items()) or slot.outcome
            self.write(f"{slot.id} {slot.kind} {slot.name} {values}")
        if not found:
            self.write("there is none")

    # ---- about the shell

    def do_help(self, words: list[str]) -> None:
        """help [WORD]: what there is, or what a command does"""
        if words and words[0]:
            word = SHORT.get(words[0], words[0])
            if word in self.commands:
                self.write(self.commands[word].__doc__ or "")
            elif word in OWN:
                self.write(f"{word}: the program's own; docs/FORMAT.md has it")
            else:
                self.unknown(words[0])
            return
        for name in self.commands:
            short = [it for it, long in SHORT.items() if long == name]
            self.write(f"  {self.commands[name].__doc__}" + (f" ({', '.join(short)})" if short else ""))
        self.write(f"and the program's own words: {' '.join(OWN)} (docs/FORMAT.md)")

    def do_quit(self, words: list[str]) -> None:
        """quit: leaves"""
        raise Quit
