"""Lines that are typed in uvt-shell: which command one is, and how it is completed."""

from __future__ import annotations

import difflib
from collections.abc import Callable

from uvt.codes import CODES, SECTIONS
from uvt.conversation import BAD, Conversation
from uvt.frames import Frames
from uvt.places import Place, read_place
from uvt.shell_breaks import Breaks
from uvt.walk import OUTSIDE

OWN = ["loop", "take", "finish", "cancel", "send", "io", "tick", "back", "forward", "break", "rback", "trace", "walk", "state", "image", "record"]
INFO = ["timers", "handles", "requests", "loop", "breaks"]
SHORT = {
    "s": "step",
    "n": "next",
    "c": "continue",
    "b": "break",
    "d": "delete",
    "l": "list",
    "i": "info",
    "p": "print",
    "r": "run",
    "u": "until",
    "tb": "tbreak",
    "rs": "reverse-step",
    "rn": "reverse-next",
    "rc": "reverse-continue",
    "bt": "where",
    "q": "quit",
    "h": "help",
    "stepi": "step",
}
# Those of them that do a step.
STEPS = ("loop", *OUTSIDE)

Write = Callable[[str], None]


class Typed:
    """A line that was typed, and what is shown of its answer."""

    def __init__(self, talk: Conversation, write: Write, colour: bool = False, steps: list[str] | None = None) -> None:
        self.talk = talk
        # the steps of what was opened, and those that are done again before the loop goes on by itself: they part where somebody does another
        self.recorded = steps or []
        self.steps = self.recorded
        self.write = write
        self.colour = colour
        javascript = talk.script.notes.javascript
        self.breaks = Breaks(talk, Frames(javascript, "") if javascript else None)
        self.checkpoints: list[int] = []
        self.last = ""
        self.commands: dict[str, Callable[[list[str]], None]] = {
            name.removeprefix("do_").replace("_", "-"): getattr(self, name) for name in dir(self) if name.startswith("do_")
        }

    # ---- what is printed

    def painted(self, line: str) -> str:
        """A line of a trace, in colour at a terminal: callbacks, refusals and codes stand out."""
        if not self.colour:
            return line
        first = line.split(" ", 1)[0]
        if first in ("call", "after", "closed"):
            return f"\033[1m{line}\033[0m"
        if first == "refused" or line.rsplit(" ", 1)[-1] in CODES[1:]:
            return f"\033[31m{line}\033[0m"
        if first == "out":
            return f"\033[36m{line}\033[0m"
        return line

    def show(self, lines: list[str]) -> list[str]:
        for line in lines:
            self.write(self.painted(line))
        return lines

    def own(self, command: str) -> list[str]:
        """One of the program's own commands, as it is."""
        return self.show(self.talk.ask(command))

    def place(self) -> Place:
        return read_place(self.talk.state().place)

    def part(self) -> None:
        """Says what has to be known of a recording before all else."""
        self.show(self.talk.script.notes.loud())

    # ---- a line that was typed

    def names(self) -> list[str]:
        return self.talk.script.names()

    def words(self) -> list[str]:
        return sorted({*self.commands, *SHORT, *OWN})

    def complete(self, before: str, word: str) -> list[str]:
        """What the word that is being typed may be, behind this text."""
        typed = before.split()
        if not typed:
            return [it for it in self.words() if it.startswith(word)]
        match SHORT.get(typed[0], typed[0]), len(typed):
            case "break", 1:
                found = ["call", "code", "section", "clear", *self.names(), *CODES, *SECTIONS]
            case "tbreak" | "until", 1:
                found = [*self.names(), *CODES, *SECTIONS]
            case "break", 2:
                found = {"call": self.names(), "code": CODES, "section": SECTIONS}.get(typed[1], [])
            case "info", 1:
                found = INFO
            case "print" | "why" | "state" | "send" | "cancel" | "io" | "watch", 1:
                found = self.names()
            case "help", 1:
                found = self.words()
            case _:
                found = []
        return [it for it in found if it.startswith(word)]

    def do(self, line: str) -> None:
        """Does what was typed. An empty line does the last one again."""
        line = line.strip() or self.last
        self.last = line
        if not line:
            return
        first, *rest = line.split(" ")
        word = SHORT.get(first, first)
        if word in self.commands and not (word == "break" and rest and rest[0] in ("call", "code", "section", "clear")):
            self.commands[word](rest)
        elif word in OWN:
            self.typed_own(" ".join([word, *rest]))
        else:
            self.unknown(first)

    def typed_own(self, command: str) -> None:
        words, at = command.split(" "), self.talk.length
        if words[0] == "break" and len(words) == 3:
            lines = self.show(self.breaks.add(words[1], words[2]))
        elif words[:2] == ["break", "clear"]:
            self.breaks.keep([])
            lines = self.show(["break ok"])
        else:
            lines = self.own(command)
        if words[0] in STEPS and self.talk.length > at:
            self.left(at, "loop" if words[0] == "loop" else command)
        if lines == [BAD]:
            self.hint(words)

    def left(self, at: int, step: str) -> None:
        """Somebody did these steps. Where they aren't those that were to come, it is another session from here on."""
        did = [step] * (self.talk.length - at)
        if self.steps[at : self.talk.length] == did[: len(self.steps) - at]:
            return
        if self.steps is self.recorded and at < len(self.recorded):
            self.write(f"from here on it is another session: {len(self.recorded) - at} recorded steps are left out; `restore` brings them back")
        self.steps = self.steps[:at] + ["loop"] * (at - len(self.steps)) + did

    def hint(self, words: list[str]) -> None:
        if words[0] == "io" and not self.talk.script.has_io():
            self.write("the script has no line `io`, so it has no handles of I/O")
            return
        near = difflib.get_close_matches(words[-1], [*self.names(), *CODES, *SECTIONS], 1)
        if near and near[0] != words[-1]:
            self.write(f"did you mean `{' '.join([*words[:-1], near[0]])}`?")

    def unknown(self, word: str) -> None:
        near = difflib.get_close_matches(word, self.words(), 1)
        self.write(f"no command `{word}`" + (f": did you mean `{near[0]}`?" if near else "; `help` has them all"))

    def one(self, words: list[str], what: str) -> str | None:
        if len(words) == 1 and words[0]:
            return words[0]
        self.write(f"this wants {what}")
        return None

    def one_name(self, words: list[str]) -> str | None:
        """A name of the script that was typed; None where it is none."""
        name = self.one(words, "a name")
        if name is not None and name not in self.names():
            near = difflib.get_close_matches(name, self.names(), 1)
            self.write(f"no name `{name}`" + (f": did you mean `{near[0]}`?" if near else ""))
            return None
        return name

    def number(self, words: list[str], least: int = 1) -> int | None:
        """A number that was typed, or 1; None where it is none."""
        if not words:
            return 1
        if len(words) == 1 and words[0].isdecimal() and least <= int(words[0]) <= 16777216:
            return int(words[0])
        self.write(f"this wants a number from {least} to 16777216")
        return None
