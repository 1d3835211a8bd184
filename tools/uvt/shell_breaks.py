"""The breaks of uvt-shell, by their numbers: those that the program keeps (names, codes, sections), and those that are looked for step by
step (lines that come next, names whose values change)."""

from __future__ import annotations

from dataclasses import dataclass

from uvt.conversation import Conversation
from uvt.state import State
from uvt.frames import Frames, begun
from uvt.places import next_line, read_place

KEPT = ("call", "code", "section")


@dataclass
class Break:
    number: int
    # one of KEPT, `line`, `watch` or `javascript`: a line of the program's own
    kind: str
    what: str
    # it goes as it stops
    once: bool = False

    def words(self) -> str:
        return f"{'tbreak' if self.once else 'watch' if self.kind == 'watch' else 'break'} " + (
            self.what if self.kind == "watch" else f"{self.kind} {self.what}"
        )


def value_of(state: State, name: str) -> str:
    """What a name stands for, as it is shown where it changes."""
    slot = state.slot_of(name)
    if slot is None:
        return "nothing"
    return " ".join([slot.id, slot.kind, *(f"{a} {b}" for a, b in slot.values.items()), slot.outcome]).strip()


class Breaks:
    def __init__(self, talk: Conversation, frames: Frames | None = None) -> None:
        self.talk = talk
        self.frames = frames
        self.rows: list[Break] = []
        self.made = 0

    def add(self, kind: str, what: str, once: bool = False) -> list[str]:
        """A new break. What the program answers; a break that it doesn't take is none."""
        answer = self.talk.ask(f"break {kind} {what}") if kind in KEPT else ["break ok"]
        if answer == ["break ok"]:
            self.made += 1
            self.rows.append(Break(self.made, kind, what, once))
        return answer

    def keep(self, rows: list[Break]) -> None:
        """These alone: the program takes all of its own away at once, so they are given to it again."""
        self.rows = rows
        self.talk.ask("break clear")
        for it in rows:
            if it.kind in KEPT:
                self.talk.ask(f"break {it.kind} {it.what}")

    def delete(self, number: int) -> bool:
        left = [it for it in self.rows if it.number != number]
        found = len(left) < len(self.rows)
        if found:
            self.keep(left)
        return found

    def is_by_step(self) -> bool:
        return any(it.kind not in KEPT for it in self.rows)

    def of_line(self, line: str) -> Break | None:
        """Which of the program's breaks matched a step with this line."""
        words = line.split(" ")
        for it in self.rows:
            if it.kind == "call" and words[0] in ("call", "after", "closed") and words[1] == it.what:
                return it
            if it.kind == "section" and words[0] == it.what or it.kind == "code" and words[-1] == it.what:
                return it
        return None

    def between(self, before: State, state: State) -> tuple[Break, str] | None:
        """The break that one state behind the other matches, and what is to be said of it."""
        at = next_line(self.talk.script, read_place(state.place))
        for it in self.rows:
            if it.kind == "line" and at is not None and at + self.talk.script.first == int(it.what):
                return it, f"line {it.what} comes next"
            if it.kind == "javascript" and self.frames:
                file, _, line = it.what.rpartition(":")
                calls = self.frames.calls_at(file, int(line))
                # (on the way back it comes next)
                if call := begun(before, state, calls) or begun(state, before, calls):
                    return it, "\n".join(f"    {frame.text()}" for frame in self.frames.by_call[call])
            if it.kind == "watch" and (was := value_of(before, it.what)) != (now := value_of(state, it.what)):
                return it, f"{it.what} was {was}\n{it.what} is  {now}"
        return None

    def stopped(self, it: Break | None) -> None:
        """It stopped there: one that was for once goes."""
        if it is not None and it.once:
            self.delete(it.number)
