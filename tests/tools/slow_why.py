"""A slow check beside `why`: the whole state is asked after every step, and what became of each callback is found by setting each
state beside the one before. It shares no line with tools/uvt/walk.py, waits.py and why.py, and reads the texts by itself."""

from __future__ import annotations

import re
import subprocess
from dataclasses import dataclass, field


@dataclass
class Left:
    """A poll that a callback of I/O left, as the states show it: the step, whether somebody had woken it, and who waited since nobody had."""

    step: int
    woken: bool
    waited: list[str] = field(default_factory=list)


@dataclass
class Seen:
    """A callback that was asked for, as the states show it."""

    what: str
    id: str
    asked: int
    due: int | None = None
    more: list[int] = field(default_factory=list)
    taken: tuple[int, int] | None = None
    finished: int | None = None
    cancelled: int | None = None
    how: str = "open"
    ended: int | None = None
    call: int = 0


class Look:
    """A state's text, looked at by name."""

    def __init__(self, text: list[str]) -> None:
        self.clock = int(re.search(r" clock (\d+) ", text[0])[1])
        self.stop = " stop 1 " in text[0]
        self.place = text[1].split(" ", 1)[1]
        self.text = text
        self.rows = {line.split(" ")[0]: line.split(" ")[1:] for line in text if line.split(" ")[0] not in ("name", "slot")}

    def counts(self, name: str) -> tuple[int, ...]:
        found = next(line for line in self.text if line.startswith(f"name {name} "))
        return tuple(int(it) for it in found.split(" ")[3:])

    def slot(self, name: str) -> list[str] | None:
        """The words of the slot that the name stands for."""
        id = next(line.split(" ")[2] for line in self.text if line.startswith(f"name {name} "))
        found = next((line for line in self.text if line.startswith(f"slot {id} ")), None)
        words = found.split(" ")[1:] if found else None
        return words if words and len(words) > 2 and words[2] == name else None

    def value(self, name: str, what: str) -> str | None:
        words = self.slot(name)
        return words[words.index(what, 3) + 1] if words and what in words[3:] and words[1] != "work" else None

    def is_asked(self, name: str) -> bool:
        """Whether the callback of the name's handle is asked for: that of a timer, a watcher or an async handle."""
        words = self.slot(name)
        if words is None or words[1] == "work":
            return False
        if words[1] == "async":
            return self.value(name, "pending") == "1"
        return self.value(name, "active") == "1" or name in self.rows["ready"]

    def is_woken(self) -> bool:
        """Whether a request is done, or an async handle sent to."""
        return bool(self.rows["done"] or self.sent())

    def sent(self) -> list[str]:
        return [line.split(" ")[3] for line in self.text if line.startswith("slot ") and line.endswith(" pending 1")]

    def owner(self) -> str | None:
        found = re.search(r" \+ (on|after|closed) (\S+) \d+ \d+$", self.place)
        return f"{found[1]} {found[2]}" if found else None

    def is_at(self) -> str:
        words = self.place.split(" ")
        return words[0] if words[0] == "main" else words[2]


class SlowWhy:
    """A session whose states are all there."""

    def __init__(self, program: str, script: list[str], steps: list[str]) -> None:
        asked = "\n".join([*script, "begin", "state", *(row for step in steps for row in (step, "state")), "loop"]) + "\n"
        out = subprocess.run([program, "debug"], input=asked.encode("ascii", "surrogateescape"), stdout=subprocess.PIPE, check=True).stdout.decode()
        self.steps = steps
        self.lines: list[str] = []
        self.looks: list[Look] = []
        said = ""
        state: list[str] | None = None
        for line in out.splitlines():
            if state is None and re.match(r"steps \d+ now ", line):
                state = []
            if state is None:
                said = line
                continue
            state.append(line)
            if line.split(" ")[0] == "done-yet":
                self.looks.append(Look(state))
                self.lines.append(said)
                said, state = "", None
        self.after = said.removeprefix("refused ") if said.startswith("refused ") else ""
        assert len(self.looks) == len(steps) + 1
        self.moves = self.all_moves()

    # ---- waits

    def waits(self, name: str) -> list[Seen]:
        rows: list[Seen] = []
        open: dict[str, Seen] = {}
        for step in range(1, len(self.steps) + 1):
            before, after = self.looks[step - 1], self.looks[step]
            self.see_handle(name, step, before, after, open, rows)
            self.see_close(name, step, before, after, open, rows)
            self.see_work(name, step, before, after, open, rows)
        return rows

    def see_handle(self, name: str, step: int, before: Look, after: Look, open: dict[str, Seen], rows: list[Seen]) -> None:
        was, is_now = before.is_asked(name), after.is_asked(name)
        called = after.counts(name)[0] > before.counts(name)[0]
        number = before.value(name, "start"), after.value(name, "start")
        aside = name in before.rows["ready"] and name not in after.rows["ready"]
        renewed = after.value(name, "active") == before.value(name, "active") == "1" and number[0] != number[1]
        again = was and is_now and (called or aside or renewed)
        if was and (not is_now or again):
            seen = open.pop("handle")
            seen.ended = step
            seen.how = "called" if called else "closed" if after.value(name, "closing") == "1" else "started again" if is_now else "stopped"
            seen.call = after.counts(name)[0] if called else 0
        if is_now and (not was or again):
            words = after.slot(name)
            due = int(after.value(name, "due")) if words[1] == "timer" else None
            open["handle"] = Seen(words[1], words[0], step, due)
            rows.append(open["handle"])
        elif was and is_now and re.fullmatch(rf"(out )?(start|send) {re.escape(name)} = ok", self.lines[step]):
            open["handle"].more.append(step)

    def see_close(self, name: str, step: int, before: Look, after: Look, open: dict[str, Seen], rows: list[Seen]) -> None:
        if before.value(name, "closing") != "1" and after.value(name, "closing") == "1":
            open["close"] = Seen("close", after.slot(name)[0], step)
            rows.append(open["close"])
        if after.counts(name)[2] > before.counts(name)[2]:
            seen = open.pop("close")
            seen.how, seen.ended, seen.call = "called", step, after.counts(name)[2]

    def see_work(self, name: str, step: int, before: Look, after: Look, open: dict[str, Seen], rows: list[Seen]) -> None:
        was, is_now = before.slot(name), after.slot(name)
        if is_now and is_now[1] == "work":
            if not was:
                open["work"] = Seen("work", is_now[0], step)
                rows.append(open["work"])
            elif was[3] != is_now[3]:
                seen = open["work"]
                if is_now[3] == "running":
                    seen.taken = (step, int(is_now[4]))
                elif is_now[3] == "done":
                    seen.finished = step
                else:
                    seen.cancelled = step
        if after.counts(name)[1] > before.counts(name)[1]:
            seen = open.pop("work")
            seen.how, seen.ended, seen.call = "called", step, after.counts(name)[1]

    # ---- where the clock went on

    def all_moves(self) -> list[tuple[int, int, str, int]]:
        """Each move of the clock: from, to, where, and the step where that began: of a callback the step that began it."""
        moves = []
        owner, first, poll = "", 0, 0
        for step in range(1, len(self.steps) + 1):
            before, after = self.looks[step - 1], self.looks[step]
            if self.steps[step - 1] == "loop" or self.steps[step - 1].startswith("io "):
                begun = self.began(before, after)
                if begun:
                    owner, first = begun, step
                elif before.owner() is None:
                    owner = ""
                if after.is_at() == "poll" and before.is_at() != "poll":
                    poll = step
            elif after.clock > before.clock:
                where = before.is_at()
                what = ("main", step) if where == "main" else ("poll", poll) if where == "poll" else (owner, first) if owner else ("run", step)
                moves.append((before.clock, after.clock, *what))
        return moves

    @staticmethod
    def began(before: Look, after: Look) -> str | None:
        """The callback that began between the two states: by the counts of the names."""
        for line in after.text:
            if line.startswith("name ") and line not in before.text:
                name = line.split(" ")[1]
                for what, a, b in zip(("on", "after", "closed"), before.counts(name), after.counts(name)):
                    if b > a:
                        return f"{what} {name}"
        return None

    def causes(self, begin: int, end: int) -> dict[tuple[str, int], int]:
        """How much of the time between these two of the clock went by where."""
        found: dict[tuple[str, int], int] = {}
        for a, b, what, first in self.moves:
            part = min(b, end) - max(a, begin)
            if part > 0:
                found[what, first] = found.get((what, first), 0) + part
        return found

    # ---- I/O

    def io_calls(self, name: str) -> dict[int, tuple[str, int]]:
        """Each callback of a handle of I/O: where it came, and how many ms behind the end of its poll, or its own start or last call."""
        found: dict[int, tuple[str, int]] = {}
        asked = {it.ended: it.asked for it in self.waits(name) if it.what == "io" and it.how == "called"}
        left = None
        for step in range(1, len(self.looks)):
            before, after = self.looks[step - 1], self.looks[step]
            if step in asked and left is None and before.is_at() != "poll":
                found[step] = "pending", 0
            elif step in asked and before.is_at() != "poll":
                where = "pending" if before.is_at() == "pending" else "behind"
                found[step] = where, after.clock - max(self.looks[left].clock, self.looks[asked[step]].clock)
            elif step in asked:
                found[step] = "left", 0
            if before.is_at() == "poll" != after.is_at():
                left = step
        return found

    def left_by_io(self) -> list[Left]:
        rows: list[Left] = []
        for step in range(1, len(self.looks)):
            before, after = self.looks[step - 1], self.looks[step]
            if before.is_at() == "poll" and self.steps[step - 1].startswith("io "):
                rows.append(Left(step, before.is_woken()))
            elif before.is_at() == "polled" and after.is_at() == "done" and not rows[-1].woken:
                rows[-1].waited += after.rows["done"]
            elif after.place.split(" + ")[0].endswith(" async") and before.place.endswith(" done unwoken"):
                rows[-1].waited += after.sent()
        return rows

    # ---- the end

    def reason(self, seen: Seen) -> str:
        """Why a callback that was asked for isn't called up to the end."""
        last = self.looks[-1]
        if seen.what == "work" and not seen.finished and not seen.cancelled:
            return "it runs" if seen.taken else "it waits"
        if last.is_at() == "main":
            ends = [it for it in range(seen.asked + 1, len(self.looks)) if self.looks[it].is_at() == "main" != self.looks[it - 1].is_at()]
            return "the run ended" if ends else "no run"
        if self.after == "blocked":
            return "blocked"
        if last.owner():
            return "a callback"
        return "not due" if seen.due is not None and seen.due > last.clock else "a section"

    def ended_by(self, name: str, step: int) -> str:
        """Why the run ended in this step."""
        before = self.looks[step - 1]
        if before.stop:
            return "stop"
        alive = any(" ref 1 active 1 " in line or " closing 1" in line or re.match(r"slot \S+ work ", line) for line in before.text)
        if alive:
            return "mode"
        return "unreferenced" if before.value(name, "active") == "1" else "not alive"
