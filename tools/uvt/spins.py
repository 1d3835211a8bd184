"""Who spun: polls in a row that didn't wait, and who was called in most of these rounds."""

from __future__ import annotations

from uvt.causes import few
from uvt.node_names import IMMEDIATES
from uvt.walk import Walk
from uvt.why import Why

# How many lines each part of an overview has at the most.
LINES = 5
# So many polls in a row that don't wait are a spin.
ROUNDS = 10
# A callback of so many ms is long; and what stays there when it was told: an event of a poll handle, a change of a file.
LONG = 2
STAYS = ("poll", "fs_event", "fs_poll")


class Spins:
    """The part of an overview that has them."""

    walk: Walk
    # what `why` sees of each name; from how many ms on something is told; and who may be asked about next, by ms
    whys: dict[str, Why]
    least: int
    next: list[tuple[int, str]]

    def spins(self) -> list[str]:
        """Polls in a row that didn't wait, and who was called in most of these rounds."""
        found = [it for it in self.rows_of_polls() if len(it) >= ROUNDS and self.is_spin(it)]
        by: dict[str, list[list[int]]] = {}
        for it in found:
            by.setdefault(self.spin(it), []).append(it)
        return [f"{self.polls_of(it)}: {who}" for who, it in sorted(by.items(), key=lambda it: -sum(map(len, it[1])))[:LINES]]

    def polls_of(self, rows: list[list[int]]) -> str:
        """How many polls didn't wait, from where to where, and how long that took: one story, in however many pieces it is."""
        polls, ms = sum(map(len, rows)), sum(map(self.time_of, rows))
        if len(rows) == 1:
            return f"{polls} polls in a row didn't wait, from step {rows[0][0]} to {rows[0][-1]}, {ms} ms"
        return f"{polls} polls didn't wait, in {len(rows)} rows from step {rows[0][0]} to {rows[-1][-1]}, {ms} ms in all"

    def rows_of_polls(self) -> list[list[int]]:
        """The polls in a row that don't wait. In a recording one in which the clock went on by a millisecond alone may be of them: that it is where
        ten in front of it and ten behind it are."""
        waits = {it.first: it.took() for it in self.walk.tooks if it.is_poll()}
        rows: list[list[int]] = [[]]
        turned = False
        for step in self.walk.steps_of("poll"):
            if step not in waits:
                rows[-1].append(step)
                if turned and len(rows[-1]) == ROUNDS:
                    # (the row before goes on)
                    rows[-2:] = [rows[-2] + rows[-1]]
                    turned = False
                continue
            turned = bool(self.walk.notes.names) and waits[step] <= 1 and len(rows[-1]) >= ROUNDS
            rows.append([])
        return rows

    def is_spin(self, row: list[int]) -> bool:
        """In a recording: did nothing come that had to be done in most of these rounds, and is the time more than the work, that of long
        callbacks?"""
        if not self.walk.notes.names:
            return True
        left = self.idled(row)
        if left < self.least or 2 * left <= self.time_of(row):
            return False
        bounds = [*row, self.walk.next_line("poll", row[-1])]
        return 2 * sum(self.has_work(*it) for it in zip(bounds, bounds[1:])) < len(row)

    def time_of(self, row: list[int]) -> int:
        return self.walk.clock(row[-1]) - self.walk.clock(row[0])

    def idled(self, row: list[int]) -> int:
        """How much of the time of these rounds was in no long callback, in ms."""
        begin, end = self.walk.clock(row[0]), self.walk.clock(row[-1])
        long = (it.between(begin, end) for it in self.walk.causes(begin, end) if it.is_callback() and it.took() >= LONG)
        return end - begin - sum(long)

    def has_work(self, poll: int, behind: int) -> bool:
        """Did something come in this round that is over when it is done: bytes, a connection, a signal, a request, a send of somebody else?"""
        walk = self.walk
        outside = walk.steps_between("out", poll, behind - 1)
        if walk.steps_between("after", poll, behind - 1) or any(walk.line(it).startswith("out send ") for it in outside):
            return True
        calls = (walk.calls[it] for it in walk.steps_between("call", poll, behind - 1) if walk.steps[it - 1].startswith("io "))
        return any(walk.notes.what.get(name, {}).get(call, "").split(":")[0] not in STAYS for _, name, call in calls)

    def spin(self, row: list[int]) -> str:
        """Who was called in these rounds, and who kept the poll from waiting."""
        counts: dict[str, int] = {}
        for kind in ("call", "after", "closed"):
            for step in self.walk.steps_between(kind, row[0], row[-1]):
                name = self.who_is(*self.walk.calls[step])
                counts[name] = counts.get(name, 0) + (name != "")
        who = [name for name, count in sorted(counts.items(), key=lambda it: -it[1]) if 2 * count >= len(row)]
        idle = [it for it in self.walk.state(row[len(row) // 2]).lists["idle"] if not self.walk.notes.is_nodes_own(it)]
        why = f"{few(who)} {'was' if len(who) == 1 else 'were'} called in each of these rounds or most" if who else "nobody was called each time"
        are = "is an active idle handle" if len(idle) == 1 else "are active idle handles"
        active = f"; {few(idle)} {are}, so the poll doesn't wait" if idle else ""
        self.next += [(self.idled(row), who[0])] if who and who[0] in self.whys else []
        return f"{why}{active}"

    def who_is(self, kind: str, name: str, call: int) -> str:
        """A name, or what its callback is in node; `` where that tells nothing of the program."""
        node = self.walk.notes.in_node(name, kind, call)
        return name if node is None or not node.own else IMMEDIATES if node.words == IMMEDIATES else ""
