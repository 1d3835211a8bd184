"""Random scripts, each with what is done from outside: the program that both uvt and libuv run.

A script is of a family, and its number is the seed. What stands behind `begin` is read by tools/uvt/libuv/run.c and by model.py.
"""

from __future__ import annotations

import random
from dataclasses import dataclass

from tests.libuv.programs import WAKE

WATCHERS = ("idle", "prepare", "check")
FAR = (2147483646, 2147483647, 2147483648, 2**32, 2**63 - 1, 2**64 - 2, 2**64 - 1)
MOST_LINES = 150


@dataclass
class Family:
    """What its scripts are made of."""

    kinds: list[str]
    closes: float = 0.1  # how many ops of handles close one
    closed: float = 0.2  # how many lines of callbacks are those of a close callback
    steps: int = 0  # steps from outside, at most
    questions: int = 1
    runs: int = 3
    bodies: int = 14


FAMILIES = {
    "timers": Family(["timer"] * 5 + ["idle", "check"], steps=4, questions=2),
    "watchers": Family(["idle", "prepare", "check"] * 2 + ["timer", "async"], questions=3, bodies=30),
    "runs": Family(["timer"] * 3 + ["idle", "prepare", "check", "async"], steps=3, questions=3, runs=6),
    "close": Family(["timer", "timer", "idle", "prepare", "check", "async", "work"], closes=0.3, closed=0.5, questions=2, bodies=30),
    "async": Family(["async"] * 4 + ["timer", "timer", "check", "idle"], steps=8),
    "work": Family(["work"] * 5 + ["timer", "async", "check", "idle"], steps=12),
    "io": Family(["io"] * 5 + ["async", "async", "timer", "check", "work"], steps=12, questions=3, bodies=30),
    "all": Family(["timer"] * 4 + ["idle", "prepare", "check", "async", "async"] + ["work"] * 3 + ["io"] * 2, steps=6, questions=2, bodies=20),
}


class Writer:
    """Writes one script."""

    def __init__(self, family: Family, draw: random.Random) -> None:
        self.family, self.draw = family, draw
        self.names = list("abcdefghij"[: draw.randint(1, 8)])
        self.kinds = {name: draw.choice(family.kinds) for name in self.names}
        self.workers = draw.choice([1, 1, 2, 4]) if "work" in family.kinds else 1

    def happens(self, share: float) -> bool:
        return self.draw.random() < share

    def timeout(self) -> int:
        return self.draw.choice(FAR) if self.happens(0.03) else self.draw.choice([0, 0, 1, 1, 2, 3, 5, 8, 13])

    def repeat(self) -> int:
        return self.draw.choice(FAR[:5]) if self.happens(0.02) else self.draw.choice([0, 0, 0, 1, 2, 3, 5])

    # ---- ops

    def made(self, name: str, kind: str) -> str:
        return f"queue {name} {self.draw.randint(1, 2)}{self.draw.choice(['', ' abc'])}" if kind == "work" else f"init {name} {kind}"

    def loop_op(self) -> str:
        return self.draw.choice(["now", "alive", "alive", "timeout", "timeout", "stoploop", "updatetime"])

    def timer_op(self, name: str) -> str:
        return self.draw.choices(
            [f"start {name} {self.timeout()} {self.repeat()}", f"stop {name}", f"again {name}", f"repeat {name} {self.repeat()}", f"due {name}"],
            [5, 2, 1, 1, 1],
        )[0]

    def own_op(self, name: str) -> str:
        """An op that fits the kind for which the name is meant."""
        match self.kinds[name]:
            case "timer":
                return self.timer_op(name)
            case "async":
                return f"send {name}"
            case "work":
                return self.draw.choice([f"cancel {name}", self.made(name, "work")])
            case _:
                return self.draw.choice([f"start {name}", f"start {name}", f"stop {name}"])

    def wrong_op(self, name: str) -> str:
        return self.draw.choice(["start", "stop", "send", "again", "cancel", "close", "due", "hasref"]) + f" {name}"

    def op(self) -> str:
        name = self.draw.choice(self.names)
        kind = self.kinds[name]
        if self.happens(0.06 * self.family.questions):
            return self.loop_op()
        if self.happens(0.02):
            return self.wrong_op(name)
        if self.happens(0.1):
            return self.made(name, kind)
        if kind == "work" or self.happens(0.55):
            return self.own_op(name)
        if self.happens(2 * self.family.closes):
            return f"close {name}"
        return self.draw.choice(["ref", "unref", "unref", "hasref", "active", "closing"]) + f" {name}"

    # ---- the script

    def begins(self) -> list[str]:
        """The ops that make and start most handles and requests."""
        lines = []
        for name in self.names:
            if not self.happens(0.85):
                continue
            lines.append(self.made(name, self.kinds[name]))
            if self.kinds[name] != "work" and self.happens(0.75):
                lines.append(f"start {name} {self.timeout()} {self.repeat()}" if self.kinds[name] == "timer" else self.own_op(name))
            if self.kinds[name] != "work" and self.happens(0.2):
                lines.append(f"unref {name}")
        if self.happens(0.2):
            self.draw.shuffle(lines)
        return lines

    def main(self) -> list[str]:
        lines = self.begins()
        for _ in range(self.draw.randint(1, self.family.runs)):
            lines += [self.op() for _ in range(self.draw.choice([0, 0, 1, 2]))]
            lines.append("run " + self.draw.choice(["default", "default", "once", "once", "nowait"]))
        lines += [self.op() for _ in range(self.draw.choice([0, 0, 1, 2]))]
        return lines + ["closeloop"] * self.happens(0.2)

    def body_of(self, name: str) -> str:
        if self.kinds[name] == "work":
            return "after"
        return "closed" if self.happens(self.family.closed) else "on"

    def bodies(self) -> list[str]:
        lines = []
        for _ in range(self.draw.randint(1, self.family.bodies)):
            name = self.draw.choice(self.names)
            call = f"@{self.draw.choice([1, 1, 2, 2, 3, 4])} " if self.happens(0.6) else ""
            lines.append(f"{self.body_of(name)} {name} {call}{self.op()}")
        # most handles end by themselves
        for name in self.names:
            if self.kinds[name] != "work" and self.happens(0.6):
                lines.append(f"on {name} @{self.draw.randint(1, 4)} close {name}")
        return lines

    def comes(self) -> str:
        """For whom something comes in a poll, some of it behind the after and async callbacks."""
        names = [name for name in self.names if self.kinds[name] == "io"] or self.names
        brought = [self.draw.choice(names) for _ in range(self.draw.choice([1, 1, 2, 3, 4]))]
        if self.happens(0.6):
            brought.insert(self.draw.randint(0, len(brought)), WAKE)
        return "io " + " ".join(brought)

    def step(self) -> str:
        """A step from outside."""
        likely = ["tick", "send"] if "work" not in self.family.kinds else ["tick", "send", "take", "take", "finish", "finish", "cancel"]
        if "io" in self.kinds.values() and self.happens(0.4):
            return self.comes()
        match self.draw.choice(likely):
            case "tick":
                return f"tick {self.draw.choice([1, 1, 2, 3, 5, 9])}"
            case "take" | "finish" as word:
                return f"{word} {self.draw.randrange(self.workers)}"
            case word:
                return f"{word} {self.draw.choice(self.names)}"

    def outside(self) -> list[str]:
        """What is done from outside at which line, and where the poll waits."""
        places = sorted(self.draw.randint(0, 40) for _ in range(self.draw.randint(0, self.family.steps)))
        lines = []
        for place in places:
            step = self.step()
            lines.append(f"at {place} 0 {step}")
            # (where the line of that number is a poll's, the clock goes on behind the callback)
            if step.startswith("io ") and self.happens(0.6):
                lines.append(f"at {place + 1} 0 tick {self.draw.choice([1, 2, 5])}")
        lines += [f"at {MOST_LINES} 0 send {self.draw.choice(self.names)}" for _ in range(self.draw.choice([0, 0, 1, 2, 4]))]
        lines += [f"at {MOST_LINES} 0 {self.comes()}" for _ in range(self.draw.choice([1, 2, 4]) if "io" in self.kinds.values() else 0)]
        ways = [self.draw.choice(["jobs", "jobs-down"]), "jump"]
        if self.happens(0.3):
            ways.reverse()
        return ["undisturbed runs"] + lines + ["blocked " + " ".join(ways + ["steps"]), f"limit {MOST_LINES}"]

    def program(self) -> str:
        head = [f"workers {self.workers}", *["io"] * ("io" in self.family.kinds), *["timers heap"] * self.happens(0.3)]
        if self.happens(0.05):
            head.append(f"slots {self.draw.randint(1, len(self.names))} {self.draw.randint(0, 2)}")
        script = [f"var {name}" for name in self.names] + [f"main {op}" for op in self.main()] + self.bodies()
        return "\n".join(head + script + ["begin"] + self.outside())


def program_text(family: str, number: int) -> str:
    """The program of that family and number."""
    return Writer(FAMILIES[family], random.Random(f"{family} {number}")).program()
