"""A script with what is done from outside, as the runner on libuv and the model read it."""

from __future__ import annotations

from dataclasses import dataclass, field

# Among what comes, in place of a name: where the after and async callbacks stand.
WAKE = "."


@dataclass
class Program:
    """A script, and behind its `begin` what is done from outside: as tools/uvt/libuv/run.c reads it."""

    text: str
    names: list[str] = field(default_factory=list)
    main: list[list[str]] = field(default_factory=list)
    bodies: dict[tuple[str, str], list[tuple[int, list[str]]]] = field(default_factory=dict)
    slots: int = 1024
    last_generation: int = 2**32 - 1
    workers: int = 4
    order: str = "1.45"
    heap: bool = False
    steps: list[tuple[int, list[str]]] = field(default_factory=list)
    ways: list[str] = field(default_factory=list)
    limit: int = 10**9

    def __post_init__(self) -> None:
        for line in self.text.split("\n"):
            self.read(line.split(" "))

    def read(self, words: list[str]) -> None:
        match words:
            case ["var", name]:
                self.names.append(name)
            case ["main", *op]:
                self.main.append(op)
            case ["slots", count, *last]:
                self.slots = int(count)
                self.last_generation = int(last[0]) if last else self.last_generation
            case ["order", version]:
                self.order = version
            case ["timers", "heap"]:
                self.heap = True
            case ["workers", count]:
                self.workers = int(count)
            case ["on" | "after" | "closed" as body, name, *op]:
                call = int(op.pop(0)[1:]) if op[0].startswith("@") else 0
                self.bodies.setdefault((body, name), []).append((call, op))
            case ["at", lines, _, *step]:
                self.steps.append((int(lines), step))
            case ["blocked", *ways]:
                self.ways = ways
            case ["limit", count]:
                self.limit = int(count)

    def script(self) -> list[str]:
        """The lines that are a script of uvt."""
        lines = self.text.split("\n")
        return lines[: lines.index("begin")]
