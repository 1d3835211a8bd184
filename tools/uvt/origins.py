"""Who asked for a timer of JavaScript or a request of the pool, who had called that, and who had asked for the callback in which that was.

A chain of awaits, timers and requests goes back to what it began in: a request that came, or the main program. All of it is read off the notes.
"""

from __future__ import annotations

from typing import TYPE_CHECKING

from uvt.javascript_pieces import NOWHERE, OUTSIDE, Origin, Place

if TYPE_CHECKING:
    from uvt.walk import Walk

# node's functions in which a request or an answer of HTTP comes.
HTTP = {"parserOnIncoming": "an HTTP request", "parserOnIncomingClient": "an HTTP response", "onSessionHeaders": "an HTTP/2 stream"}
# So many are told behind one another.
HOPS = 8
# A timer or immediate, by its number; or a request of the pool, by its name and which call of it.
Key = int | tuple[str, int]


class Origins:
    """Where things were asked for."""

    def __init__(self, walk: Walk) -> None:
        self.walk, self.js = walk, walk.notes.javascript
        self.step_of = {call: step for step, call in walk.calls.items()} if self.js else {}

    def origin(self, key: Key) -> tuple[Place, Origin | None]:
        """Where a timer (its number) or a request of the pool (its name and call) was asked for, and what that was in."""
        if isinstance(key, int):
            resource = self.js.resources[key]
            return resource.at, resource.origin
        return self.js.asked.get(key, NOWHERE), self.js.origins.get(key)

    def before(self, origin: Origin) -> Key | None:
        """Whose callback that was."""
        if origin.within in self.js.resources:
            return origin.within
        kind, name, call = origin.call
        return (name, call) if kind == "after" and (name, call) in self.js.origins else None

    def first(self, origin: Origin) -> str:
        """What it all began in: a request that came, or another event; the main program."""
        kind, name, call = origin.call
        if kind == "main":
            return "in the main program"
        step = self.step_of.get(origin.call)
        step_told = f" at step {step}" if step else ""
        if step:
            took = self.walk.took_of.get(step)
            end = took.pieces[-1][1] if took else self.walk.clock(step) + 1
            functions = {place.function for place in self.js.functions_in(1000 * self.walk.clock(step), 1000 * end)}
            for function, what in HTTP.items():
                if function in functions:
                    return f"in {what}{step_told}"
        node = self.walk.notes.in_node(name, kind, call)
        return f"in {node.words if node else f'the callback of {name}'}{step_told}"

    def behind(self, key: Key) -> str:
        """The chain of what is told already itself, from a comma on; `` where there is none."""
        first, _, rest = self.chain(key).partition(", ")
        return f", {rest}" if rest and first.startswith("asked for by ") else ""

    def chain(self, key: Key | None) -> str:
        """Who asked for it, who had called that, and who had asked for the callback in which that was; as far as the log knows. `` where no more is
        known than the line itself."""
        told: list[str] = []
        known: set[Key] = set()
        last: Origin | None = None
        while key is not None and key not in known and len(known) < HOPS:
            known.add(key)
            place, origin = self.origin(key)
            if place != NOWHERE and not place.where.startswith(OUTSIDE):
                told.append(f"asked for by {place.text()}")
            told += [f"called by {it.text()}" for it in (origin.callers if origin else ())]
            last, key = origin, self.before(origin) if origin else None
        told = [it for at, it in enumerate(told) if not at or it.split(" by ")[1] != told[at - 1].split(" by ")[1]]
        if not last or not told or (len(told) == 1 and last.call[0] == "main"):
            return ""
        more = f", {self.first(last)}" if key is None else ""
        return ", ".join(told) + more
