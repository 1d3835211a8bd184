"""What a callback did while it took long: the calls in which it waited, where on its stack it was, and what its thread had of the processor."""

from __future__ import annotations

import collections
import re
from dataclasses import dataclass, field
from typing import NamedTuple

# A part of so many ms, and of a tenth of all, is told; and so many calls that waited.
LEAST, TENTH, CALLS = 3, 10, 2
# Of so many looks at a stack at the least a share is said; of fewer where it was, if they stand for so many ms. Earlier logs have no ms.
LOOKS, LOOKED, TICK = 3, 12, 4
# So many callers of a function are told.
CALLERS = 4
# Page faults of which one is told: each takes a microsecond or less, where the memory was there.
FAULTS = 1000
UNKNOWN = -1


def share(part: int, whole: int) -> str:
    return "nearly all" if 10 * part >= 9 * whole else "most"


LAMBDA = re.compile(r"(.*?)(?:::)?\{lambda#\d+\}(?:::(?:call|_FUN|__invoke))?")


def in_words(function: str) -> str:
    """A function's name; of a lambda the one in which that stands, if it is known."""
    if function.startswith("std::_Function_handler"):
        # (what it calls is a part of it)
        return "a std::function"
    found = LAMBDA.fullmatch(function)
    return function if not found else f"a lambda of {found[1]}" if found[1] else "a lambda"


# How the C library calls a function of its own, of which it has several for several processors.
OF_A_PROCESSOR = re.compile(r"_+(mem\w+?|str\w+?|wcs\w+?|wmem\w+?)(?:_(?:evex|avx|sse|ssse|rtm|erms|unaligned|back|aligned|no)\w*)+")
OWN_NAMES = re.compile(r"_+(?:libc_|new_)?((?:pthread_|sched_|clock_|sem_|mem|str|malloc|calloc|realloc|free|munmap|mmap|regexec|qsort)\w*)")


def where(frame: str) -> tuple[str, str]:
    """A function, and its line. (The C library has names of its own for what it gives to others.)"""
    function, _, line = frame.partition("@")
    if function.startswith("__GI_"):
        function = f"__{function.removeprefix('__GI_').lstrip('_')}"
    found = OF_A_PROCESSOR.fullmatch(function) or OWN_NAMES.fullmatch(function)
    return found[1] if found else in_words(function), line.removeprefix("@")


def few_of(rows: tuple[str, ...]) -> list[str]:
    """The functions that called, the outermost first: of too many those of the system are left out, except for the one that the program called."""
    if len(rows) <= CALLERS:
        return list(rows)
    kept = [it for at, it in enumerate(rows) if "@@" not in it or at and "@@" not in rows[at - 1]]
    return kept[-CALLERS:]


def folded(frames: str) -> list[str]:
    """The frames of a look, the innermost first; of a function that calls itself the innermost one alone."""
    rows = frames.split(" ")
    return [it for at, it in enumerate(rows) if not at or where(it)[0] != where(rows[at - 1])[0]]


def with_line(frame: str) -> str:
    function, line = where(frame)
    return f"{function} ({line})" if line else function


def had_by(owner: str) -> str:
    """Who had a lock as the wait for it began."""
    if not owner:
        return ""
    who = f"the work of {owner[1:]}" if owner.startswith("%") else f"thread {owner.removeprefix('#')}"
    return f", which {who} had"


class Held(NamedTuple):
    """A poll that the system ended late: by so many ms; how long its thread waited for a processor behind its end; whether a signal ended it, as one
    does that lets a stopped process go on; and how long it had waited for a processor in front of it."""

    late: int
    waited: int
    signalled: bool
    before: int = 0


@dataclass
class Spent:
    # calls that waited: which function (of a lock with who had it: `pthread_mutex_lock^compact`), since when, how long, and where in the program, in
    # words
    waits: list[tuple[str, int, int, str]] = field(default_factory=list)
    # looks at its stack, the innermost function first (`rebuild@http.c:14`), how often each, and for how many ms on the processor it stands
    stacks: dict[str, list[int]] = field(default_factory=dict)
    # ms in the kernel; page faults without the disk, and with it; how often it gave the processor away, and was pushed off it; and how long it could
    # run and others had it: -1 where nobody knows
    kernel: int = 0
    faults: int = 0
    disk: int = 0
    gave: int = UNKNOWN
    lost: int = 0
    waited: int = 0

    # ---- as lines of the notes

    def lines(self, key: tuple[str, str, int]) -> list[str]:
        head = " ".join(map(str, key))
        lines = [] if self.gave == UNKNOWN else [f"spent {head} {self.kernel} {self.faults} {self.disk} {self.gave} {self.lost} {self.waited}"]
        lines += [f"waited {head} {function} {begin} {took} {place}" for function, begin, took, place in self.waits]
        return lines + [f"stack {head} {count}:{ms} {frames}" for frames, (count, ms) in sorted(self.stacks.items())]

    def take(self, word: str, words: list[str]) -> None:
        match word:
            case "spent":
                self.kernel, self.faults, self.disk, self.gave, self.lost, self.waited = map(int, words)
            case "waited":
                self.waits.append((words[0], int(words[1]), int(words[2]), " ".join(words[3:])))
            case "stack":
                self.look(" ".join(words[1:]), words[0])

    def look(self, frames: str, looked: str) -> None:
        """So often it was found there, and for so many ms: `3 12` or `3:12`, in earlier logs without these."""
        often, *ms = map(int, re.split("[ :]", looked))
        row = self.stacks.setdefault(frames, [0, 0])
        row[0] += often
        row[1] += ms[0] if ms else often * TICK

    # ---- in words

    def told(self, took: int, processor: int) -> str:
        """What took so long, of so many ms in all and on the processor (-1: nobody knows); `` where nothing more is known."""
        parts = [*self.waits_told(took), *self.without_processor(took, processor), *self.on_processor(took, processor)]
        return f": {'; '.join(parts)}" if parts else ""

    def is_much(self, part: int, took: int) -> bool:
        return part >= LEAST and TENTH * part >= took

    def waits_told(self, took: int) -> list[str]:
        by: dict[tuple[str, str], list[int]] = {}
        for function, _, waited, place in self.waits:
            by.setdefault((function, place), []).append(waited)
        found = sorted(by.items(), key=lambda it: -sum(it[1]))[:CALLS]
        return [self.wait_told(function, place, times) for (function, place), times in found if self.is_much(sum(times), took)]

    def wait_told(self, function: str, place: str, times: list[int]) -> str:
        function, _, owner = function.partition("^")
        what = {"alloc": "its alloc callback", "recorder": "the recorder, where another thread was at a line"}.get(function, function)
        place = (
            place.rpartition(", in ")[2].join(["", f" ({place.partition(', in ')[0].removeprefix('at ')})"])
            if function == "alloc" and place
            else place
        )
        often = f" ({len(times)} calls)" if len(times) > 1 and function != "recorder" else ""
        return f"{sum(times)} ms in {what}{often}{had_by(owner)}" + (f", {place}" if place else "")

    def without_processor(self, took: int, processor: int) -> list[str]:
        """Of the time that it wasn't on a processor what no call explains."""
        if self.gave == UNKNOWN or processor < 0:
            return []
        away = took - processor
        waited, rest = min(max(0, self.waited), away), away - sum(it[2] for it in self.waits if it[0] != "alloc")
        parts = []
        if self.is_much(waited, took):
            pushed = f", and was pushed off it {self.lost} times" if self.lost > 1 else ", and was pushed off it once" if self.lost else ""
            parts.append(f"the thread waited {waited} ms for a processor{pushed}")
        if self.disk and self.is_much(rest, took):
            parts.append(f"{self.disk} page fault{'s' * (self.disk != 1)} had to wait for the disk")
        elif self.is_much(rest - waited, took) and self.gave:
            # (a call that waits less than 2 ms has no line)
            short = f"{rest - waited} ms in all, too short each time to be seen"
            unseen = f"{rest - waited} ms for something that the recorder doesn't see"
            often = "once" if self.gave == 1 else f"{self.gave} times"
            parts.append(f"it gave the processor away {often}, and waited {short if 2 * self.gave > rest - waited else unseen}")
        elif not parts and not self.lost and self.is_much(rest, took):
            parts.append(f"for {rest} ms the machine itself stood still: it was never taken off its processor")
        return parts

    def on_processor(self, took: int, processor: int) -> list[str]:
        parts = []
        if self.gave != UNKNOWN and self.is_much(self.kernel, took) and 2 * self.kernel >= processor:
            parts.append(f"{self.kernel} ms in the kernel" + (f", {self.faults} page faults" if self.faults >= FAULTS else ""))
        looks, ms = (sum(it[at] for it in self.stacks.values()) for at in (0, 1))
        if looks >= LOOKS or ms >= LOOKED:
            parts += self.at_most(ms, 0 <= processor <= took - LEAST, looks < LOOKS)
        return parts

    def innermost(self, whole: int) -> tuple[str, ...]:
        """The functions in which it was for half of this time and more, from the callback inwards."""
        best: tuple[str, ...] = ()
        while True:
            # (functions by name)
            counts: collections.Counter[tuple[str, ...]] = collections.Counter()
            for frames, (_, ms) in self.stacks.items():
                names = tuple(where(it)[0] for it in reversed(folded(frames)))
                if len(names) > len(best) and names[: len(best)] == best:
                    counts[names[: len(best) + 1]] += ms
            found = counts.most_common(1)
            if not found or 2 * found[0][1] < whole:
                return best
            best = found[0][0]

    def at_most(self, looks: int, apart: bool, few: bool) -> list[str]:
        """The innermost function in which it was for most of so many ms, who called that, and the line at which it was most. (Of few looks no share
        is said.)"""
        best = self.innermost(looks)
        if not best:
            return []
        lines: collections.Counter[str] = collections.Counter()
        callers: collections.Counter[tuple[str, ...]] = collections.Counter()
        for frames, (_, ms) in self.stacks.items():
            rows = list(reversed(folded(frames)))
            if tuple(where(it)[0] for it in rows[: len(best)]) == best:
                lines[where(rows[len(best) - 1])[1]] += ms
                callers[tuple(rows[1 : len(best) - 1])] += ms
        (line, often), caller = lines.most_common(1)[0], callers.most_common(1)
        time = " of its time on the processor" if apart else " of it"
        if len(best) == 1:
            # (the callback itself: of that the line alone says more)
            return [f"{'it was found' if few else share(often, looks) + time} at {line}"] if line and 2 * often >= looks else []
        # (from the innermost one outwards, up to the one that the callback called)
        by = "".join(f", by {with_line(it)}" for it in reversed(few_of(caller[0][0])))
        head = "it was found" if few else share(lines.total(), looks) + time
        return [f"{head} in {best[-1]}" + (f" ({line})" if line else "") + (f", called{by.removeprefix(',')}" if by else "")]
