"""What the machine did to a program: how long its thread waited for a processor, in polls that ended late and in callbacks."""

from __future__ import annotations

from collections.abc import Iterable
from typing import TYPE_CHECKING

from uvt.spent import UNKNOWN, Held

if TYPE_CHECKING:
    from uvt.took import Took
    from uvt.walk import Walk

# A poll that ended so late, in ms, is told why.
HELD = 2


def ended_late(walk: Walk, left: int) -> Held | None:
    """What the system did to a poll that was left then."""
    found = [it for at in range(left - HELD, left + HELD + 1) if (it := walk.notes.held.get(at)) and max(it.late, it.before) >= HELD]
    return max(found) if found else None


def waited_for(held: Held | None) -> int:
    """How long its thread waited for a processor, in front of it and behind its end."""
    return held.waited + held.before if held else 0


def took_most(walk: Walk, left: int, late: int) -> bool:
    """Was a poll so late for the most part since its thread waited for a processor?"""
    return late >= HELD and 2 * waited_for(ended_late(walk, left)) >= late


def knows(walk: Walk) -> bool:
    """Does the recording say of each poll that the system ended late that it did? (Earlier ones don't.)"""
    return bool(walk.notes.held) or any(it.gave != UNKNOWN for it in walk.notes.spent.values())


def ended(walk: Walk, until: int, left: int) -> str:
    """When a poll was to end, and what came behind that."""
    held, late = ended_late(walk, left), left - until
    if took_most(walk, left, late):
        return f"was to end at {until} ms, and the thread waited {min(waited_for(held), late)} ms for a processor"
    # (the system reckons from when it was asked)
    began = late - held.late if held else late if knows(walk) else 0
    if began < HELD:
        return f"was to end at {until} ms, and the system ended it at {left} ms{why_late(held)}"
    return f"began {began} ms late by the loop's time: it ended at {left} ms in place of {until} ms"


def why_late(held: Held | None) -> str:
    """Why the system ended a poll late, where the thread didn't wait for a processor for most of that time."""
    if not held or held.late < HELD:
        return ""
    if held.signalled:
        return " (a signal ended it, and no processor was lacking: the process was stopped meanwhile, as by SIGSTOP or a debugger)"
    waits = f"waited {held.waited} ms" if held.waited else "did not wait"
    return f" (it woke the thread so late, which then {waits} for a processor)"


def more(walk: Walk, rest: int, left: int) -> str:
    """The same of what a poll took beyond what others had made it take."""
    if rest <= 1:
        return ""
    if took_most(walk, left, rest):
        return f", and the thread waited {min(waited_for(ended_late(walk, left)), rest)} ms of these for a processor"
    return f", and {rest} ms more{why_late(ended_late(walk, left))}"


def part(walk: Walk, took: Took, begin: int, end: int) -> int:
    """How much of this time of a poll or a callback is the machine's: its thread waited for a processor, or the system woke it late."""
    between = took.between(begin, end)
    if took.is_poll():
        held = ended_late(walk, took.pieces[-1][1])
        if held and held.signalled and 2 * held.waited < held.late:
            return 0
        # (what came before it, and made the loop's time an earlier one, makes it wait for so much longer)
        now, clock = walk.times(took.first)
        before = [it for it in walk.causes(now, clock) if it.is_callback() and it.first < took.first]
        return min(between, (held.late + held.before if held else 0) + sum(part(walk, it, now, clock) for it in before))
    if not took.spent or took.spent.gave == UNKNOWN:
        return 0
    return min(between, max(0, took.spent.waited), max(0, took.took() - max(0, took.processor)))


def owns(walk: Walk, spans: Iterable[tuple[int, int]]) -> dict[tuple[int, int], int]:
    """The same of many times, each once. (What they rest on is asked of the program at once.)"""
    found = dict.fromkeys(spans, 0)
    walk.ask_times({it.first for span in found for it in walk.causes(*span) if it.is_poll()})
    return {span: own(walk, *span) for span in found}


def own(walk: Walk, begin: int, end: int) -> int:
    """How much of this time isn't the machine's."""
    return end - begin - sum(part(walk, it, begin, end) for it in walk.causes(begin, end) if may_be_machines(it))


def may_be_machines(took: Took) -> bool:
    """Of callbacks that waited for no processor nothing is the machine's. (There may be many of them.)"""
    return took.is_poll() or took.spent is not None and took.spent.waited > 0
