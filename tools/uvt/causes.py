"""Where the clock went on, in sentences: a callback, with what JavaScript did in it, or the loop; and of many causes the longest ones."""

from __future__ import annotations

from collections.abc import Sequence
from dataclasses import replace

from uvt.spent import UNKNOWN
from uvt.took import Took
from uvt.walk import Walk

MAIN = "the main program"
# How many names or steps a sentence has at the most.
MANY = 8


def few(words: Sequence[object]) -> str:
    shown = [str(it) for it in words[:MANY]]
    if len(words) > MANY:
        return f"{', '.join(shown)} and {len(words) - MANY} more"
    return shown[0] if len(shown) == 1 else f"{', '.join(shown[:-1])} and {shown[-1]}"


def steps_of(steps: Sequence[int]) -> str:
    return f"step {steps[0]}" if len(steps) == 1 else f"steps {few(steps)}"


def named(took: Took) -> str:
    """A callback, with the program's function where that is known; in node what it does."""
    if took.node:
        return took.node.words
    return f"{took.what}, {took.function}," if took.function else took.what


def told(took: Took) -> str:
    """Where the clock went on, in a sentence: which, how long, from which step to which."""
    if took.is_callback():
        return f"{named(took)} took {took.took()} ms{took.on_processor()}, {took.steps()}{took.did()}"
    return f"{took.took()} ms went by in {took.what}, {took.steps()}"


def in_javascript(walk: Walk, took: Took, begin: int, end: int) -> str:
    """What JavaScript did in it, between two times of the clock; `` where that isn't known."""
    first, last = took.pieces[0][0], took.pieces[-1][1]
    found = walk.notes.javascript.told(first, last, (max(begin, first), min(end, last))) if begin < end else []
    return f": {'; '.join(found)}" if found else ""


def one_main(causes: list[Took]) -> list[Took]:
    """These, and those of the main program that follow one another as one: each op of the loop's ends one of them."""
    found: list[Took] = []
    for it in causes:
        if found and it.what == found[-1].what == MAIN:
            found[-1] = replace(found[-1], last=it.last, pieces=found[-1].pieces + it.pieces, processor=UNKNOWN, spent=None)
        else:
            found.append(it)
    return found


# Of a stretch of time so many causes are told one by one.
ONE_BY_ONE = 6


def longest_of(causes: list[Took], begin: int, end: int) -> tuple[list[Took], list[str]]:
    """Of many causes the longest ones, and the others together, by their functions."""
    if len(causes) <= ONE_BY_ONE:
        return causes, []
    longest = sorted(causes, key=lambda it: it.between(begin, end), reverse=True)
    shown = [it for it in causes if it in longest[: ONE_BY_ONE // 2] or it.is_poll()]
    rest: dict[str, list[int]] = {}
    for it in causes:
        if it not in shown:
            whose = f"of {it.function}" if it.function else "of the callbacks" if it.is_callback() else "outside of callbacks"
            rest.setdefault(whose, []).append(it.between(begin, end))
    found = sorted(rest.items(), key=lambda it: -sum(it[1]))
    return shown, [f"others {whose} took {sum(took)} ms in all" for whose, took in found]


# Of a stretch of time the part that a callback of node's own has to have taken to be told.
FIFTH = 5


def is_told(took: Took, begin: int, end: int) -> bool:
    """Is it worth a word in what is said of this time? Node's own callbacks are where they took a fifth of it."""
    return not (took.node and took.node.own) or FIFTH * took.between(begin, end) >= end - begin


def sentence(walk: Walk, took: Took, begin: int, end: int) -> str:
    """Where the clock went on, with what JavaScript did in it: that comes first in node."""
    told_of = in_javascript(walk, took, begin, end)
    if not took.node or not told_of:
        return told(took) + told_of
    return f"{told_of.removeprefix(': ')}, in {took.node.words}, {took.steps()}"
