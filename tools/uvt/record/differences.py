"""What a program did where the loop of `uvt` does something else, in words, and which part of the page speaks of it."""

from __future__ import annotations

import re

from uvt.notes import THINGS, sentence
from uvt.record.leading import Outcome
from uvt.record.events import WATCHERS
from uvt.record.items import Call, End, Item, Op, Program, Run, is_pool

PAGE = "docs/LIBUV.md"
IO = "Callbacks of I/O come in the order of the system"
ROUND = "Each iteration ends with its timers, and doesn't begin with them"
ENDS = "A default run that its first timers finish does no iteration (own)"
CLOSING = "Some handles close later"
THREAD = "An op by another thread"
ANY = "The loop goes another way"
MADE = re.compile(r"`(?:call|after|closed) (\S+) ")


def came(item: Call) -> str:
    """What a handle of I/O is, and what came with this callback."""
    return f" ({THINGS[item.kind]}: {sentence(':'.join([item.what, *item.known.split()]))})"


def says(item: Item) -> str:
    """What the program did, in words."""
    match item:
        case Call(callback="on"):
            return f"the program calls the callback of {item.name}{came(item) if item.is_io() else ''}"
        case Call(callback="after"):
            return f"the program calls the after callback of {item.name} ({item.what})"
        case Call():
            return f"the program calls the close callback of {item.name}"
        case Op():
            return f"the program does `{item.text}`"
        case Run():
            return f"the program begins `run {item.mode}`"
        case End():
            return f"the program's run ends with {item.alive}"
    return f"the program has `{type(item).__name__.lower()}`"


def kind_of(program: Program, name: str) -> str:
    """The kind of a name's handles."""
    return next((it.kind for it in program.items if isinstance(it, Call) and it.name == name), "")


def is_io(kind: str) -> bool:
    return kind in WATCHERS or kind == "async" or bool(kind) and is_pool(kind)


def heading_of(program: Program, outcome: Outcome) -> str:
    """The heading of the page that speaks of this difference."""
    item, made = outcome.item, MADE.search(outcome.why)
    if item and any(it.line < item.line for it in program.foreign):
        return THREAD
    kind = kind_of(program, made[1]) if made else ""
    if "`closed " in outcome.why and kind in ("fs_poll", "signal"):
        return CLOSING
    if isinstance(item, Call) and item.callback == "closed" and item.kind in ("fs_poll", "signal"):
        return CLOSING
    if isinstance(item, Call) and is_io(item.kind) or is_io(kind):
        return IO
    if isinstance(item, End) or "`end " in outcome.why or "`call " in outcome.why:
        return ROUND if program.is_before(45) else ENDS
    return ANY
