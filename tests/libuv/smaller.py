"""A program that no difference explains, made small: its lines are left out, one by one, as long as that stays so."""

from __future__ import annotations

from tests.libuv.comparing import Tested, see
from tests.libuv.programs import Program
from uvt.libuv.runner import Library


def is_needed(lines: list[str], at: int) -> bool:
    """Whether the rest would be no script without this line."""
    words = lines[at].split(" ")
    if words[0] in ("begin", "limit", "workers", "order", "io", "undisturbed"):
        return True
    return words[0] == "var" and any(words[1] in it.split(" ")[1:] for it in lines[:at] + lines[at + 1 :])


def without(lines: list[str], at: int) -> str:
    return "\n".join(lines[:at] + lines[at + 1 :])


def make_small(library: Library, tested: Tested, text: str) -> Program:
    lines = text.split("\n")
    first = 0
    while True:
        tries = {str(at): Program(without(lines, at)) for at in range(first, len(lines)) if not is_needed(lines, at)}
        faults = [int(name) for name, seen in see(library, tested, tries).items() if seen.fault()] if tries else []
        if faults:
            # what stands before it was tried already
            first = min(faults)
            del lines[first]
        elif first:
            first = 0
        else:
            return Program("\n".join(lines))
