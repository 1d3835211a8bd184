"""What a recording that begins in the middle can't know: it has what there was then as ops of its own, before its first run. Who asked for these in
the program, and when, nobody knows."""

from __future__ import annotations

from uvt.notes import Notes

UNKNOWN = "before the recording begins, so by whom and when isn't known"


def is_before(notes: Notes, step: int) -> bool:
    """Does this step stand for something that was there before?"""
    return 0 < step <= notes.before


def made_before(notes: Notes, steps: list[int]) -> str:
    """Of a handle or request that was made at these steps; `` where it was made in the recording."""
    return f", made {UNKNOWN}" if steps and all(is_before(notes, it) for it in steps) else ""


def asked_before(notes: Notes, step: int, word: str) -> str:
    """Of what was asked for at this step, with the word for that (`started`, `queued`); `` where it was asked for in the recording."""
    return f"{word} {UNKNOWN}" if is_before(notes, step) else ""


def at_least(notes: Notes, step: int) -> str:
    """A time that counts from this step is longer than what is seen of it."""
    return "at least " if is_before(notes, step) else ""
