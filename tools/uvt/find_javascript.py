"""A question to the search by lines of JavaScript: where a recording has a handle for each timer and immediate (`./uvt record --lift`),
FILE:LINE stands for the one whose function begins there, or that was started there."""

from __future__ import annotations

import re
from pathlib import Path

from uvt.inputs import Fault, bytes_of
from uvt.javascript_pieces import PLACE
from uvt.notes import Notes
from uvt.notes_read import read_notes

STARTED = re.compile(r"an? \w+ of JavaScript, started at ([^\s,]+)")


def places_of(notes: Notes, name: str) -> list[str]:
    """Where its function begins, and where it was started."""
    started = STARTED.match(notes.names[name][1])
    function = re.search(r" \((\S+:\d+)\)$", notes.function("on", name, 1))
    return [it[1] for it in (function, started) if it]


def name_of(notes: Notes, place: str) -> str:
    """The name that stands for a line of the program."""
    found = [name for name in notes.names if any(it == place or it.endswith("/" + place) for it in places_of(notes, name))]
    if not found:
        raise Fault(f"no timer and no immediate was started at {place}, and none has its function there")
    if len(found) > 1:
        raise Fault(f"{place} is that of {', '.join(found)}: ask about one of these")
    return found[0]


def named(path: Path, lines: list[str]) -> tuple[list[str], list[str]]:
    """The lines of a question with names for lines of JavaScript; and what each of these stands for, in a sentence."""
    if not any(PLACE.fullmatch(word) for line in lines for word in line.split(" ")):
        return lines, []
    notes = read_notes(path, bytes_of(path))
    said: dict[str, str] = {}

    def put(word: str) -> str:
        if not PLACE.fullmatch(word):
            return word
        name = name_of(notes, word)
        kind = notes.names[name][1].partition(", first seen")[0]
        function = notes.function("on", name, 1)
        said[word] = f"{word} is `{name}`: {f'{function}, ' if function else ''}{kind}"
        return name

    return [" ".join(put(it) for it in line.split(" ")) for line in lines], list(said.values())
