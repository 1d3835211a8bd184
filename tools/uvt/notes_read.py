"""Reads the notes of a recording: line by line, and what is none is passed over."""

from __future__ import annotations

from pathlib import Path

from uvt.notes import HEAD, Notes, Request, harmless, sum_of
from uvt.spent import Held, Spent


def take(notes: Notes, line: str) -> None:
    """Takes a line. What is none is passed over."""
    words = line.split(" ")
    try:
        match words[0]:
            case "part":
                notes.part = line.removeprefix("part ")
            case "polls":
                notes.polls = line.removeprefix("polls ")
            case "by":
                notes.by[int(words[1])] = " ".join(words[2:])
            case "loop":
                notes.loop = int(words[1])
            case "cpu":
                notes.processor[words[1], words[2], int(words[3])] = int(words[4])
            case "spent" | "waited" | "stack":
                notes.spent.setdefault((words[1], words[2], int(words[3])), Spent()).take(words[0], words[4:])
            case "held":
                notes.held[int(words[1])] = Held(int(words[2]), int(words[3]), words[4] == "1", *map(int, words[5:6]))
            case "reaped":
                notes.reaped[words[1]] = " ".join(words[2:])
            case "place":
                notes.places.append(line.removeprefix("place "))
            case "at":
                notes.asked_at.update((int(it), int(words[1])) for it in words[2:])
            case "nothing":
                notes.nothings.append((words[1], words[2], int(words[3]), int(words[4])))
            case "request":
                notes.requests.append(read_request(words))
            case "again":
                notes.again.append(words[1])
            case "written":
                notes.written[words[1]] = " ".join(words[2:])
            case "kept":
                notes.kept = line.removeprefix("kept ")
            case "before":
                notes.before = int(words[1])
            case "ended":
                notes.ended = line.removeprefix("ended ")
            case "came":
                notes.what.setdefault(words[1], {}).update(enumerate(words[3:], int(words[2])))
            case "js":
                notes.javascript.take(words[1:])
            case "name":
                notes.names[words[1]] = words[2], " ".join(words[3:])
            case "calls":
                notes.functions.setdefault((words[1], words[2]), []).append((int(words[3]), " ".join(words[4:])))
            case "thread":
                notes.foreign[int(words[1])] = words[2]
            case "clock":
                notes.times[int(words[1])] = int(words[2])
            case "unseen":
                notes.guessed.update(int(it) for it in words[1:])
            case "outside":
                notes.outside.update(int(it) for it in words[1:])
    except (IndexError, KeyError, ValueError):
        pass


def read_request(words: list[str]) -> Request:
    bytes, asked, asked_step, place, done, done_step = map(int, words[3:9])
    return Request(words[1], words[2], bytes, asked, asked_step, place, done, done_step, words[9])


def read_notes(path: Path, recording: bytes) -> Notes:
    """The notes beside this recording; empty ones where there are none of it."""
    notes = Notes()
    try:
        lines = harmless(path.with_suffix(".notes").read_text(encoding="utf-8", errors="replace")).split("\n")
    except (OSError, ValueError):
        return notes
    if lines and lines[0] == f"{HEAD} {sum_of(recording)}":
        for line in lines[1:]:
            take(notes, line)
    return notes
