"""Scripts and recordings as they are read from files and inputs, and the faults that a person is told."""

from __future__ import annotations

import functools
import re
from dataclasses import dataclass, field
from pathlib import Path
from typing import BinaryIO

from uvt.notes import Notes, harmless, path_of
from uvt.notes_read import read_notes


class Fault(Exception):
    """What a person is to be told, in a sentence. It may name a file, or show a line, that holds anything: a terminal gets none of its signs."""

    def __str__(self) -> str:
        return harmless(super().__str__())


@dataclass
class Script:
    """A script's lines as they were written, without its `begin`, and what the program makes of them."""

    lines: list[str]
    # the number of its first line in the file: a recording has its version in front
    first: int = 1
    # what is known of a recording beside its steps
    notes: Notes = field(default_factory=Notes)

    def is_recorded(self) -> bool:
        return self.first > 1

    def has_io(self) -> bool:
        """Whether it may have handles of I/O."""
        return "io" in self.lines

    def names(self) -> list[str]:
        """The names, in the order of their declarations."""
        return [it.split(" ")[1] for it in self.lines if it.startswith("var ") and it.count(" ") == 1]

    def ops(self) -> list[list[str]]:
        """The words of each op, of the main program and of callbacks."""
        found = (it.split(" ") for it in self.lines if it.startswith(("main ", "on ", "after ", "closed ")))
        return [words[1:] if words[0] == "main" else [it for it in words[2:] if not it.startswith("@")] for words in found]

    @functools.cached_property
    def places(self) -> dict[str, list[int]]:
        """The numbers, from 0, of the lines of each list, in order: those of `main`, of `on NAME`, .."""
        found: dict[str, list[int]] = {}
        for at, line in enumerate(self.lines):
            words = line.split(" ", 2)
            if len(words) > 1:
                found.setdefault(words[0] if words[0] == "main" else f"{words[0]} {words[1]}", []).append(at)
        return found

    def numbered(self, first: str) -> list[int]:
        """The same of one list: the k-th op of `main`, or of `on NAME`."""
        return self.places.get(first, [])


@dataclass
class Recording:
    """A recording: its script, the steps that stand, and the callbacks that were recorded."""

    script: Script
    steps: list[str]
    calls: list[str]


def read_lines(text: str) -> list[str]:
    # (a recording has the same lines again and again: of those one is kept)
    known: dict[str, str] = {}
    lines = [known.setdefault(it, it) for it in text.split("\n")]
    return lines[:-1] if lines and not lines[-1] else lines


def read_recording(text: str) -> Recording:
    """Cuts a recording into its parts. What is in them is for the program to judge."""
    lines = read_lines(text)
    try:
        begin = lines.index("begin")
        calls = lines.index("calls", begin)
    except ValueError:
        raise Fault("this is no recording: it has no line `begin`, or no line `calls` behind it") from None
    if not re.fullmatch(r"uvt \d+", lines[0]) or lines[-1] != "end":
        raise Fault("this is no recording: its first line is `uvt` with a version, and its last one `end`")
    return Recording(Script(lines[1:begin], 2), lines[begin + 1 : calls], lines[calls + 1 : -1])


# In front of a session that find has found of a recording in node, Python or Lua.
HOOKED = "# recorded with what ./uvt record has node, Python and Lua load"


def read_text(text: str) -> tuple[Script, list[str]]:
    """A script, or a recording, with the steps or commands behind it."""
    lines = read_lines(text)
    if lines and re.fullmatch(r"uvt \d+", lines[0]):
        recording = read_recording(text)
        return recording.script, recording.steps
    if "begin" in lines:
        begin = lines.index("begin")
        return Script(lines[:begin]), [it for it in lines[begin + 1 :] if it and not it.startswith("#")]
    return Script(lines), []


def read_bytes(data: bytes, path: Path | None) -> tuple[Script, list[str]]:
    """The same, of what a file has, with the notes beside it."""
    if data.startswith(b"uvt-log "):
        raise Fault("this is a log of a program, and no recording: `uvt-record --log FILE` makes recordings of it")
    if data.startswith(b"uvt-notes "):
        raise Fault("these are the notes of a recording: the recording is the file beside it that ends with .rec")
    script, steps = read_text(data.decode("ascii", "surrogateescape"))
    if path and script.is_recorded():
        script.notes = read_notes(path, data)
    return script, steps


def bytes_of(path: Path) -> bytes:
    try:
        return path.read_bytes()
    except OSError as fault:
        raise Fault(f"{path}: {fault.strerror}") from None
    except ValueError:
        raise Fault("this is no path: it has a zero byte, or a sign that no name of a file may have") from None


def read_input(path: Path) -> tuple[Script, list[str]]:
    """The same, of a file."""
    return read_bytes(bytes_of(path), path)


def read_descriptor(file: BinaryIO) -> tuple[Script, list[str]]:
    """The same, of an input that is open already."""
    try:
        data = file.read()
    except OSError as fault:
        raise Fault(f"the input can't be read: {fault.strerror}") from None
    return read_bytes(data, path_of(file.fileno()))
