"""Source maps: which line a person wrote stands for a line of what a compiler made of it (TypeScript, a bundler), as far as the file says so itself.

A file names its map in its last line (`//# sourceMappingURL=`), as a file beside it or as data within. A line of the file is followed where all of
it comes from one line of one source; where it comes from several, as in a file that is all one line, nobody says which, and it stays as it is.
"""

from __future__ import annotations

import base64
import contextlib
import json
import os
import re
from pathlib import Path
from urllib.parse import unquote

DIGITS = "ABCDEFGHIJKLMNOPQRSTUVWXYZabcdefghijklmnopqrstuvwxyz0123456789+/"
VALUES = {sign: value for value, sign in enumerate(DIGITS)}
# How many bytes at a file's end are looked at; and of maps that are larger nothing is read.
TAIL, LARGEST = 1 << 20, 64 << 20
NAMED = re.compile(rb"//[#@] ?sourceMappingURL=(\S+)\s*$")
DATA = re.compile(r"data:application/json(?:;charset=[^;,]+)?(;base64)?,(.*)", re.DOTALL)


def numbers(text: str) -> list[int]:
    """The numbers of a segment, each in digits of five bits, the lowest first, with a sixth that says whether more come."""
    found, value, shift = [], 0, 0
    for sign in text:
        digit = VALUES[sign]
        value += (digit & 31) << shift
        shift += 5
        if digit < 32:
            found.append(-(value >> 1) if value & 1 else value >> 1)
            value = shift = 0
    return found


def lines_of(mappings: str) -> dict[int, tuple[int, int]]:
    """By a line of the file, from 1, the one source and the line of it, from 1, that it comes from."""
    found: dict[int, tuple[int, int]] = {}
    source = line = 0
    for at, row in enumerate(mappings.split(";"), 1):
        places = set()
        for segment in filter(None, row.split(",")):
            values = numbers(segment)
            if len(values) >= 4:
                source, line = source + values[1], line + values[2]
                places.add((source, line + 1))
        if len(places) == 1:
            found[at] = places.pop()
    return found


def text_of_map(path: Path) -> tuple[str, Path]:
    """The map that a file names, and the folder from which its sources are said; `` where it names none."""
    with path.open("rb") as file:
        file.seek(max(0, os.fstat(file.fileno()).st_size - TAIL))
        named = NAMED.search(file.read())
    url = named[1].decode("utf-8", "replace") if named else ""
    if data := DATA.match(url):
        return (base64.b64decode(data[2]).decode() if data[1] else unquote(data[2])), path.parent
    beside = path.parent / unquote(url)
    if not url or "://" in url or beside.stat().st_size > LARGEST:
        return "", path.parent
    return beside.read_text(encoding="utf-8"), beside.parent


class Maps:
    """The maps of a program's files; files are said from where it was started."""

    def __init__(self) -> None:
        self.known: dict[str, tuple[list[str], dict[int, tuple[int, int]]]] = {}
        self.places: dict[str, str] = {}

    def read(self, file: str) -> tuple[list[str], dict[int, tuple[int, int]]]:
        """The sources of a file, and its lines."""
        if file not in self.known:
            self.known[file] = [], {}
            with contextlib.suppress(OSError, ValueError, KeyError, TypeError, AttributeError, RecursionError):
                text, folder = text_of_map(Path(file)) if Path(file).is_file() else ("", Path())
                if text:
                    values = json.loads(text)
                    root = folder / values.get("sourceRoot", "") if values.get("sourceRoot") else folder
                    self.known[file] = [self.said(root, it) for it in values["sources"]], lines_of(values["mappings"])
        return self.known[file]

    def said(self, root: Path, source: str | None) -> str:
        """A source's file as the others are said, from where the program was started."""
        if not source or "://" in source:
            return ""
        return os.path.relpath(root / source, Path()) if not os.path.isabs(source) else source

    def place(self, where: str) -> str:
        """Of FILE:LINE the FILE:LINE that a person wrote; the same where nobody says."""
        if where not in self.places:
            self.places[where] = self.followed(where)
        return self.places[where]

    def line(self, where: str, line: int) -> int:
        """Of a line in the file of a place that was followed the line in the source of that place; 0 where nobody says."""
        if not line or self.place(where) == where:
            return line
        file, _, number = self.place(f"{where.rpartition(':')[0]}:{line}").rpartition(":")
        return int(number) if file == self.place(where).rpartition(":")[0] else 0

    def followed(self, where: str) -> str:
        file, _, line = where.rpartition(":")
        if not file or not line.isdigit() or file.startswith(("node:", "python:")):
            return where
        sources, lines = self.read(file)
        source, number = lines.get(int(line), (-1, 0))
        return f"{sources[source]}:{number}" if 0 <= source < len(sources) and sources[source] and " " not in sources[source] else where
