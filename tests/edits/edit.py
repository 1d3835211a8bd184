"""A wrong edit: the lines of a crate that it changes, and the function in whose body they stand."""

import re
from collections.abc import Iterable
from dataclasses import dataclass
from pathlib import Path

FUNCTION = re.compile(r"(?P<indent> *)(?:pub(?:\([^)]*\))? )?(?:const )?(?:unsafe )?fn (?P<name>\w+)")
BLOCK = re.compile(r"(?P<indent> *)(?:pub(?:\([^)]*\))? )?(?:unsafe )?(?P<kind>impl|trait|mod)\b(?P<head>.*)")


class Unfit(Exception):
    """Why an edit can't be applied."""


@dataclass(frozen=True)
class Body:
    """A function, by its lines in a file, from 1, and by what the text there tells of the name that a check gives it."""

    file: str
    first: int
    last: int
    name: re.Pattern[str]

    def among(self, functions: Iterable[str]) -> str | None:
        """The function's name, of those that a check gave; None where none or more than one is like it."""
        like = [it for it in functions if self.name.fullmatch(it)]
        return like[0] if len(like) == 1 else None


@dataclass(frozen=True, eq=False)
class Edit:
    """An edit of a crate: the new texts of lines, by file and line, from 1, and the function whose body has all of them.

    One that the types of the code refuse, before the prover comes to it, names the compiler's error; no body is told of it.
    """

    crate: str
    path: Path
    lines: dict[tuple[str, int], str]
    body: Body | None
    types: str = ""

    def __str__(self) -> str:
        return f"{self.crate}/{self.path.name}"


def read(path: Path, crate: Path) -> Edit:
    """The edit of this file, for the crate in that folder. Raises Unfit where it can't be applied."""
    texts: dict[str, str] = {}
    were: dict[str, str] = {}
    file, old, types = "", None, ""
    for line in path.read_text().split("\n"):
        if line.startswith("types: "):
            types = line.removeprefix("types: ").strip()
        elif line.startswith("file: "):
            file = line.removeprefix("file: ").strip()
            if not (crate / file).is_file():
                raise Unfit(f"there is no file {file}")
            were.setdefault(file, (crate / file).read_text())
            texts.setdefault(file, were[file])
        elif line.startswith("old: "):
            old = line.removeprefix("old: ")
        elif line.startswith("new:"):
            if not file or not old:
                raise Unfit("a line `new` stands behind no line `file` and `old`")
            if texts[file].count(old) != 1:
                raise Unfit(f"{file} has its text {texts[file].count(old)} times: {old.strip()[:80]}")
            texts[file] = texts[file].replace(old, line.removeprefix("new:").removeprefix(" "))
            old = None
    lines = {(name, at): text for name, now in texts.items() for at, text in changed(were[name], now)}
    if not lines:
        raise Unfit("it changes nothing")
    return Edit(crate.name, path, lines, None if types else body_of(lines, were, crate.name), types)


def changed(was: str, now: str) -> list[tuple[int, str]]:
    """The lines that differ. An edit's texts are parts of lines, so as many lines stand there as before."""
    pairs = zip(was.split("\n"), now.split("\n"), strict=True)
    return [(at, new) for at, (old, new) in enumerate(pairs, 1) if old != new]


def applied(edits: Iterable[Edit], crate: Path) -> dict[str, str]:
    """The texts of the files that these edits change, with all of them in it. No two of them change one line."""
    texts: dict[str, list[str]] = {}
    for edit in edits:
        for (file, at), text in edit.lines.items():
            lines = texts.setdefault(file, (crate / file).read_text().split("\n"))
            lines[at - 1] = text
    return {file: "\n".join(lines) for file, lines in texts.items()}


def body_of(changes: Iterable[tuple[str, int]], texts: dict[str, str], crate: str) -> Body | None:
    """The function whose body has all these lines. The files are in the layout of `rt fmt`, which tells where a body ends."""
    found = {function_at(file, texts[file].split("\n"), at, crate) for file, at in changes}
    return found.pop() if len(found) == 1 else None


def function_at(file: str, lines: list[str], at: int, crate: str) -> Body | None:
    """The function in whose body this line stands."""
    if not re.fullmatch(r"src/[\w/]+\.rt", file):
        return None
    first = next((it for it in range(at, 0, -1) if FUNCTION.match(lines[it - 1])), None)
    if first is None:
        return None
    head = FUNCTION.match(lines[first - 1])
    assert head
    indent = head["indent"]
    opens = [it for it in range(first, len(lines) + 1) if is_opening(lines[it - 1], indent, it == first)]
    closes = [it for it in range(first, len(lines) + 1) if lines[it - 1] == indent + "}"]
    if not opens or not closes or not opens[0] < at < closes[0]:
        return None
    owner = owner_of(lines[: first - 1], indent)
    if owner is None:
        return None
    # a method goes by the module of its type, which may be another one
    path = r"(\w+::)*" if owner else "".join(f"{it}::" for it in file.removeprefix("src/").removesuffix(".rt").split("/"))
    path = "" if path in ("lib::", "main::") else path
    # a check points to a function by the first line of its attributes
    above = re.compile(indent + r"(#\[|//|\)\]| )")
    while first > 1 and above.match(lines[first - 2]):
        first -= 1
    return Body(file, first, closes[0], re.compile(f"{crate}::{path}{owner}{head['name']}"))


def is_opening(line: str, indent: str, is_first: bool) -> bool:
    """Whether a function's body begins at the end of this line, one of those from its first on."""
    return line == indent + "{" or (line.endswith("{") and (is_first or line.startswith(indent + ")")))


def owner_of(above: list[str], indent: str) -> str | None:
    """What stands in front of a function's name in what a check calls it, as a pattern; None where the text doesn't tell."""
    if not indent:
        return ""
    block = next((it for it in map(BLOCK.match, reversed(above)) if it and len(it["indent"]) < len(indent)), None)
    if not block or block["kind"] == "mod":
        return None
    head = block["head"]
    while "<" in head and head != (head := re.sub(r"<[^<>]*>", "", head)):
        pass
    named = re.match(r" *(?:[\w:]*?(?P<trait>\w+) for )?[\w:]*?(?P<type>\w+)\b", head)
    if not named:
        return None
    trait = named["trait"] or ""
    return named["type"] + ("" if trait in ("", "Drop") else trait + r"\w*") + "::"
