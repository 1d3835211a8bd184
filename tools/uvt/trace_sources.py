"""Files and places of JavaScript as DevTools know them."""

from __future__ import annotations

from uvt.javascript import JavaScript
from uvt.javascript_pieces import Place


def split(where: str) -> tuple[str, int]:
    """A file, and its line, from 1; 0 where nobody knows."""
    file, _, line = where.rpartition(":")
    return (file, int(line)) if file and line.isdecimal() else (where, 0)


class Sources:
    """Files as DevTools know them: by addresses and numbers."""

    def __init__(self, javascript: JavaScript) -> None:
        self.home = javascript.home
        self.ids: dict[str, int] = {}

    def url(self, file: str) -> str:
        if file in ("-", "") or ":" in file.split("/")[0]:
            return "" if file == "-" else file
        return f"file://{file}" if file.startswith("/") else f"file://{self.home}/{file}"

    def frame(self, place: Place, line: int = 0) -> dict[str, object]:
        """A function, or (with a line) where in it something was: DevTools count lines from 0."""
        file, begins = split(place.where)
        id = self.ids.setdefault(file, len(self.ids) + 1)
        name = "" if place.function in ("(anonymous)", "-") else place.function
        return {"functionName": name, "scriptId": str(id), "url": self.url(file), "lineNumber": max(0, (line or begins) - 1), "columnNumber": 0}

    def called(self, place: Place) -> dict[str, object]:
        """The same in a stack that is told: there lines count from 1."""
        frame = self.frame(place)
        return frame | {"lineNumber": split(place.where)[1], "columnNumber": 1}
