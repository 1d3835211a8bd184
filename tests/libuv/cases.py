"""libuv's own tests as scripts: each file of cases/ says at its head what the assertions of the test ask of the lines.

  # asks N: LINE            so many lines are like this one; a `*` in it stands for anything
  # asks some: LINE         one is at least
  # asks in order: A; B; .. these come one behind the other, with others between them or not
  # asks then: C; ..        and these behind those of the line before
  # not on uvt: HEADING     what is asked holds of libuv alone, by a difference that docs/LIBUV.md tells of
"""

from __future__ import annotations

import re
from dataclasses import dataclass, field
from fnmatch import fnmatchcase
from pathlib import Path

HERE = Path(__file__).resolve().parent
from uvt.libuv.runner import common

FOLDER = HERE / "cases"
ASKS = re.compile(r"# asks (\d+|some|in order|then): (.*)")
ELSEWHERE = re.compile(r"# not on uvt: (.*)")


@dataclass
class Case:
    """What is asked of the lines of a script."""

    path: Path
    text: str
    counts: list[tuple[str, str]] = field(default_factory=list)
    order: list[str] = field(default_factory=list)
    # the heading of the difference by which uvt gives other answers
    differs: str | None = None

    def name(self) -> str:
        return self.path.stem

    def unmet(self, lines: list[str]) -> list[str]:
        """What is asked and isn't so of these lines."""
        found = []
        for count, like in self.counts:
            number = sum(fnmatchcase(it, like) for it in lines)
            if number != int(count) if count != "some" else number == 0:
                found.append(f"asked for {count}: {like}, and there are {number}")
        rest = iter(lines)
        for like in self.order:
            if not any(fnmatchcase(it, like) for it in rest):
                return found + [f"asked for in order: no `{like}` comes behind those before it"]
        return found

    def wrong_on_uvt(self, output: str) -> list[str]:
        """What of the output of `uvt debug` isn't as it is asked; where a difference is told of, that nothing is wrong."""
        unmet = self.unmet([it for it in map(common, output.splitlines()) if it is not None])
        if self.differs and not unmet:
            return [f"all that is asked holds, and the case says that it doesn't: {self.differs}"]
        return [] if self.differs else unmet


def read_case(path: Path) -> Case:
    case = Case(path, path.read_text(encoding="ascii"))
    for line in case.text.splitlines():
        if asked := ASKS.fullmatch(line):
            if asked[1] in ("in order", "then"):
                case.order += asked[2].split("; ")
            else:
                case.counts.append((asked[1], asked[2]))
        elif there := ELSEWHERE.fullmatch(line):
            case.differs = there[1]
    return case


def all_cases() -> list[Case]:
    return [read_case(it) for it in sorted(FOLDER.glob("*.uvt"))]
