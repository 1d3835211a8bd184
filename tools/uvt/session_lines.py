"""The lines of a session's steps, in little memory: those that are alike stand there once. What made them, and what is asked of them, doesn't
matter: a recording as it is made and one that is gone through again are read by the same.
"""

from __future__ import annotations

import array
import bisect
import itertools
import re
from collections.abc import Iterator, Mapping

from uvt import codes

# Which of a name's lists a callback does, by the word with which its line begins.
LISTS = {"call": "on", "after": "after", "closed": "closed"}
# The lines of sections. What is left are the lines that the tools look at; a section is looked for where somebody asks for it.
SECTIONS = frozenset(codes.SECTIONS) - {"poll"}
PASSED = f"(?:\\d+ (?:{'|'.join(sorted(SECTIONS))})\n)*"
LOOKED_AT = re.compile(rf"{PASSED}(\d+) (.*)\n".encode())
# So many bytes of them are cut into lines at a time.
AT_ONCE = 1 << 19


class Lines(dict[bytes, str]):
    """Lines as texts: of those that are alike one is kept."""

    def __missing__(self, line: bytes) -> str:
        self[line] = text = line.decode("ascii", "replace")
        return text


def parts(said: bytes) -> Iterator[bytes]:
    """So many bytes of these lines at a time, and whole lines."""
    begin = 0
    while begin < len(said):
        end = said.find(b"\n", min(begin + AT_ONCE, len(said) - 1)) + 1
        yield said[begin:end]
        begin = end


def looked_at(walked: bytes, known: Lines) -> tuple[array.array[int], list[str]]:
    """Of all lines but those of sections the steps, and the lines."""
    steps, lines = array.array("i"), list[str]()
    for part in parts(walked):
        # (behind the last of them there is one more, so that no section stands there)
        found = LOOKED_AT.findall(part + b"0 \n")[:-1]
        steps.extend(int(it) for it, _ in found)
        lines += [known[it] for _, it in found]
    return steps, lines


def told_of(lines: list[str]) -> tuple[array.array[int], list[str]]:
    """The same of the lines of all steps."""
    steps = array.array("i", (step for step, line in enumerate(lines, 1) if line and line not in SECTIONS))
    return steps, [lines[step - 1] for step in steps]


class Calls(Mapping[int, tuple[str, str, int]]):
    """By the step that begins a callback its list, its name, and which call of these it is."""

    def __init__(self, told_at: array.array[int], told: list[str]) -> None:
        begins = {line: (LISTS[words[0]], words[1]) for line in set(told) if (words := line.split(" ", 2))[0] in LISTS}
        self.steps = array.array("i", (step for step, line in zip(told_at, told) if line in begins))
        # (of each list and name one)
        self.kinds = [begins[line] for line in told if line in begins]
        numbers = {it: itertools.count(1) for it in begins.values()}
        self.numbers = array.array("i", (next(numbers[it]) for it in self.kinds))

    def at(self, step: int) -> int:
        """Which of them begins at this step; -1 where none does."""
        at = bisect.bisect_left(self.steps, step)
        return at if at < len(self.steps) and self.steps[at] == step else -1

    def __getitem__(self, step: int) -> tuple[str, str, int]:
        if (at := self.at(step)) < 0:
            raise KeyError(step)
        return *self.kinds[at], self.numbers[at]

    def rows(self) -> Iterator[tuple[int, tuple[str, str, int]]]:
        """All of them, in little time."""
        return zip(self.steps, ((*kind, number) for kind, number in zip(self.kinds, self.numbers)))

    def __contains__(self, step: object) -> bool:
        return isinstance(step, int) and self.at(step) >= 0

    def __iter__(self) -> Iterator[int]:
        return iter(self.steps)

    def __len__(self) -> int:
        return len(self.steps)


class StepLines:
    """The lines of all steps but those of sections, each with its step."""

    def __init__(self, told_at: array.array[int], told: list[str]) -> None:
        self.told_at, self.told = told_at, told
        self.word_of = {it: it.split(" ", 1)[0] for it in set(told)}
        self.words = {it: array.array("i") for it in self.word_of.values()}
        for step, word in zip(told_at, map(self.word_of.__getitem__, told)):
            self.words[word].append(step)
        self.calls = Calls(told_at, told)

    def line(self, step: int) -> str:
        """The line of a step; `` where it has none, and of a section."""
        at = bisect.bisect_left(self.told_at, step)
        return self.told[at] if at < len(self.told_at) and self.told_at[at] == step else ""


class OfName:
    """The steps whose line has a name, each with that line's words."""

    def __init__(self) -> None:
        self.steps = array.array("i")
        self.words: list[list[str]] = []

    def add(self, step: int, words: list[str]) -> None:
        self.steps.append(step)
        self.words.append(words)

    def __iter__(self) -> Iterator[tuple[int, list[str]]]:
        return zip(self.steps, self.words)
