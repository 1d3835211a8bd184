"""What a breakpoint of an editor has beside its place: a condition, a count of hits, a message in place of a stop."""

from __future__ import annotations

import operator
import re
from collections.abc import Callable
from dataclasses import dataclass

from uvt.state import State

SIGNS: dict[str, Callable[[int, int], bool]] = {
    "==": operator.eq,
    "=": operator.eq,
    "!=": operator.ne,
    "<=": operator.le,
    ">=": operator.ge,
    "<": operator.lt,
    ">": operator.gt,
}
WORD = r"[a-z][a-z0-9_]*(?:\.[a-z]+)?"
CONDITION = re.compile(rf" *({WORD}) *(==|=|!=|<=|>=|<|>) *(\d+) *")
HITS = re.compile(r" *(==|=|>=|>|%)? *([1-9]\d{0,8}) *")
IN_MESSAGE = re.compile(rf"\{{({WORD})\}}")
HELP = "a condition is `now > 50`, `clock == 7` or `NAME.due >= 20` (a number of `state`, or a name's active, ref, closing, due, repeat or pending)"


class Unknown(Exception):
    """What was asked for isn't known here, with the sentence that says what is."""


def value_of(state: State, word: str) -> int | None:
    """A number of the state, or a value of a name's slot; None where there is none now."""
    name, _, part = word.partition(".")
    if not part:
        return state.numbers.get(name)
    slot = state.slot_of(name)
    value = slot.values.get(part) if slot else None
    return int(value) if value is not None and value.isdecimal() else None


@dataclass
class More:
    """What one breakpoint has beside its place, and how often it was hit."""

    condition: str = ""
    hits: str = ""
    message: str = ""
    count: int = 0

    def check(self, names: list[str], numbers: dict[str, int]) -> None:
        """Says no to what isn't known here, before it is taken."""
        if self.condition:
            found = CONDITION.fullmatch(self.condition)
            name = found[1].partition(".") if found else ("", "", "")
            if not found or (name[0] not in names if name[1] else name[0] not in numbers):
                raise Unknown(HELP)
        if self.hits and not HITS.fullmatch(self.hits):
            raise Unknown("a hit condition is a number, `>= N`, `> N` or `% N`")

    def holds(self, state: State) -> bool:
        """Whether it is hit there. A hit that the count doesn't ask for is counted."""
        if self.condition:
            found = CONDITION.fullmatch(self.condition)
            assert found, "it was checked"
            word, sign, number = found.groups()
            value = value_of(state, word)
            if value is None or not SIGNS[sign](value, int(number)):
                return False
        self.count += 1
        if not self.hits:
            return True
        asked = HITS.fullmatch(self.hits)
        assert asked, "it was checked"
        sign, number = asked.groups()
        if sign == "%":
            return self.count % int(number) == 0
        return SIGNS[sign or "=="](self.count, int(number))

    def said(self, state: State) -> str:
        """The message, with values in place of what stands in braces."""
        return IN_MESSAGE.sub(lambda it: str(value_of(state, it[1])), self.message)


def more_of(row: object) -> More:
    """What a client gave."""
    values = row if isinstance(row, dict) else {}
    condition, hits, message = (it.strip() if isinstance(it, str) else "" for it in map(values.get, ("condition", "hitCondition", "logMessage")))
    return More(condition, hits, message)
