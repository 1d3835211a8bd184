"""pytest over the parts of the tools' tests: `pytest tests/tools -k uvloop`. It takes Debian's python3-pytest; `.ci/run` takes tests/tools/run.

A test is a step of a part (PARTS of tools/run.py): `records::log` is the part `records` with no other step than `try_log`. It is found by its name
and by the words that it names. Of a step that is done for several programs `-k` takes those that it names alone. Each try that failed is in the
report of its step. The programs are those that the launcher would start, or UVT and UVT_FIND name.
"""

from __future__ import annotations

import contextlib
import re
import sys
from collections.abc import Callable, Iterator
from pathlib import Path
from types import CodeType

import pytest

TESTS = Path(__file__).resolve().parent
sys.dont_write_bytecode = True

Step = Callable[..., object]


def codes_of(code: CodeType) -> Iterator[CodeType]:
    """That of a function, and of what is written in it."""
    yield code
    for it in code.co_consts:
        if isinstance(it, CodeType):
            yield from codes_of(it)


def named_in(function: Step) -> dict[str, object]:
    """The values of its module that it names."""
    names = dict.fromkeys(name for code in codes_of(function.__code__) for name in code.co_names)
    return {name: function.__globals__[name] for name in names if name in function.__globals__}


def is_step(value: object) -> bool:
    return callable(value) and getattr(value, "__name__", "").startswith("try_") and value.__annotations__.get("return") == "None"


def steps_of(part: Step) -> dict[str, Step]:
    """Those that it calls by their names, or from a list of them."""
    rows = [it for value in named_in(part).values() for it in (value if isinstance(value, tuple) else [value])]
    return {it.__name__: it for it in rows if is_step(it)}


def words_of(step: Step) -> set[str]:
    """The words in its texts, and in the texts of what it names."""
    texts = [it for code in codes_of(step.__code__) for it in code.co_consts if isinstance(it, str)]
    texts += [text for value in named_in(step).values() if isinstance(value, (dict, list, tuple)) for text in value if isinstance(text, str)]
    return {word for text in texts for word in re.findall(r"[\w-]+", text)}


@contextlib.contextmanager
def alone(part: Step, step: str, word: str) -> Iterator[None]:
    """A part without its other steps; and of this one only what has the word, where one is asked for."""
    module, steps = part.__globals__, steps_of(part)
    before = named_in(part)

    def called(*given: object) -> None:
        texts = [text for it in given for text in (it if isinstance(it, list) else [it]) if isinstance(text, str) and "/" not in text]
        if not word or not texts or any(word in text for text in texts):
            steps[step](*given)

    def instead(value: object) -> object:
        if isinstance(value, tuple):
            return tuple(map(instead, value)) if any(map(is_step, value)) else value
        return value if not is_step(value) else called if value is steps.get(step) else lambda *_: None

    module.update({name: instead(value) for name, value in before.items()})
    try:
        yield
    finally:
        module.update(before)


class Tried(pytest.Item):
    """A step of a part, or a part that has none."""

    part: Step
    step = ""

    def runtest(self) -> None:
        from tests.helper import Tries

        tries, asked = Tries(self.nodeid), self.config.option.keyword
        word = asked if re.fullmatch(r"[\w-]+", asked) and asked not in self.nodeid else ""
        with alone(self.part, self.step, word) if self.step else contextlib.nullcontext():
            self.part(tries)
        if tries.failed:
            pytest.fail(f"{tries.count} tried, {tries.failed} failed", pytrace=False)
        if not tries.count:
            pytest.skip("nothing of it is tried here")

    def reportinfo(self) -> tuple[Path, int, str]:
        return self.path, 0, self.name


class Parts(pytest.File):
    """The module tools/run.py, which knows them."""

    def collect(self) -> Iterator[Tried]:
        from tests.tools.run import PARTS

        for name, part in PARTS.items():
            steps = steps_of(part)
            for step in steps or [""]:
                found = Tried.from_parent(self, name=f"{name}::{step.removeprefix('try_')}" if step else name)
                found.part, found.step = part, step
                found.extra_keyword_matches.update(words_of(steps.get(step, part)))
                yield found


def pytest_collect_file(file_path: Path, parent: pytest.Collector) -> Parts | None:
    return Parts.from_parent(parent, path=file_path) if file_path == TESTS / "tools" / "run.py" else None
