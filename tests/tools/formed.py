"""How the tools and their tests are written: the formatter and the type checker have nothing to say (pyproject.toml has what they are asked),
no line is too long, nearly no file touches the path of imports, and pytest finds each step.
"""

from __future__ import annotations

import importlib.util
import os
import re
import shutil
import subprocess
import sys
from pathlib import Path

from tests.helper import ROOT, Tries
from tests.tools.words import files

WIDTH = 150
# How many files may say where others are: a start of the tools needs none, one of the tests one.
PATHS = 4
# Programs that are recorded, whose logs have the numbers of their lines.
RECORDED = ("tests/tools/python/", "tools/uvt/record/programs/")


def sources() -> list[Path]:
    """The Python of tools/ and tests/."""
    found = [it for it in files() if it.suffix == ".py" and not it.is_symlink()]
    return [it for it in found if not it.relative_to(ROOT).as_posix().startswith(RECORDED)]


def try_checker(tries: Tries, name: str, words: list[str]) -> None:
    """A tool of Debian's, by the Python that has it."""
    command = shutil.which(name)
    if not command and not importlib.util.find_spec(name):
        tries.leave_out(name, "it isn't installed")
        return
    ran = subprocess.run([*([command] if command else [sys.executable, "-m", name]), *words], cwd=ROOT, capture_output=True, text=True)
    tries.check(f"{name} of tools and tests", ran.returncode == 0, ran.stdout[-2000:] + ran.stderr[-2000:])


def try_pytest(tries: Tries) -> None:
    """The steps of the parts are tests of pytest's, found by what they name; one that fails says which try did."""
    command = shutil.which("pytest")
    if not command:
        tries.leave_out("pytest", "it isn't installed")
        return
    for words, status, wanted in (
        (["tests/tools", "--collect-only", "-k", "uvloop"], 0, ["::records::log", "::records::sharpness"]),
        (["tests/tools", "-k", "shorter"], 0, ["5 passed"]),
        (["tests/tools/run.py::faults"], 1, ["a script that is none: uvt ended with status 1", "1 failed"]),
    ):
        # (what is none of the program's fails)
        env = os.environ | ({"UVT": "/bin/false"} if status else {})
        ran = subprocess.run([command, "-q", *words], cwd=ROOT, env=env, capture_output=True, text=True)
        tries.check(f"pytest {' '.join(words)}", ran.returncode == status and all(it in ran.stdout for it in wanted), ran.stdout + ran.stderr)


def try_form(tries: Tries) -> None:
    paths = []
    for path in sources():
        text, name = path.read_text(encoding="utf-8"), path.relative_to(ROOT)
        long = [number for number, line in enumerate(text.split("\n"), 1) if len(line) > WIDTH]
        tries.check(f"the width of {name}", not long, f"lines of more than {WIDTH} columns: {long}")
        paths += [str(name)] if re.search(r"\bsys\.path\b", text) and path != Path(__file__).resolve() else []
    tries.check("who says where others are", len(paths) <= PATHS, paths)
    try_checker(tries, "black", ["--check", "--quiet", "tools", "tests"])
    try_checker(tries, "mypy", ["--cache-dir", "out/mypy"])
    try_pytest(tries)
