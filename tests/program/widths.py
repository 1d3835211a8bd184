"""No line of code is wider than 150 columns, except for imports of proofs, and no file of code is longer than 800 lines, of C in
tools/ than 400.

How wide Python is has its own test (tests/tools/formed.py).
"""
import glob
import os
from typing import Iterable, List

from tests.helper import Check

MOST_COLUMNS = 150
MOST_LINES = 800
# of C in tools/: a file has one subject
MOST_OF_C = 400
# what may be wider: one import is one line
IMPORTS = ("use ", "pub use ", "ghost use ")
CODE = ("crates/*/src/**/*.rt", "crates/*/specs/**/*.antt", "crates/*/proofs/**/*.antt", "tools/**/*.[ch]", "tests/**/*.c")
PYTHON = ("tools/**/*.py", "tests/**/*.py")
C = ("tools/**/*.[ch]",)


def lines_of(path: str) -> List[str]:
    with open(path, encoding="utf-8") as file:
        return file.read().splitlines()


def paths_of(folder: str, forms: Iterable[str]) -> List[str]:
    return sorted({path for form in forms for path in glob.glob(os.path.join(folder, form), recursive=True) if os.path.isfile(path)})


def wide(path: str) -> List[str]:
    """Each line that is too wide, with its length."""
    return [
        "%s:%d has %d columns" % (path, at, len(line))
        for at, line in enumerate(lines_of(path), 1)
        if len(line) > MOST_COLUMNS and not line.lstrip().startswith(IMPORTS)
    ]


def try_widths(check: Check, folder: str) -> None:
    code = paths_of(folder, CODE)
    wrong = [line for path in code for line in wide(path)]
    check("the widths of code", len(code) > 500 and not wrong, "\n".join(wrong))
    for most, paths in ((MOST_LINES, code + paths_of(folder, PYTHON)), (MOST_OF_C, paths_of(folder, C))):
        long = [path for path in paths if len(lines_of(path)) > most]
        check("the lengths of files", not long, "more than %d lines: %s" % (most, ", ".join(long)))
