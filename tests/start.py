#!/usr/bin/env python3
"""Starts a test: tests/start.py NAME WORDS..

The tests are a package, and what they try are those of tools/. This file alone says where both are. NAME is a module of tests/ by its path
(`tools/run`), whose `main` returns the status; tests/tools/run and its like are scripts of one line that call it so.
"""

from __future__ import annotations

import sys

sys.dont_write_bytecode = True

import importlib
from pathlib import Path

TESTS = Path(__file__).resolve().parent


def main() -> int:
    del sys.argv[:1]
    place = Path((sys.argv[0] if sys.argv else "").replace("-", "_"))
    if ".." in place.parts or not (TESTS / place).with_suffix(".py").is_file():
        print(__doc__, file=sys.stderr)
        return 2
    sys.argv[0] = place.name
    sys.path[:1] = [str(TESTS.parent), str(TESTS.parent / "tools")]
    status: int = importlib.import_module(".".join(["tests", *place.parts])).main()
    return status


if __name__ == "__main__":
    sys.exit(main())
