#!/usr/bin/env python3
"""Starts a tool: tools/start.py NAME WORDS..

The tools stand in four rooms, each of them a package beside this file, where Python finds them: `launch` (what ./uvt takes), `uvt` (what a person
calls), `make` (for who changes the repository) and `package`. NAME is a module of a room, or of uvt/commands, whose `main` returns the status.
uvt/uvt-why, make/claims and their like are scripts of one line that call it.
"""

from __future__ import annotations

import os
import sys

# What Python compiles of a tool is kept below the repository's out/, and nowhere beside the sources: without that each call compiles some
# 5,000 lines, which is half of what a small answer takes. Installed tools keep nothing.
_OUT = os.path.join(os.path.dirname(os.path.dirname(os.path.realpath(__file__))), "out")
_SHIM = os.environ.pop("UVT_SHIM", "")
sys.dont_write_bytecode = not os.path.isdir(_OUT)
if not sys.dont_write_bytecode:
    sys.pycache_prefix = os.path.join(_OUT, "pyc")
    if _SHIM:
        # (the launcher takes this interpreter from now on, and not the script that looks for it)
        try:
            with open(os.path.join(_OUT, "python"), "w") as _file:
                _file.write(sys.executable + "\n")
        except OSError:
            pass
import launch.tool  # noqa: E402, F401 (first: an interrupt has no traceback while the rest is loaded)

import importlib
from pathlib import Path

ROOMS = ("uvt.commands", "launch", "make", "package")


def module_of(name: str) -> str | None:
    """The module of the tool of this name, if there is one."""
    tools, file = Path(__file__).resolve().parent, f"{name.replace('-', '_')}.py"
    found = [it for it in ROOMS if "/" not in name and (tools / it.replace(".", "/") / file).is_file()]
    return f"{found[0]}.{file.removesuffix('.py')}" if found else None


def main() -> int:
    called = Path(sys.argv[0]).name
    if called == "start.py":
        del sys.argv[:1]
        called = sys.argv[0] if sys.argv else ""
    name = called.removeprefix("uvt-")
    module = module_of(name)
    if module is None:
        print(f"start.py: there is no tool `{name}`" if name else __doc__, file=sys.stderr)
        return 2
    # (so a tool's own words name it as it was called)
    sys.argv[0] = f"uvt-{name}" if module.startswith("uvt.") else name
    status: int = importlib.import_module(module).main()
    return status


if __name__ == "__main__":
    sys.exit(main())
