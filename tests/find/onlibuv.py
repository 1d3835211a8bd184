"""The tools on the installed libuv, for tests of the search."""
from __future__ import annotations

import os
import subprocess
from pathlib import Path

from tests.helper import limited

ROOT = Path(__file__).resolve().parent.parent.parent
FOUND = 0


def order_of(version: str) -> str:
    """The order of the loop in libuv of this version."""
    return "1.45" if tuple(int(it) for it in version.split(".")[:2]) >= (1, 45) else "1.44"


def run(tool: str, *words: str) -> subprocess.CompletedProcess[str]:
    return limited([str(ROOT / "tools" / "uvt" / tool), *words], capture_output=True, text=True, env=os.environ)
