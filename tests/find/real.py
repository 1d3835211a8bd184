"""The orders that the search finds, on the real libuv: tests/find/real

Each example that asks and is answered by `found` is searched in the loop order of the installed libuv, and the session runs there
(`./uvt libuv`): its lines have to be the same. For the hand: it needs libuv with its header, gcc and make. A line says what became of each;
status 1 if any differs. UVT and UVT_FIND name other programs."""
from __future__ import annotations

import sys
import tempfile
from pathlib import Path

ROOT = Path(__file__).resolve().parent.parent.parent
from tests.find.onlibuv import FOUND, order_of, run
from uvt.conversation import Fault
from uvt.libuv.runner import installed


def differs(example: Path, order: str, folder: str) -> str | None:
    """What is wrong with the session of an example on the real library; None where nothing is, or where no session was found."""
    asked, session = Path(folder) / "asked", Path(folder) / example.stem
    asked.write_text(f"order {order}\n{example.read_text(encoding='ascii')}", encoding="ascii")
    found = run("uvt-find", str(asked), "-o", str(session))
    if found.returncode != FOUND:
        print(f"{example.stem}: {found.stdout.strip()}")
        return None
    ran = run("uvt-libuv", str(session))
    last = (ran.stdout.strip().splitlines() or [ran.stderr.strip()])[-1]
    print(f"{example.stem}: {found.stdout.splitlines()[0]}; {last}", flush=True)
    return None if ran.returncode == 0 else last


def main() -> int:
    if sys.argv[1:]:
        print(__doc__)
        return 0 if sys.argv[1:] == ["--help"] else 2
    try:
        order = order_of(installed().version)
        with tempfile.TemporaryDirectory() as folder:
            wrong = [it for it in sorted((ROOT / "examples").resolve().glob("*.find")) if differs(it, order, folder)]
    except Fault as fault:
        print(f"real: {fault}", file=sys.stderr)
        return 2
    return 1 if wrong else 0
