"""Sends that are found, on the real libuv: tests/find/sends [--sessions N] [--seed N]

Random scripts to whose handles something may be sent (scripts.py; their numbers are the seeds) are searched in the loop order of the installed
libuv, and each session that is found with a send in it runs there (`./uvt libuv`). Where its lines aren't the same, docs/LIBUV.md has to have a
heading for it, and the step of that is no send of the session: what the search sends can be seen there, or is seen alike. For the hand: it
needs libuv with its header, gcc and make. It says how many sessions were the same, and how many part under which heading; status 1 if a send
is why, or nobody knows why. UVT and UVT_FIND name other programs."""
from __future__ import annotations

import argparse
import re
import sys
import tempfile
from collections import Counter
from pathlib import Path
from random import Random

ROOT = Path(__file__).resolve().parent.parent.parent
from tests.find import scripts
from tests.find.onlibuv import FOUND, order_of, run
from uvt.conversation import Fault
from uvt.libuv.runner import installed

PARTED = 3


def session_of(seed: int, order: str, folder: Path) -> Path | None:
    """The session that is found for the script of this number, where a send can come in it and one does."""
    text = scripts.script(Random(seed))
    if "\nmay send " not in text:
        return None
    asked, session = folder / "asked", folder / "session"
    asked.write_text(f"order {order}\n{text}", encoding="ascii")
    found = run("uvt-find", str(asked), "-o", str(session))
    if found.returncode != FOUND:
        return None
    return session if any(it.startswith("send ") for it in steps_of(session)) else None


def steps_of(session: Path) -> list[str]:
    """The lines of its steps."""
    return session.read_text(encoding="ascii").split("\nbegin\n")[1].splitlines()


def is_sent(session: Path, cause: str) -> bool:
    """Whether the step of a heading is a send of the session, or nobody knows which step it is."""
    step = re.search(r"\(step (\d+)\)|^step (\d+):", cause)
    return step is None or steps_of(session)[int(step[1] or step[2]) - 1].startswith("send ")


def why(session: Path) -> list[str] | None:
    """The headings under which its lines part on the real library, none of them where they are the same; None where it can't be led there."""
    ran = run("uvt-libuv", str(session))
    if ran.returncode != PARTED:
        return None if ran.returncode else []
    last = ran.stdout.strip().splitlines() or [ran.stderr.strip()]
    causes = [line.removeprefix("docs/LIBUV.md: ").strip() for line in last[-8:] if line.startswith(("docs/LIBUV.md: ", "    step "))]
    return causes or [last[-1] or "nothing was said"]


def main() -> int:
    reader = argparse.ArgumentParser(description=__doc__, formatter_class=argparse.RawDescriptionHelpFormatter)
    reader.add_argument("--sessions", type=int, default=300, help="so many sessions with a send are run")
    reader.add_argument("--seed", type=int, default=1, help="the first number of a script")
    asked = reader.parse_args()
    try:
        order = order_of(installed().version)
    except Fault as fault:
        print(f"sends: {fault}", file=sys.stderr)
        return 2
    same, parted, wrong, seed = 0, Counter[str](), 0, asked.seed
    with tempfile.TemporaryDirectory() as folder:
        while same + sum(parted.values()) < asked.sessions:
            session = session_of(seed, order, Path(folder))
            causes = why(session) if session else None
            if session and causes is not None:
                if not causes:
                    same += 1
                else:
                    parted[re.sub(r" \(step \d+\)|step \d+: ", "", causes[0])] += 1
                    if any(is_sent(session, it) for it in causes):
                        wrong += 1
                        print(f"script {seed}: {'; '.join(causes)}", flush=True)
                        (ROOT / "out" / "find").mkdir(parents=True, exist_ok=True)
                        (ROOT / "out" / "find" / f"{seed}.session").write_bytes(session.read_bytes())
            seed += 1
    for heading, count in parted.most_common():
        print(f"{count}: {heading}")
    print(
        f"sends: {same} of {asked.sessions} sessions the same, {sum(parted.values())} part, {wrong} of them by a send, "
        f"of the scripts {asked.seed} to {seed - 1}"
    )
    return 1 if wrong else 0
