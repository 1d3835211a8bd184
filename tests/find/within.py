"""Nobody is later near a recording than over every order: tests/find/within [--scripts N] [--most N] [--states N] [--seed N] [LOG..]

Of each recording and each name (`tools/uvt/worst.py`): how late it was, how late it is with one step moved, with two, and over every order of
what came. None of these numbers may be less than the one before it. The recordings are those of the logs of tests/tools, cut after --most
callbacks, the examples', and those of random scripts (`scripts.py`), of steps at random. Those with a send between the lines `done` and `check`
are counted and left out, since in every order none comes there (docs/FIND.md says so). What isn't settled within --states is counted, and
compared as far as it came. Status 1 if a number is less, or if nothing was compared. UVT and UVT_FIND name other programs."""

from __future__ import annotations

import argparse
import os
import subprocess
import sys
import tempfile
from collections import Counter
from collections.abc import Iterator
from pathlib import Path
from random import Random

ROOT = Path(__file__).resolve().parent.parent.parent
from tests.find import scripts
from tests.find.recorded import LOGS, recordings, search_program
from uvt.conversation import Conversation, Fault, Script
from uvt.inputs import read_input
from uvt.offered import single
from uvt.worst import Asker, Row, rows_of

MOVED = [1, 2]
SECONDS = 60.0
# So many steps a random recording has at most, and the time that goes by at once in it.
STEPS, TIMES = 60, (1, 2, 5, 9)
# From this line of an iteration on, and up to that one, a send is seen by the next poll alone.
FROM, UP_TO = "done", "check"


def commands_of(script: Script) -> list[str]:
    """What may come from outside in a random recording."""
    ops = [line.split(" ")[1:] for line in script.lines if line.startswith("main ")]
    workers = next((int(line.split(" ")[1]) for line in script.lines if line.startswith("workers ")), 4)
    found = [f"{word} {worker}" for worker in range(workers) for word in ("take", "finish")] + [f"tick {ms}" for ms in TIMES]
    for op in ops:
        match op:
            case ["init", name, "async"]:
                found.append(f"send {name}")
            case ["init", name, "io"]:
                found.append(f"io {name}")
            case ["queue", name, *_]:
                found.append(f"cancel {name}")
    return found


def session(script: Script, draw: Random) -> list[str]:
    """Steps at random that the loop accepts."""
    steps: list[str] = []
    commands, between = commands_of(script), False
    talk = Conversation(script)
    try:
        for _ in range(STEPS):
            step = draw.choice(["loop"] * 2 * len(commands) + commands)
            if between and step.startswith("send "):
                continue
            lines = talk.ask(step)
            if lines and lines[0].startswith("refused"):
                continue
            steps.append(step)
            words = [line.split(" ")[0] for line in lines]
            between = FROM in words or between and UP_TO not in words
    finally:
        talk.close()
    return steps


def sends_unseen(script: Script, steps: list[str]) -> bool:
    """Whether a send comes between these two lines."""
    between = False
    talk = Conversation(script)
    try:
        for step, lines in zip(steps, talk.ask_each(steps)):
            if between and step.startswith("send "):
                return True
            words = [line.split(" ")[0] for line in lines]
            between = FROM in words or between and UP_TO not in words
    finally:
        talk.close()
    return False


def at_random(count: int, seed: int) -> Iterator[tuple[str, Script, list[str]]]:
    for number in range(seed, seed + count):
        draw = Random(number)
        text = scripts.script(draw, number % 3 == 0)
        script = Script(text.partition("begin\n")[0].splitlines())
        yield f"script {number}", script, session(script, draw)


def recorded(logs: list[Path], most: int, folder: str) -> Iterator[tuple[str, Script, list[str]]]:
    for path in [*sorted((ROOT / "examples").glob("*.rec")), *(it for log in logs for it in recordings(log, most, folder))]:
        script, steps = read_input(path)
        yield path.stem, script, single(steps)


def less(row: Row, columns: list[str]) -> list[str]:
    """Where more orders are less late; or none has the name, where fewer did."""
    wrong = []
    late, before = -1, ""
    for column in columns:
        worst = row.worst[column]
        if worst.settled and (-1 if worst.late is None else worst.late) < late:
            wrong.append(f"{late} {before}, {worst.told()} {column}")
        late, before = max(late, -1 if worst.late is None else worst.late), column
    return wrong


def main() -> int:
    reader = argparse.ArgumentParser(description=__doc__, formatter_class=argparse.RawDescriptionHelpFormatter)
    reader.add_argument("logs", metavar="LOG", nargs="*", type=Path, default=LOGS)
    reader.add_argument("--scripts", type=int, default=400, metavar="N", help="so many random scripts (400)")
    reader.add_argument("--most", type=int, default=12, metavar="N", help="so many callbacks of each log at the most (12)")
    reader.add_argument("--states", type=int, default=20_000, metavar="N", help="so many states at the most (20000)")
    reader.add_argument("--seed", type=int, default=1, metavar="N", help="the first random script (1)")
    words = reader.parse_args()
    counts: Counter[str] = Counter()
    bad = []
    try:
        program = os.environ.get("UVT_FIND") or search_program()
        with tempfile.TemporaryDirectory() as folder:
            for name, script, steps in [*recorded(words.logs, words.most, folder), *at_random(words.scripts, words.seed)]:
                if sends_unseen(script, steps):
                    counts["left out"] += 1
                    continue
                columns, rows = rows_of(script, steps, Asker(script, program, words.states, SECONDS), MOVED, [], 1, lambda done, of: None)
                counts["recordings"] += 1
                counts["names"] += len(rows)
                counts["numbers"] += sum(row.worst[it].settled for row in rows for it in columns)
                counts["not settled"] += sum(not row.worst[it].settled for row in rows for it in columns)
                wrong = [f"{name}: {row.name}: {it}" for row in rows for it in less(row, columns)]
                print("\n".join(wrong) or f"within: {name}: {len(rows)} names", file=sys.stderr, flush=True)
                bad += wrong
    except (Fault, OSError, subprocess.TimeoutExpired) as fault:
        print(f"within: {fault}", file=sys.stderr)
        return 2
    for line in bad:
        print(f"within: {line}")
    print("within: " + ", ".join(f"{number} {word}" for word, number in counts.items()) + f"; {len(bad)} less")
    return 1 if bad or not counts["numbers"] else 0


if __name__ == "__main__":
    sys.exit(main())
