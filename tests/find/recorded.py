"""What a program did isn't `never`: tests/find/recorded [--most N] [--states N] [LOG..]

Makes the recordings of these logs (those of tests/tools/logs and tests/tools/truths), and asks of each whether each callback comes that was
called in it, with what the recording brings along (tools/uvt/offered.py) and no line `may`. No answer may be `never`: the recorded run itself has
the callback. Answers that aren't settled within --states are counted. Status 1 if any answer is `never`, or none at all. UVT and UVT_FIND name
other programs."""
from __future__ import annotations

import argparse
import os
import subprocess
import sys
import tempfile
from collections import Counter
from pathlib import Path

ROOT = Path(__file__).resolve().parent.parent.parent
from tests.helper import logs_in
from uvt.conversation import Fault
from uvt.inputs import read_input
from uvt.offered import offered

LOGS = [*logs_in(ROOT / "tests/tools/logs"), *logs_in(ROOT / "tests/tools/truths")]
FOUND, NEVER, UNSETTLED = 0, 1, 3
SECONDS = 300


def recordings(log: Path, most: int, folder: str) -> list[Path]:
    """The recordings of a log's loops."""
    words = [str(ROOT / "tools/uvt/uvt-record"), "-o", f"{folder}/{log.stem}", "--most", str(most), "--log", str(log)]
    subprocess.run(words, stdout=subprocess.DEVNULL, stderr=subprocess.DEVNULL, timeout=SECONDS)
    return sorted(Path(folder).glob(f"{log.stem}*.rec"))


def asked(recording: Path, program: str, states: int) -> tuple[Counter[str], list[str]]:
    """How often each answer came, and the questions that were answered as they can't be."""
    script, steps = read_input(recording)
    brought = offered(script, steps)
    answers: Counter[str] = Counter()
    wrong = []
    for which, name in sorted(brought.calls):
        question = f"find {which} {name}"
        text = "".join(f"{it}\n" for it in [*script.lines, "begin", *brought.lines([]), f"most states {states}", question])
        ran = subprocess.run([program], input=text, capture_output=True, text=True, timeout=SECONDS)
        word = {FOUND: "found", NEVER: "never", UNSETTLED: "not settled"}.get(ran.returncode, "no answer")
        answers[word] += 1
        if word in ("never", "no answer"):
            wrong.append(f"{recording.stem}: {question}: {(ran.stdout or ran.stderr).strip()[:100]}")
    return answers, wrong


def told(answers: Counter[str]) -> str:
    return ", ".join(f"{number} {word}" for word, number in answers.most_common()) or "no callback"


def search_program() -> str:
    named = subprocess.run([str(ROOT / "uvt"), "path", "find"], stdout=subprocess.PIPE, text=True).stdout.strip()
    if not named:
        raise Fault("there is no program that searches")
    return named


def main() -> int:
    reader = argparse.ArgumentParser(description=__doc__, formatter_class=argparse.RawDescriptionHelpFormatter)
    reader.add_argument("logs", metavar="LOG", nargs="*", type=Path, default=LOGS)
    reader.add_argument("--most", type=int, default=200, metavar="N", help="so many callbacks of each log at the most (200)")
    reader.add_argument("--states", type=int, default=20_000, metavar="N", help="so many states at the most (20000)")
    words = reader.parse_args()
    whole: Counter[str] = Counter()
    bad = []
    try:
        program = os.environ.get("UVT_FIND") or search_program()
        with tempfile.TemporaryDirectory() as folder:
            for log in words.logs:
                for recording in recordings(log, words.most, folder):
                    answers, wrong = asked(recording, program, words.states)
                    print(f"recorded: {recording.stem}: {told(answers)}", file=sys.stderr, flush=True)
                    whole += answers
                    bad += wrong
    except (Fault, OSError, subprocess.TimeoutExpired) as fault:
        print(f"recorded: {fault}", file=sys.stderr)
        return 2
    for line in bad:
        print(f"recorded: {line}")
    print(f"recorded: {told(whole)}")
    return 1 if bad or not whole else 0
