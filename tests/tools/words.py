"""The words of the pages, and of what the tools say and their comments: the trade's, and not others for them."""

from __future__ import annotations

import re
import subprocess
from pathlib import Path

from tests.helper import Tries

ROOT = Path(__file__).resolve().parent.parent.parent
# The old words, by what stands for them now.
OLD = {
    "out of memory": r"[Ww]ant of memory|wanted memory",
    "depends on": r"\bst(?:and|ands|ood|anding) on\b",
    "except, except for": r"\b[Bb]ut for\b",
    "seconds of wall-clock time": r"(?:seconds?|minutes?) by the clock|time by the clock",
    "some 19 minutes (what docs/BENCHMARKS.md has measured of a build)": r"half an hour",
    "returns": r"\banswers? `?(?:E[A-Z]{3,}\b|[Oo]k`)",
}
WITHIN = ("README.md", "docs/*.md", "tools/**/*", "tests/**/*")
# (what is kept of programs and of the prover has words of its own, and this file names the old ones)
WITHOUT = ("tests/edits", "tests/tools/logs", "tests/tools/truths", "tests/tools/words.py")


def old_words(text: str) -> list[str]:
    """Each line with an old word, and what to write."""
    return [
        f"line {number}: `{found[0]}`: write `{new}`"
        for number, line in enumerate(text.split("\n"), 1)
        for new, old in OLD.items()
        if (found := re.search(old, line))
    ]


def files() -> list[Path]:
    """The pages, the tools and their tests: what git knows of, or in a copy without it what is there."""
    listed = subprocess.run(["git", "ls-files", *(it.split("/")[0] for it in WITHIN)], cwd=ROOT, capture_output=True, text=True)
    names = listed.stdout.split("\n")[:-1] if listed.returncode == 0 else []
    found = [ROOT / it for it in names] or [path for it in WITHIN for path in sorted(ROOT.glob(it))]
    return [it for it in found if it.is_file() and not str(it.relative_to(ROOT)).startswith(WITHOUT)]


def try_old_words(tries: Tries) -> None:
    for path in files():
        try:
            found = old_words(path.read_text(encoding="utf-8"))
        except UnicodeDecodeError:
            continue
        tries.check(f"the words of {path.relative_to(ROOT)}", not found, found)
    sharp = old_words(
        "A call stands on another.\nIt answers EINVAL, but for want of memory,\nin 5 seconds by the clock.\nA build takes half an hour."
    )
    tries.check("old words are found", len(sharp) == 6, sharp)
