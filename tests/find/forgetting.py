"""Answers of a search that forgets, or holds moves back, beside those of one that doesn't:
tests/find/forgetting [N] [--seed N] [--jobs N] [--states N] [--alike] [--find PROGRAM]

Random scripts (scripts.py; their numbers are the seeds) of which a search needs to know no more than what is told of them, or may hold moves
back, are searched by the program twice: without the line `full` and with it. The answers must agree, and `found` has no more steps than with
`full`; of `never`, the states with `full` are no fewer. Each third script is one where moves may be held back; with --alike all have requests
that are alike. Scripts of which one search isn't settled within --states are passed over, and the slow search of tests/find/run looks at no
state here.
Where something is wrong, the input is left in out/find/. Status 1 if anything was, or if one kind of answer never came, or if no search kept
fewer states by forgetting, or none by holding back. For the hand."""
from __future__ import annotations

import argparse
import os
import sys
from collections import Counter
from concurrent.futures import ProcessPoolExecutor
from pathlib import Path
from random import Random
from typing import NamedTuple

from tests.find import answer, asked, holding, normal, scripts
from tests.helper import Tries, limited

ROOT = Path(__file__).resolve().parent.parent.parent
BUILT = ROOT / "crates/uvt_find/out/uvt_find"
HOW = ("forgetting", "holding")


class Tried(NamedTuple):
    seed: int
    # the kind of both answers, or why they aren't compared
    kind: str
    # so many states fewer
    fewer: int
    wrong: str = ""
    # moves may be held back
    holds: bool = False


def question(seed: int, states: int, alike: bool) -> str:
    """The script of this number, without bounds of the clock and of states but this one: it may forget, if nothing else is against it. In each
    third one no name has a bound, and moves may be held back. In half of the others all names have a bound, so that there is an end of whole
    states, too."""
    draw = Random(seed)
    is_of_pool = seed % 3 == 0
    lines = (scripts.alike(draw) if alike else scripts.script(draw, is_of_pool)).rstrip("\n").split("\n")
    kept = [line for line in lines if not line.startswith(("most clock ", "most states ", "full"))]
    names = [line.split(" ")[1] for line in lines if line.startswith("var ")] if seed % 2 and not is_of_pool else []
    bounds = [f"most {name} {draw.choice([2, 3, 4])}" for name in names if not any(line.startswith(f"most {name} ") for line in lines)]
    return "\n".join([*kept[:-1], *bounds, f"most states {states}", kept[-1], ""])


def answered(program: str, text: str) -> tuple[answer.Answer, int]:
    """The answer, and how many states it took."""
    ran = limited([program], input=text, capture_output=True, text=True)
    got = answer.read(ran.stdout)
    if got is None:
        raise ValueError(f"status {ran.returncode}, and no answer: {(ran.stderr or ran.stdout).strip()[:200]}")
    return got, int(ran.stdout.split("\n")[0].split(" state")[0].split(" ")[-1])


def difference(short: answer.Answer, whole: answer.Answer, fewer: int) -> str:
    """What is wrong with two settled answers, without the line `full` and with it."""
    if short.kind != whole.kind:
        return f"{short.kind}, and with `full` {whole.kind}"
    # (with `full` there are more states, so that the moves that make the steps fewer may not be enough)
    if short.kind == "found" and short.number > whole.number:
        return f"found in {short.number} steps, and with `full` in {whole.number}"
    if short.kind == "never" and fewer < 0:
        return f"never with {-fewer} states more than with `full`"
    return "" if short.within == whole.within else "with `full` it names other bounds"


def try_script(program: str, states: int, alike: bool, seed: int) -> Tried:
    text = question(seed, states, alike)
    what = asked.read(text)
    holds = holding.holds_back(what)
    if not normal.may_forget(what) and not holds:
        return Tried(seed, "nothing to forget", 0)
    try:
        short, some = answered(program, text)
        whole, all_states = answered(program, text.replace("\nbegin\n", "\nbegin\nfull\n"))
    except ValueError as fault:
        return Tried(seed, "no answer", 0, str(fault))
    if "not settled" in (short.kind, whole.kind):
        is_settled = short.kind != "not settled"
        return Tried(seed, "settled of forms alone" if is_settled else "not settled", 0)
    return Tried(seed, short.kind, all_states - some, difference(short, whole, all_states - some), holds)


def try_all(words: argparse.Namespace, tries: Tries) -> tuple[Counter[str], Counter[str]]:
    """How often each answer came, and how many searches kept fewer states: by forgetting alone, or where moves may be held back."""
    kinds: Counter[str] = Counter()
    fewer: Counter[str] = Counter()
    held, seed = 0, words.seed
    with ProcessPoolExecutor(words.jobs) as pool:
        while tries.count < words.count:
            some = range(seed, seed + min(50, words.count - tries.count))
            seed = some.stop
            for one in pool.map(try_script, [words.find] * len(some), [words.states] * len(some), [words.alike] * len(some), some):
                kinds[one.kind] += 1
                fewer["holding" if one.holds else "forgetting"] += one.fewer > 0
                held += one.holds
                if one.wrong or one.kind in ("found", "never"):
                    tries.check(f"script {one.seed}", not one.wrong, one.wrong)
                if one.wrong:
                    folder = ROOT / "out/find"
                    folder.mkdir(parents=True, exist_ok=True)
                    (folder / f"forgetting-{one.seed}.input").write_text(question(one.seed, words.states, words.alike), encoding="ascii")
    tries.say(f"{held} of those that are compared may hold moves back")
    return kinds, fewer


def main() -> int:
    reader = argparse.ArgumentParser(description=__doc__, formatter_class=argparse.RawDescriptionHelpFormatter)
    reader.add_argument("count", metavar="N", nargs="?", type=int, default=2000, help="how many scripts are compared (2000)")
    reader.add_argument("--seed", type=int, default=1, metavar="N", help="the number of the first one (1)")
    reader.add_argument("--jobs", type=int, default=2, metavar="N", help="how many scripts at a time (2)")
    reader.add_argument("--states", type=int, default=30_000, metavar="N", help="so many states at the most (30000)")
    reader.add_argument("--find", default=os.environ.get("UVT_FIND", str(BUILT)), metavar="PROGRAM", help="the search (crates/uvt_find/out/uvt_find)")
    reader.add_argument("--alike", action="store_true", help="only scripts in which half of the requests or more are alike")
    words = reader.parse_args()
    if min(words.count, words.states, words.jobs) < 1 or words.seed < 0:
        reader.error("these numbers are 1 and more")
    if not os.access(words.find, os.X_OK):
        print(f"forgetting: {words.find} isn't there: ./uvt build find builds it", file=sys.stderr)
        return 2
    tries = Tries("forgetting")
    kinds, fewer = try_all(words, tries)
    tries.say(", ".join(f"{number} {kind}" for kind, number in kinds.most_common()))
    tries.say(f"fewer states: {fewer['holding']} of these, and {fewer['forgetting']} of the others")
    some = fewer["holding"] if words.alike else all(fewer[it] for it in HOW)
    tries.check("each answer comes, some forget, and some hold back", kinds["found"] and kinds["never"] and some)
    return tries.end()
