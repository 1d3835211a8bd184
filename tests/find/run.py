"""The search against a slow one: tests/find/run [--scripts N] [--seed N] [--alike] [--uvt PROGRAM] [--find PROGRAM]

Random scripts with one to four names (scripts.py; their numbers are the seeds) are searched twice: by the program, and breadth first by a
search in Python (slow.py) that has no loop of its own and asks `uvt debug` for each step and each state. The kinds of answer must agree;
of `never` the number of states and the bounds, too; and the session of a `found` must run in `uvt debug`: each step is offered there, is
accepted and keeps the bounds, and the last one answers. Where the search may forget (normal.py), the slow one counts tales, else
whole states. Where it may hold moves back (holding.py), as in each fourth script, the slow one goes deep first, too, holds them back, and
counts the places that it keeps then. Where requests are alike (alike.py), as in each eighth script, it finishes the first of them first, too.
Scripts with more places than --places are passed over, if the search doesn't answer `never` within as many.
Where something is wrong, the input and the answer are left in out/find/. Status 1 if anything was, or if with 1,000 scripts and more some kind
of question was never answered by `found`, or by `never`, or if no move was held back, or no requests were alike.

With --slow FILE the slow search alone answers an input."""
import argparse
import os
import subprocess
import sys
from collections import Counter
from concurrent.futures import ProcessPoolExecutor
from random import Random
from typing import Counter as Count, List, NamedTuple, Optional, Sequence, Tuple

from tests.find import alike
from tests.find import answer
from tests.find import asked
from tests.find import holding
from tests.find import normal
from tests.find import recording
from tests.find import scripts
from tests.find import slow
from tests.find.loop import Loop
from tests.helper import Tries

HERE = os.path.dirname(os.path.realpath(__file__))
ROOT = os.path.dirname(os.path.dirname(HERE))
SECONDS = 120
MANY = 1000


class Plan(NamedTuple):
    uvt: str
    find: str
    places: int
    alike: bool = False


class Tried(NamedTuple):
    seed: int
    # its kind of question and of answer; none where the script was passed over
    kinds: Optional[Tuple[str, str]]
    wrong: Optional[str]
    # it is answered of tales
    forgets: bool = False
    # moves were held back: fewer places are kept than there are
    holds: bool = False
    # some of its requests are alike
    alike: bool = False


def save(seed: int, text: str, output: str) -> None:
    folder = os.path.join(ROOT, "out", "find")
    os.makedirs(folder, exist_ok=True)
    for name, what in (("input", text), ("answer", output)):
        with open(os.path.join(folder, "%d.%s" % (seed, name)), "w", encoding="utf-8") as file:
            file.write(what)


def script_of(plan: Plan, seed: int) -> str:
    """The script of this number, and what is asked of it: of each four, one of the orders that differ from a recording, and one where moves may
    be held back; of two of these, one has requests that are alike. With `--alike` all have."""
    draw = Random(seed)
    if plan.alike or seed % 8 == 6:
        return scripts.alike(draw)
    text = scripts.script(draw, seed % 4 == 2)
    if seed % 4:
        return text
    what = asked.read(text)
    loop = Loop(plan.uvt, what.script)
    try:
        came = recording.recording(loop, scripts.steps_of(draw, what), draw, draw.choice([20, 40, 60]))
    finally:
        loop.close()
    return scripts.of_recording(draw, text, came)


def within(text: str, states: int) -> str:
    """The same, but so many states are kept at the most."""
    lines = [line for line in text.split("\n") if not line.startswith("most states ")]
    return "\n".join(lines[:-2] + ["most states %d" % states] + lines[-2:])


def try_script(plan: Plan, seed: int) -> Tried:
    text = script_of(plan, seed)
    what = asked.read(text)
    settled = slow.search(plan.uvt, what, plan.places)
    is_passed = settled.places is None and (what.states is None or what.states > plan.places)
    text = within(text, plan.places) if is_passed else text
    question = scripts.question_kind(" ".join(what.question))
    try:
        ended = subprocess.run([plan.find], input=text, stdout=subprocess.PIPE, stderr=subprocess.PIPE, text=True, timeout=SECONDS)
    except subprocess.TimeoutExpired:
        save(seed, text, "")
        return Tried(seed, (question, "nothing"), "no answer within %d seconds" % SECONDS)
    got = answer.read(ended.stdout)
    if is_passed and got and got.kind != "never":
        return Tried(seed, None, None)
    if got is None:
        save(seed, text, ended.stdout + ended.stderr)
        return Tried(seed, (question, "nothing"), "status %d, and no answer: %s" % (ended.returncode, (ended.stderr or ended.stdout).strip()[:200]))
    why = answer.wrong(plan.uvt, what, settled, got)
    if why:
        save(seed, text, ended.stdout)
    return Tried(seed, (question, got.kind), why, normal.may_forget(what), settled.kept != settled.places, bool(alike.pairs(what)))


def try_all(plan: Plan, first: int, count: int, jobs: int) -> Tuple[int, Count[Tuple[str, str]], Count[Tuple[str, str]]]:
    """How many are wrong; how often each kind of question had each kind of answer; and how often each came of tales, or of fewer places
    than there are."""
    kinds: Count[Tuple[str, str]] = Counter()
    ways: Count[Tuple[str, str]] = Counter()
    wrong = tried = passed = 0
    with ProcessPoolExecutor(jobs) as pool:
        seed = first
        while tried < count:
            some = range(seed, seed + min(50, count - tried))
            seed = some.stop
            for one in pool.map(try_script, [plan] * len(some), some):
                passed += one.kinds is None
                if one.kinds:
                    tried += 1
                    kinds[one.kinds] += 1
                    ways["forgetting", one.kinds[1]] += one.forgets
                    ways["holding", one.kinds[1]] += one.holds
                    ways["alike", one.kinds[1]] += one.alike
                if one.wrong:
                    wrong += 1
                    print("find: script %d: %s" % (one.seed, one.wrong), flush=True)
            print("find: %d scripts so far, %d wrong, %d passed over" % (tried, wrong, passed), file=sys.stderr, flush=True)
    return wrong, kinds, ways


def tell(kinds: Count[Tuple[str, str]]) -> List[str]:
    """Prints how often each answer came, and gives what never came."""
    missed = []
    for question in scripts.QUESTIONS:
        counts = [kinds[question, kind] for kind in ("found", "never", "not settled")]
        found, never, open_ones = counts
        print("%-10s %6d found %6d never %6d not settled" % (question, found, never, open_ones))
        missed += ["%s: %s" % (question, kind) for kind, number in zip(("found", "never"), counts) if not number]
    return missed


def answer_slowly(plan: Plan, path: str) -> int:
    with open(path, encoding="utf-8") as file:
        what = asked.read(file.read())
    settled = slow.search(plan.uvt, what, plan.places)
    places = "more than %d states" % plan.places if settled.places is None else "%d states" % settled.places
    if holding.holds_back(what):
        places += ", of which %s are kept" % ("more than %d" % plan.places if settled.kept is None else settled.kept)
    print("never: %s" % places if settled.steps is None else "found in %d steps at least; %s" % (settled.steps, places))
    return 0


def is_there(path: str) -> bool:
    return os.path.isfile(path) and os.access(path, os.X_OK)


def plan_of(words: argparse.Namespace) -> Plan:
    """The programs that are tried; a sentence where one isn't there."""
    uvt = words.uvt
    if uvt is None:
        told = subprocess.run([os.path.join(ROOT, "uvt"), "path"], stdout=subprocess.PIPE, stderr=subprocess.PIPE, text=True)
        uvt = told.stdout.strip()
    if not is_there(uvt):
        raise ValueError("there is no program uvt%s: build it with ./uvt build, or name one with --uvt" % (" at " + uvt if uvt else ""))
    find = words.find or os.path.join(ROOT, "crates", "uvt_find", "out", "uvt_find")
    if not words.slow and not is_there(find):
        raise ValueError("there is no search at %s: build it, or name one with --find" % find)
    return Plan(os.path.abspath(uvt), os.path.abspath(find), words.places, words.alike)


def read_words(words: Sequence[str]) -> argparse.Namespace:
    reader = argparse.ArgumentParser(description=__doc__, formatter_class=argparse.RawDescriptionHelpFormatter)
    reader.add_argument("--scripts", type=int, default=MANY, metavar="N", help="how many scripts (%d)" % MANY)
    reader.add_argument("--seed", type=int, default=1, metavar="N", help="the number of the first one (1)")
    reader.add_argument("--uvt", metavar="PROGRAM", help="the program that is asked for each step (that of ./uvt path)")
    reader.add_argument("--find", metavar="PROGRAM", help="the search (crates/uvt_find/out/uvt_find)")
    reader.add_argument("--places", type=int, default=2000, metavar="N", help="the most places of a script that is tried (2000)")
    reader.add_argument("--jobs", type=int, default=3, metavar="N", help="how many scripts at a time (3)")
    reader.add_argument("--alike", action="store_true", help="only scripts in which half of the requests or more are alike")
    reader.add_argument("--slow", metavar="FILE", help="only answers this input, by the slow search")
    asked_for = reader.parse_args(words)
    if min(asked_for.scripts, asked_for.places, asked_for.jobs) < 1 or asked_for.seed < 0:
        reader.error("these numbers are 1 and more")
    return asked_for


def main() -> int:
    asked_for, tries = read_words(sys.argv[1:]), Tries("find")
    try:
        plan = plan_of(asked_for)
        if asked_for.slow:
            return answer_slowly(plan, asked_for.slow)
        wrong, kinds, ways = try_all(plan, asked_for.seed, asked_for.scripts, asked_for.jobs)
    except (OSError, ValueError) as fault:
        print("find: %s" % fault, file=sys.stderr)
        return 2
    except KeyboardInterrupt:
        print("find: stopped", file=sys.stderr)
        return 130
    missed = tell(kinds)
    for way in ("forgetting", "holding", "alike"):
        print("%-10s %6d found %6d never %6d not settled" % (way, ways[way, "found"], ways[way, "never"], ways[way, "not settled"]))
    for what in missed:
        tries.say("never came: " + what)
    if asked_for.scripts >= MANY:
        tries.check("what may come", not missed or asked_for.alike, "%d never came" % len(missed))
        tries.check("moves are held back", bool(ways["holding", "never"]))
        tries.check("requests are alike", bool(ways["alike", "never"]) and bool(ways["alike", "found"]))
    tries.count += sum(kinds.values())
    tries.failed += wrong
    return tries.end()
