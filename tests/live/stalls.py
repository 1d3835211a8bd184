"""Looks at live runs that stall: each has to be so by its script.

  tests/live/stalls [--program PATH] [--inputs N] [--seed S]     by default until a hundred were looked at

A random script with workers and `thread` lines is run live. A run stalls where the loop waits in a poll without a deadline, no request is
open, and no thread has a send left. Of each that did, `uvt debug` is asked for an order in which the loop comes to just that: it
is given what a live run has (takes, finishes, each send of a `thread` line once, in the order of its thread, and the clock up to the poll's
deadline), in orders at random, until in one of them nothing is left to give and the loop is still refused as blocked. Where
no order of many comes to that, the run had no reason to stall: it is named, and the status is 1.
"""

from __future__ import annotations

import argparse
import os
import random
import subprocess
from pathlib import Path

ROOT = Path(__file__).resolve().parent.parent.parent
from tests.helper import Tries
from uvt.conversation import Conversation, Script, built_program

WANTED = 100
ORDERS = 200
# A loop that never ends would go on to the limit of steps.
SECONDS = 3
KINDS = ("timer", "idle", "prepare", "check", "async", "async")


def op_at_random(draw: random.Random, names: list[str]) -> str:
    name = draw.choice(names)
    return draw.choice(
        [
            f"init {name} {draw.choice(KINDS)}",
            f"start {name} {draw.randrange(5)} {draw.choice((0, 0, 3))}",
            f"start {name}",
            f"stop {name}",
            f"close {name}",
            f"queue {name} 1",
            f"unref {name}",
            f"send {name}",
            f"cancel {name}",
            "stoploop",
        ]
    )


def script_at_random(draw: random.Random) -> list[str]:
    names = ["a", "b", "c", "d"][: draw.randrange(1, 5)]
    lines = [f"workers {draw.randrange(1, 4)}", *(f"var {name}" for name in names)]
    for name in names:
        kind = draw.choice(KINDS)
        lines.append(f"main init {name} {kind}")
        if kind != "async" and draw.random() < 0.8:
            lines.append(f"main start {name} {draw.randrange(5)} 0" if kind == "timer" else f"main start {name}")
    lines += [f"main {op_at_random(draw, names)}" for _ in range(draw.randrange(4))]
    lines.append("main run default")
    for name in names:
        lines += [f"on {name} {op_at_random(draw, names)}" for _ in range(draw.randrange(3))]
        if draw.random() < 0.6:
            lines.append(f"on {name} {draw.choice(('stop', 'close'))} {name}")
    lines += [f"thread {draw.randrange(2)} send {draw.choice(names)}" for _ in range(draw.randrange(5))]
    return lines


def sends_of(lines: list[str]) -> dict[str, list[str]]:
    """The names that each thread sends to, in its order."""
    found: dict[str, list[str]] = {}
    for line in lines:
        words = line.split(" ")
        if words[0] == "thread":
            found.setdefault(words[1], []).append(words[3])
    return found


def moves_left(draw: random.Random, talk: Conversation, workers: int, sends: dict[str, list[str]]) -> list[str]:
    """What may be given to a blocked loop, in an order at random; the clock last of all."""
    moves = [f"{what} {k}" for k in range(workers) for what in ("take", "finish")] + [f"thread {it}" for it in sends if sends[it]]
    draw.shuffle(moves)
    place = talk.state().place.split(" ")
    return moves + ([f"until {place[place.index('poll') + 1]}"] if "poll" in place and place[place.index("poll") + 1].isdigit() else [])


def give(talk: Conversation, move: str, sends: dict[str, list[str]]) -> bool:
    """Gives it, and says whether it was taken."""
    what, number = move.split(" ")
    if what == "thread":
        talk.ask(f"send {sends[number].pop(0)}")
        return True
    if what == "until":
        ahead = int(number) - talk.state().numbers["clock"]
        return ahead > 0 and not talk.ask(f"tick {ahead}")[0].startswith("refused")
    return not talk.ask(move)[0].startswith("refused")


def stalls(lines: list[str], draw: random.Random) -> bool:
    """Whether the loop comes to a poll that nothing ends, in this order."""
    workers, sends = int(lines[0].split(" ")[1]), sends_of(lines)
    with Conversation(Script(lines)) as talk:
        for _ in range(400):
            said = talk.ask("loop 50")
            if said[-1:] == ["refused ended"]:
                return False
            if said[-1:] == ["refused blocked"] and not any(give(talk, it, sends) for it in moves_left(draw, talk, workers, sends)):
                return True
    return False


def main() -> int:
    parser = argparse.ArgumentParser(description=__doc__, formatter_class=argparse.RawDescriptionHelpFormatter)
    parser.add_argument("--program", type=Path, help="another program than that of ./uvt")
    parser.add_argument("--inputs", type=int, default=5000, metavar="N", help="how many scripts at the most")
    parser.add_argument("--seed", type=int, default=1, metavar="S")
    asked = parser.parse_args()
    if asked.program:
        os.environ["UVT"] = str(asked.program.resolve())
    tried, tries = 0, Tries("stalls")
    for seed in range(asked.seed, asked.seed + asked.inputs):
        lines = script_at_random(random.Random(seed))
        try:
            ran = subprocess.run([built_program(), "live"], input="\n".join(lines) + "\n", capture_output=True, text=True, timeout=SECONDS)
        except subprocess.TimeoutExpired:
            continue
        tried += 1
        if "stalled" not in ran.stderr:
            continue
        by_script = any(stalls(lines, random.Random(f"{seed} {order}")) for order in range(ORDERS))
        tries.check(f"script {seed}", by_script, f"it stalls in no order of {ORDERS}:\n" + "\n".join(lines))
        if tries.count == WANTED:
            break
    tries.say(f"{tried} live runs, {tries.count} stalled, {tries.count - tries.failed} of these by their scripts")
    if not tries.count:
        tries.check("a live run that stalls", False, "there was none")
    return tries.end()
