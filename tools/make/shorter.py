"""Tries tactics in place of the bodies of a crate's lemmas, and keeps those that pass and are shorter.

  tools/make/shorter CRATE                  all files of its proofs
  tools/make/shorter --files A,B CRATE      only these, named without .antt
  tools/make/shorter --dry CRATE            says what would be written, and writes nothing

Behind each lemma, in a copy of the crate, copies of it are written, each with a tactic in place of something:

  whole    its body                    clause   one of its clauses
  let      what follows its lets       merge    several clauses, which become one behind the others
  field    a field of its record       inner    a group in brackets, or what such a group's function gives
  local    a function in `where`       inline   each mention of a small lemma, which then goes

The tactics (assumption, cc, simp, search, grind) are given the lemmas that the old text cites. One check tells which copies pass, since
nothing depends on a copy. The shortest that passes is written into the crate's own files, and these are checked once more; what fails
there is put back. Then lemmas that nobody cites go, with their comments and where they are brought in. All this is done again, --rounds
times, or until nothing changes. What failed is kept in out/shorter/CRATE, and isn't tried again.

The libraries below the crate have to be built (`rt lib`). It commits nothing. It knows no edits that must fail: a proof given by hand
may be what refuses a wrong edit of a definition, so try them behind it, and give by hand again what lets one through.

The status is 0 where all was tried, and 2 where nothing could be, or where a round was put back."""

from __future__ import annotations

import argparse
import signal
import sys
from pathlib import Path

from launch.tool import take_interrupts
from make.shorten.checks import KINDS, Asked, Fault
from make.shorten.rounds import Rounds

ROOT = Path(__file__).resolve().parent.parent.parent


def listed(text: str) -> tuple[str, ...]:
    return tuple(filter(None, text.split(",")))


def fault_in(asked: argparse.Namespace) -> str:
    """What is wrong with the words of the call; nothing where they can be followed."""
    folder = ROOT / "crates" / asked.crate / "proofs"
    if "/" in asked.crate or not folder.is_dir():
        return f"there are no proofs of a crate {asked.crate}"
    for kind in listed(asked.kinds):
        if kind not in KINDS:
            return f"there is no kind {kind}: they are {', '.join(KINDS)}"
    names = {it.stem for it in folder.rglob("*.antt")}
    for file in listed(asked.files):
        if file not in names:
            return f"{asked.crate} has no file {file}.antt of proofs"
    return "" if asked.jobs > 0 and asked.rounds > 0 and asked.steps >= 0 else "--jobs and --rounds take a number from 1 on, --steps one from 0 on"


def shorten() -> int:
    reader = argparse.ArgumentParser(description=__doc__, formatter_class=argparse.RawDescriptionHelpFormatter)
    reader.add_argument("crate", metavar="CRATE", help="the crate")
    reader.add_argument("--jobs", type=int, default=2, metavar="N", help="so many processes a check (2)")
    reader.add_argument("--steps", type=int, default=250000, metavar="N", help="grind's bound while it is tried (250000); 0: its own")
    reader.add_argument("--files", default="", metavar="A,B,..", help="only these files, by their names without .antt")
    reader.add_argument("--rounds", type=int, default=6, metavar="N", help="at most so many rounds (6)")
    reader.add_argument("--kinds", default=",".join(KINDS), metavar="A,B,..", help="only these kinds of copies")
    reader.add_argument("--dry", action="store_true", help="say what passed, and write nothing into the crate")
    reader.add_argument("--anew", action="store_true", help="forget what failed in earlier runs")
    asked = reader.parse_args()
    fault = fault_in(asked)
    if fault:
        print(f"shorter: {fault}", file=sys.stderr)
        return 2
    what = Asked(ROOT, asked.crate, asked.jobs, asked.steps, listed(asked.files), listed(asked.kinds))
    try:
        Rounds(what, asked.anew).run(asked.rounds, asked.dry)
    except (Fault, OSError, UnicodeError) as why:
        print(f"shorter: {why}", file=sys.stderr)
        return 2
    if not asked.dry:
        print(
            f"nothing is committed; look at the edits (tests/edits/run {asked.crate}, and those of must-fail/) and at the check's time: "
            "a proof given by hand may be what refuses a wrong edit of a definition"
        )
    return 0


def main() -> int:
    take_interrupts()
    signal.signal(signal.SIGTERM, signal.default_int_handler)
    try:
        return shorten()
    except KeyboardInterrupt:
        return 130
