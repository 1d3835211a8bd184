"""Random scripts on the real libuv and on the built uvt: tests/libuv/run [--scripts N] [--seed S] [--node]

The scripts are of families (scripts.py). Each runs on the installed libuv, or with --node on the one that is a part of node, under a
clock that stands still; and on uvt, with the same done from outside. The lines that both have are compared. Where they differ, that
has to be explained by differences that docs/LIBUV.md tells of: model.py is uvt's loop, with a switch for each of them. With all
switches it must print what libuv does, of every script, and without them what uvt does. A script of which that isn't so is made
small and shown.

At the end stands how many were the same, and how many each difference explains. Status 1 if something is unexplained.

First two other things are tried: libuv's own tests as scripts (cases/), each with what its assertions ask, on both; and of some
random scripts whether tools/uvt/uvt-libuv finds where the two part, and names a heading that explains it (explaining.py).
"""

from __future__ import annotations

import argparse
import os
import sys
import time
from concurrent.futures import ProcessPoolExecutor
from pathlib import Path

HERE = Path(__file__).resolve().parent
from tests.helper import Tries
from tests.libuv.cases import Case, all_cases
from tests.libuv.comparing import Counts, Tested, count, first_parting, see
from tests.libuv.explaining import wrong_words
from tests.libuv.model import SWITCHES, Model
from tests.libuv.planted import PLANTED
from tests.libuv.programs import Program
from tests.libuv.scripts import FAMILIES, program_text
from tests.libuv.smaller import make_small
from uvt.conversation import Fault, built_program
from uvt.inputs import read_input
from uvt.libuv.runner import Library, installed, of_node, run_programs
from uvt.libuv.session import lead
from uvt.walk import Walk
from uvt.ways import longest_way

PART = 350  # scripts in a process of the library
TOLD = 10000
SHOWN = 3  # unexplained scripts that are made small
EXPLAINED = 35  # scripts of which the tool's words are looked at


def words() -> argparse.Namespace:
    reader = argparse.ArgumentParser(description=__doc__, formatter_class=argparse.RawDescriptionHelpFormatter)
    reader.add_argument("--scripts", metavar="N", type=int, default=2000, help="how many (2000)")
    reader.add_argument("--seed", metavar="S", type=int, default=1, help="the number of the first one of each family (1)")
    reader.add_argument("--family", choices=[*FAMILIES], help="of this family alone")
    reader.add_argument("--node", action="store_true", help="on the libuv that is a part of node")
    reader.add_argument("--program", metavar="PATH", help="the program to be compared, in place of that of ./uvt build")
    reader.add_argument("--planted", choices=[*PLANTED], help="in its place a loop with a wrong rule, which has to be noticed")
    reader.add_argument("--processes", metavar="N", type=int, default=2, help="how many at a time (2)")
    return reader.parse_args()


# ---- the cases, and the tool


def try_case(library: Library, case: Case) -> list[str]:
    """What isn't as the case asks, on uvt and on libuv."""
    script, commands = read_input(case.path)
    with Walk(script, longest_way(script, commands)) as walk:
        led = lead(walk)
        output = "\n".join(walk.lines[1:])
    there = run_programs(library, {case.name(): led.text}, led.workers)[case.name()]
    return [f"on uvt: {it}" for it in case.wrong_on_uvt(output)] + [f"on libuv: {it}" for it in case.unmet(there)]


def try_cases(tries: Tries, library: Library) -> None:
    for case in all_cases():
        wrong = try_case(library, case)
        tries.check(f"case {case.name()}", not wrong, "; ".join(wrong))


def try_words(tries: Tries, asked: argparse.Namespace, library: Library, tested: Tested) -> None:
    """Whether the tool explains the first scripts."""
    every = parts(asked)[0][:EXPLAINED]
    programs = {f"{family} {number}": Program(program_text(family, number)) for family, number in every}
    for name, seen in see(library, tested, programs).items():
        what = wrong_words(library, programs[name], seen.real)
        tries.check(f"what uvt-libuv says of script {name}", not what, what)


# ---- the random scripts


def parts(asked: argparse.Namespace) -> list[list[tuple[str, int]]]:
    """The scripts, each by its family and its number, cut into parts."""
    families = [asked.family] if asked.family else [*FAMILIES]
    every = [(families[at % len(families)], asked.seed + at // len(families)) for at in range(asked.scripts)]
    return [every[at : at + PART] for at in range(0, len(every), PART)]


def count_part(library: Library, tested: Tested, part: list[tuple[str, int]]) -> Counts:
    return count(library, tested, {f"{family} {number}": (family, program_text(family, number)) for family, number in part})


def count_all(asked: argparse.Namespace, library: Library, tested: Tested) -> Counts:
    every, counts, said = parts(asked), Counts(), 0
    with ProcessPoolExecutor(asked.processes) as pool:
        for some in pool.map(count_part, [library] * len(every), [tested] * len(every), every):
            counts.add(some)
            if counts.tried.total() // TOLD > said and counts.tried.total() < asked.scripts:
                said = counts.tried.total() // TOLD
                print(f"{counts.tried.total()} scripts so far, {len(counts.faults)} unexplained", flush=True)
    return counts


def show_small(library: Library, tested: Tested, name: str) -> None:
    family, number = name.split(" ")
    program = make_small(library, tested, program_text(family, int(number)))
    seen = see(library, tested, {name: program})[name]
    model = Model(program, library.version)
    model.run()
    print(f"script {name}, made small: {seen.fault()}")
    print("\n".join("    " + it for it in [*program.script(), "begin", *model.commands]))
    sides = {"libuv": seen.real, "the model with all switches": seen.switched, "uvt": seen.tested, "the model without": seen.without}
    at = min(first_parting(seen.real, seen.switched), first_parting(seen.tested, seen.without))
    for who, lines in sides.items():
        print(f"  {who}: {' / '.join(lines[max(at - 4, 0) : at + 4])}", flush=True)


def tell(counts: Counts, library: Library, seconds: float) -> None:
    tried, same = counts.tried.total(), counts.same.total()
    explained = tried - same - len(counts.faults)
    print(f"\n{'family':12}{'scripts':>10}{'the same':>10}")
    for family in FAMILIES:
        if counts.tried[family]:
            print(f"{family:12}{counts.tried[family]:10}{counts.same[family]:10}")
    print(f"\n{'explains':>10}{'alone':>10}  difference")
    for heading in [it for headings in SWITCHES.values() for it in headings]:
        print(f"{counts.explained[heading]:10}{counts.alone[heading]:10}  {heading}")
    print(
        f"\nlibuv {library.version}: {tried} scripts with {counts.callbacks} callbacks, {same} the same, {explained} explained, "
        f"{len(counts.faults)} unexplained, in {seconds:.0f} seconds",
        flush=True,
    )


def main() -> int:
    asked = words()
    try:
        library = of_node() if asked.node else installed()
        if asked.program:
            os.environ["UVT"] = asked.program
        tested = Tested("" if asked.planted else built_program(), asked.planted)
        tries = Tries("libuv")
        if not asked.planted:
            try_cases(tries, library)
            try_words(tries, asked, library, tested)
        began = time.monotonic()
        counts = count_all(asked, library, tested)
        for name, fault in counts.faults[:SHOWN]:
            show_small(library, tested, name)
        for name, fault in counts.faults[SHOWN:20]:
            print(f"script {name}: {fault}")
        tell(counts, library, time.monotonic() - began)
        tries.count += counts.tried.total()
        tries.failed += len(counts.faults)
        return tries.end()
    except Fault as fault:
        print(f"tests/libuv/run: {fault}", file=sys.stderr)
        return 1
    except KeyboardInterrupt:
        return 130
