"""Tries the recorder on this machine's libuv: tests/recorder/run [--libuv FOLDER] [--archive FILE] [--ring MIB] [--keep FOLDER]

  - the small programs of programs/ end with the same status with it as without, and their logs are followed (nested stops)
  - with --libuv, the sources of libuv (Debian: apt-get source libuv1): its own tests are linked with the shared libuv, each is run with and
    without it, and its logs are followed. A log of more than 300 kB is not
  - with --ring, of each log the last MIB windows alone are kept, and what takes 20 ms apart
  - with --archive, libuv's static library (Debian: /usr/lib/*/libuv_a.a), all of these have libuv within them

It takes a C compiler and libuv's header (gcc, libuv1-dev), and is for the hand: some minutes. It prints what differs and what isn't `same`,
and at the end the counts: of statuses, of the loops of each of the two, and in how many of these that are `same` the polls are as many as
in the program, and wait as long. Status 1 if a program or a test ends otherwise with the recorder. tests/recorder/real tries larger programs.
"""

from __future__ import annotations

import argparse
import collections
import os
import subprocess
import sys
import tempfile
import time
from pathlib import Path

ROOT = Path(__file__).resolve().parent.parent.parent
from uvt.conversation import Fault
from uvt.record import ring
from uvt.record.log import read_log
from uvt.record.names import name_addresses
from uvt.record.compiled import recorder
from uvt.record.made import Made, make
from uvt.record.told import told

PROGRAMS, TESTS = "the programs", "libuv's own tests"
SECONDS = 60
MOST = 300_000


# With --ring.
RING: dict[str, str] = {}


def run(words: list[str], folder: Path, log: str | None) -> tuple[int, str]:
    """Runs a program, and answers its status and what it printed. With the name of a log under the recorder."""
    environment = dict(os.environ, UV_RUN_AS_ROOT="1")
    if log:
        environment |= {"UVT_LOG": str(folder / log), "LD_PRELOAD": str(recorder())} | RING
    try:
        ran = subprocess.run(words, cwd=folder, env=environment, capture_output=True, text=True, errors="replace", timeout=SECONDS)
        return ran.returncode, ran.stdout
    except subprocess.TimeoutExpired:
        return 124, ""


def logs_in(folder: Path, name: str) -> list[Path]:
    return [it for it in sorted(folder.glob(f"{name}.*")) if it.suffix == ".log" or ring.is_ring(it)]


def log_of(path: Path) -> bytes:
    """(A process that was ended has zeros behind its last line.)"""
    return ring.log_of(path) if ring.is_ring(path) else path.read_bytes().rstrip(b"\0")


def compile_program(source: Path, folder: Path, libuv: str) -> list[str]:
    program = folder / source.stem
    subprocess.run(["cc", "-O1", "-g", str(source), "-o", str(program), libuv, "-ldl", "-lpthread"], check=True)
    return [str(program)]


class Counts:
    """What became of the loops."""

    def __init__(self) -> None:
        # by whose they are
        self.loops: dict[str, collections.Counter[str]] = {}
        self.polls: dict[str, collections.Counter[str]] = {}
        self.statuses: collections.Counter[str] = collections.Counter()

    def count(self, whose: str, made: Made) -> None:
        loops, polls = (it.setdefault(whose, collections.Counter()) for it in (self.loops, self.polls))
        loops["same" if made.is_whole() else "stops" if made.verdict == "same" and made.agrees else "WRONG"] += 1
        if made.is_whole():
            as_many = made.polls.here == made.polls.there
            polls["as many" if as_many else "more or fewer"] += 1
            polls["of these as long each"] += as_many and not made.polls.others

    def follow(self, path: Path, what: str, whose: str) -> None:
        """Makes the recordings of a log. A loop without callbacks doesn't count."""
        try:
            log = read_log(log_of(path))
        except Fault as fault:
            print(f"{what}: {fault}", flush=True)
            return
        name_addresses(log)
        for loop in sorted(log.loops):
            made = make(log, loop)
            if not made:
                continue
            self.count(whose, made)
            if not made.is_whole():
                print(f"{what}: " + "\n".join(told(made, loop, path, log.note)[:-1]), flush=True)


def try_programs(counts: Counts, folder: Path, linked: str) -> None:
    """(What they print depends on the clock and on threads.)"""
    for source in sorted((ROOT / "tools" / "uvt" / "record" / "programs").glob("*.c")):
        words = compile_program(source, folder, linked)
        plain, recorded = run(words, folder, None), run(words, folder, source.stem)
        counts.statuses["the same" if plain[0] == recorded[0] else "OTHER"] += 1
        if plain[0] != recorded[0]:
            print(f"{source.stem}: status {plain[0]} without the recorder, {recorded[0]} with it", flush=True)
        for path in logs_in(folder, source.stem):
            counts.follow(path, source.stem, PROGRAMS)


def compile_tests(libuv: Path, folder: Path, linked: str) -> Path:
    program = folder / "uv_run_tests"
    sources = [it for it in sorted((libuv / "test").glob("*.c")) if "benchmark" not in it.name and "win" not in it.name]
    words = ["cc", "-O1", "-w", "-D_GNU_SOURCE", "-I", str(libuv / "include"), "-I", str(libuv / "src"), "-I", str(libuv / "test")]
    subprocess.run([*words, *map(str, sources), "-o", str(program), linked, "-ldl", "-lutil", "-lpthread"], check=True)
    return program


def try_libuv(counts: Counts, libuv: Path, folder: Path, linked: str) -> None:
    program = compile_tests(libuv, folder, linked)
    (folder / "test").symlink_to(libuv.resolve() / "test")
    tests = run([str(program), "--list"], folder, None)[1].split()
    spent = [0.0, 0.0]
    for test in tests:
        started = time.monotonic()
        plain = run([str(program), test], folder, None)
        middle = time.monotonic()
        recorded = run([str(program), test], folder, f"uv.{test}")
        spent[0] += middle - started
        spent[1] += time.monotonic() - middle
        counts.statuses["the same" if plain[0] == recorded[0] else "OTHER"] += 1
        if plain[0] != recorded[0]:
            print(f"{test}: status {plain[0]} without the recorder, {recorded[0]} with it", flush=True)
    print(f"{len(tests)} tests, {spent[0]:.1f} s without the recorder, {spent[1]:.1f} s with it", flush=True)
    for path in logs_in(folder, "uv"):
        if len(log_of(path)) > MOST:
            counts.loops.setdefault(TESTS, collections.Counter())["in a log that is too large"] += 1
        else:
            counts.follow(path, path.name.split(".")[1], TESTS)


def main() -> int:
    reader = argparse.ArgumentParser(description=__doc__, formatter_class=argparse.RawDescriptionHelpFormatter)
    reader.add_argument("--libuv", type=Path, metavar="FOLDER", help="the sources of libuv")
    reader.add_argument("--archive", type=Path, metavar="FILE", help="libuv's static library, in place of the shared one")
    reader.add_argument("--ring", type=int, metavar="MIB", help="of each log the last windows alone")
    reader.add_argument("--keep", type=Path, metavar="FOLDER", help="where programs and logs are kept")
    asked = reader.parse_args()
    RING.update({"UVT_KEEP": str(asked.ring), "UVT_LATE": "20"} if asked.ring else {})
    counts, linked = Counts(), str(asked.archive.resolve()) if asked.archive else "-luv"
    with tempfile.TemporaryDirectory() as room:
        folder = (asked.keep or Path(room)).resolve()
        folder.mkdir(parents=True, exist_ok=True)
        try:
            try_programs(counts, folder, linked)
            if asked.libuv:
                try_libuv(counts, asked.libuv, folder, linked)
        except (Fault, subprocess.CalledProcessError, OSError) as fault:
            print(f"record: {fault}", file=sys.stderr)
            return 2
    print("statuses:", ", ".join(f"{count} {what}" for what, count in counts.statuses.items()))
    for whose, loops in counts.loops.items():
        print(f"loops with callbacks of {whose}:", ", ".join(f"{count} {what}" for what, count in loops.items()))
        print(f"polls of {whose}:", ", ".join(f"{count} {what}" for what, count in counts.polls[whose].items()))
    return 1 if counts.statuses["OTHER"] or any(it["WRONG"] for it in counts.loops.values()) else 0
