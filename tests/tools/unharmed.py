"""The recorder never harms its program: each ends as it does without it, and the recorder itself touches no memory that isn't its own.

In tests/tools/run the programs of tools/uvt/record/programs and of truths/ run under a recorder that is built with AddressSanitizer and
UndefinedBehaviorSanitizer, and those of the first folder under valgrind, where these are installed. By hand, and much more of it:

    tests/tools/unharmed --libuv FOLDER    libuv's own tests, of the sources in this folder (Debian: apt-get source libuv1)
    tests/tools/unharmed --node 100        so many starts of node, four at a time
    tests/tools/unharmed --costs           instructions of a callback without the recorder and with it, by valgrind
    tests/tools/unharmed --ring 3 ..       each of them with a ring of so many MiB, of which is kept apart what takes 20 ms

Status 1 if a program ends otherwise with the recorder, or something is reported.
"""

from __future__ import annotations

import argparse
import concurrent.futures
import os
import re
import shutil
import subprocess
import tempfile
from pathlib import Path
from typing import Sequence

ROOT = Path(__file__).resolve().parent.parent.parent
from tests.helper import SECONDS, Check, Tries, limited
from tests.tools.records import has_libuv
from uvt.record.compiled import RECORDER, recorder
from uvt.record.started import HOOKS

# A server that ends by itself only where it is told when, in seconds.
WORDS = {"stalls": ["2"]}
PROGRAMS = (ROOT / "tools" / "uvt" / "record" / "programs", Path(__file__).resolve().parent / "truths")
# The program of docs/HUNT.md.
RACES = ("upload",)
# How a program ends that valgrind or a sanitizer reports.
REPORTED = 97
# What ends by itself in a way that a sanitizer would take for a fault of its own.
QUIET = "detect_leaks=0:handle_segv=0:handle_abort=0:allow_user_segv_handler=1"


def runtimes() -> list[str]:
    """The sanitizers' libraries, in front of all others; none where `cc` has none."""
    found = [subprocess.run(["cc", f"-print-file-name=lib{it}.so"], capture_output=True, text=True).stdout.strip() for it in ("asan", "ubsan")]
    return found if all(Path(it).is_absolute() and Path(it).exists() for it in found) else []


def sanitized(folder: Path) -> Path:
    """The recorder, built with the sanitizers."""
    built = folder / "sanitized.so"
    sources = [str(it) for it in sorted(RECORDER.glob("*.c")) if not it.name.startswith("force")]
    words = ["-g", "-O1", "-fPIC", "-shared", "-ftls-model=initial-exec", "-fno-optimize-sibling-calls", "-fsanitize=address,undefined"]
    subprocess.run(["cc", *words, "-o", str(built), *sources, "-ldl", "-lpthread"], check=True, capture_output=True)
    return built


class Room:
    """A folder for programs, logs and reports; and how many MiB a ring has, 0: there is none."""

    def __init__(self, folder: Path, ring: int = 0) -> None:
        self.folder = folder
        self.ring = ring

    def status(self, words: list[str], more: dict[str, str] | None = None) -> int:
        environment = dict(os.environ, UV_RUN_AS_ROOT="1") | (more or {})
        ran = limited(words, SECONDS, cwd=self.folder, env=environment, capture_output=True)
        for log in self.folder.glob("log.*"):
            log.unlink()
        return ran.returncode

    def preloaded(self, *libraries: object) -> dict[str, str]:
        ring = {"UVT_KEEP": str(self.ring), "UVT_LATE": "20"} if self.ring else {}
        return {"UVT_LOG": str(self.folder / "log"), "LD_PRELOAD": " ".join(map(str, libraries))} | ring

    def watched(self, libraries: Sequence[object]) -> dict[str, str]:
        """The same, with what a sanitizer finds in a file each."""
        reports = f"log_path={self.folder}/report"
        return self.preloaded(*libraries) | {"ASAN_OPTIONS": f"{QUIET}:{reports}", "UBSAN_OPTIONS": f"print_stacktrace=1:{reports}"}

    def reports(self) -> str:
        """What was reported since it was asked last."""
        found = ""
        for it in sorted(self.folder.glob("report.*")):
            found += it.read_text(errors="replace")
            it.unlink()
        return found


def compiled(source: Path, folder: Path) -> str:
    program = folder / source.stem
    subprocess.run(["cc", "-O1", "-g", "-w", str(source), "-o", str(program), "-luv", "-lpthread"], check=True)
    return str(program)


def try_sanitized(check: Check, room: Room, programs: dict[str, list[str]], plain: dict[str, int]) -> None:
    libraries = runtimes()
    if not libraries:
        print("tools: the recorder under sanitizers: not tried, since `cc` has none", flush=True)
        return
    libraries.append(str(sanitized(room.folder)))
    for name, program in programs.items():
        status = room.status(program, room.watched(libraries))
        check(f"unharmed, {name}: its status under a recorder with sanitizers", status == plain[name], (status, plain[name]))
        check(f"unharmed, {name}: what they report of the recorder", not (found := room.reports()), found)


def try_valgrind(check: Check, room: Room, programs: dict[str, list[str]], plain: dict[str, int]) -> None:
    if not shutil.which("valgrind"):
        print("tools: the recorder under valgrind: not tried, since it isn't installed", flush=True)
        return
    words = ["valgrind", "-q", "--leak-check=no", f"--error-exitcode={REPORTED}"]
    for name, program in programs.items():
        # (valgrind has reports of its own on a program that a signal ends, and on one that frees too soon in some orders)
        if plain[name] < 0 or name in RACES:
            continue
        status = room.status([*words, *program], room.preloaded(recorder()))
        check(f"unharmed, {name}: its status under valgrind", status == plain[name], (status, plain[name]))


Programs = tuple[dict[str, list[str]], dict[str, int]]


def programs_of(room: Room, folders: tuple[Path, ...]) -> Programs:
    """Those of these folders, compiled, and how each ends by itself."""
    sources = [it for folder in folders for it in sorted(folder.glob("*.c"))]
    programs = {it.stem: [compiled(it, room.folder), *WORDS.get(it.stem, [])] for it in sources}
    return programs, {it: room.status(program) for it, program in programs.items()}


def with_libuv(tries: Tries) -> bool:
    has = has_libuv()
    if not has:
        tries.leave_out("programs under the recorder", "there is no C compiler `cc` with libuv's header")
    return has


def try_unharmed(tries: Tries) -> None:
    if not with_libuv(tries):
        return
    with tempfile.TemporaryDirectory() as name:
        room = Room(Path(name))
        programs, plain = programs_of(room, PROGRAMS)
        for it, program in programs.items():
            status = room.status(program, room.preloaded(recorder()))
            tries.check(f"unharmed, {it}: its status", status == plain[it], (status, plain[it]))
        try_sanitized(tries.check, room, programs, plain)


def try_unharmed_more(tries: Tries) -> None:
    """The programs of the first folder under valgrind, and with a ring."""
    if not with_libuv(tries):
        return
    with tempfile.TemporaryDirectory() as name:
        room = Room(Path(name))
        programs, plain = programs_of(room, PROGRAMS[:1])
        try_valgrind(tries.check, room, programs, plain)
        room.ring = 2
        try_sanitized(tries.check, room, programs, plain)
        try_valgrind(tries.check, room, programs, plain)


# ---- by hand


def try_node(check: Check, room: Room, starts: int) -> None:
    """Starts of node, with the hook as `./uvt record` has it."""
    server = str(PROGRAMS[0] / "http.js")
    environment = room.preloaded(recorder()) | {"UVT_RECORDER": str(recorder()), "NODE_OPTIONS": f"--require {HOOKS / 'node' / 'hook.js'}"}

    def start(number: int) -> tuple[int, bytes]:
        more = dict(os.environ) | environment | {"UVT_LOG": str(room.folder / f"node{number}")}
        ran = limited(["node", server, "100", "10"], env=more, capture_output=True, seconds=SECONDS)
        return ran.returncode, ran.stdout

    with concurrent.futures.ThreadPoolExecutor(4) as several:
        for number, found in enumerate(several.map(start, range(starts)), 1):
            check(f"unharmed, start {number} of node", found == (0, b"100 answers\n"), found)


def try_libuv(check: Check, room: Room, libuv: Path) -> None:
    """libuv's own tests, under the recorder and under one with sanitizers."""
    sources = [str(it) for it in sorted((libuv / "test").glob("*.c")) if "benchmark" not in it.name and "win" not in it.name]
    words = ["cc", "-O1", "-w", "-D_GNU_SOURCE", *(f"-I{libuv / it}" for it in ("include", "src", "test"))]
    program = str(room.folder / "uv_run_tests")
    subprocess.run([*words, *sources, "-o", program, "-luv", "-ldl", "-lutil", "-lpthread"], check=True)
    (room.folder / "test").symlink_to((libuv / "test").resolve())
    listed = subprocess.run([program, "--list"], capture_output=True, text=True, env=dict(os.environ, UV_RUN_AS_ROOT="1"), cwd=room.folder)
    tests = listed.stdout.split()
    check("unharmed, libuv's own tests are listed", len(tests) > 100, listed)
    libraries = runtimes()
    watched = [*libraries, str(sanitized(room.folder))] if libraries else []
    for test in tests:
        plain = room.status([program, test])
        status = room.status([program, test], room.preloaded(recorder()))
        check(f"unharmed, libuv's {test}: its status", status == plain, (status, plain))
        if watched:
            status = room.status([program, test], room.watched(watched))
            check(f"unharmed, libuv's {test}: its status under sanitizers", status == plain, (status, plain))
            check(f"unharmed, libuv's {test}: what they report", not (found := room.reports()), found)


COSTS = ("idle", "timer", "write", "life")
FEW, MANY = 2_000, 12_000


def instructions(room: Room, words: list[str], more: dict[str, str]) -> int:
    """What valgrind counts."""
    counted = ["valgrind", "--tool=callgrind", "--callgrind-out-file=/dev/null", *words]
    ran = limited(counted, cwd=room.folder, env=dict(os.environ) | more, capture_output=True, text=True, seconds=SECONDS)
    return int(re.search(r"Collected : (\d+)", ran.stderr)[1])


def tell_costs(room: Room) -> None:
    """Of a callback, by as many as there are more in a longer run."""
    program = compiled(Path(__file__).resolve().parent / "recorded.c", room.folder)
    for kind in COSTS:
        told = []
        with_it: list[dict[str, str]] = [{}, room.preloaded(recorder())]
        for more in with_it:
            few, many = (instructions(room, [program, kind, str(count)], more) for count in (FEW, MANY))
            told.append((many - few) // (MANY - FEW))
        print(f"{kind}: {told[0]} instructions, recorded {told[1]}", flush=True)


def main() -> int:
    reader = argparse.ArgumentParser(description=__doc__, formatter_class=argparse.RawDescriptionHelpFormatter)
    reader.add_argument("--libuv", type=Path, metavar="FOLDER", help="the sources of libuv")
    reader.add_argument("--node", type=int, metavar="N", help="so many starts of node")
    reader.add_argument("--ring", type=int, default=0, metavar="MIB", help="with a ring")
    reader.add_argument("--costs", action="store_true", help="what a callback costs")
    asked, tries = reader.parse_args(), Tries("tools")
    with tempfile.TemporaryDirectory() as name:
        room = Room(Path(name), asked.ring)
        if asked.libuv:
            try_libuv(tries.check, room, asked.libuv.resolve())
        if asked.node:
            try_node(tries.check, room, asked.node)
        if asked.costs:
            tell_costs(room)
    if not asked.libuv and not asked.node and not asked.costs:
        try_unharmed(tries)
        try_unharmed_more(tries)
    return tries.end()
