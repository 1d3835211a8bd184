"""Tries the recorder on programs that people have: tests/recorder/real [--libuv FOLDER] [--node PATH] [--python PATH] [--nvim PATH]

  - an HTTP server and its client in node, 2,000 requests (Debian's node, or another one with capstone)
  - the programs of tests/tools/javascript in node, with --lift: a second recording, in which each timer of JavaScript is a handle of its own
  - an echo of 50 clients with uvloop (Debian's python3-uvloop)
  - neovim with a job (Debian's neovim)
  - an echo of 200 clients over TCP, with a check handle behind each poll (programs/clients.c)
  - ten storms: all that a loop can have at random, with threads that send (programs/storm.c)
  - with --libuv, the sources of libuv (Debian: apt-get source libuv1): its own tests, by tests/recorder/run
  - in the logs of all of these two neighbouring callbacks swapped, of which not both are of I/O, by tests/recorder/sharpness

It says which of these it met and what became of them: each loop of a program has to be `same` to the end; of libuv's own tests 355 of 361
loops, and 320 with as many polls as in the program; and of 100 swaps 85 are to be noticed. Status 1 if one isn't so. It is for the hand: a
quarter of an hour with a program before its proofs. All of it talks over loopback alone, and each program ends by itself in a minute.
"""

from __future__ import annotations

import argparse
import re
import shutil
import subprocess
import sys
import tempfile
from dataclasses import dataclass, field
from pathlib import Path

HERE = Path(__file__).resolve().parent
ROOT = HERE.parent.parent
PROGRAMS = ROOT / "tools" / "uvt" / "record" / "programs"
JAVASCRIPT = ROOT / "tests" / "tools" / "javascript"
# (a part of the others, and one that never ends)
NOT_RUN = ("said", "forever")
RECORD = ROOT / "tools" / "uvt" / "uvt-record"
JOB = (
    "let g:job = jobstart(['sh', '-c', 'for i in 1 2 3; do echo $i; sleep 0.1; done'],"
    " {'on_stdout': {j, d, e -> 0}, 'on_exit': {j, c, e -> execute('qa!')}})"
)
SECONDS = 900
HOUR = 3600
STORMS = 10
# So many changes of each loop, and of so many of its callbacks.
SWAPS, FIRST = 10, 400
SWAPS_OF_TESTS, BYTES = 3, 60_000
# What `uvt record` says of a loop: its callbacks, its steps, whether it is `same` to its end, and its polls.
LOOP = re.compile(r"^loop \d+: (\d+) of (\d+) callbacks, (\d+) steps: (same$)?.*\n(?:(?!loop ).*\n)*?    (\d.* polls?.*)$", re.MULTILINE)
# What has to hold, as parts of what there is.
SAME, AS_MANY, NOTICED = 355 / 361, 320 / 361, 0.85


@dataclass
class Program:
    """A program to be recorded, or why it isn't met."""

    name: str
    words: list[str] = field(default_factory=list)
    missing: str = ""
    options: list[str] = field(default_factory=list)


def run(words: list[str], folder: Path, seconds: int = SECONDS) -> subprocess.CompletedProcess[str]:
    """Runs a command. One that takes too long ends with status 124."""
    try:
        return subprocess.run(words, cwd=folder, capture_output=True, text=True, errors="replace", stdin=subprocess.DEVNULL, timeout=seconds)
    except subprocess.TimeoutExpired:
        return subprocess.CompletedProcess(words, 124, "", f"it takes over {seconds} s")


# ---- programs


def node(asked: str | None) -> Program:
    path = shutil.which(asked or "node")
    words = [path or "", str(PROGRAMS / "http.js"), "2000", "20"]
    return Program("node, an HTTP server and its client, 2,000 requests", words, "" if path else "there is no node")


def in_javascript(asked: str | None) -> dict[str, Program]:
    """Programs whose causes are known; of those with timers the second recording counts as a loop more."""
    path = shutil.which(asked or "node")
    found = [it for it in sorted(JAVASCRIPT.glob("*.js")) if it.stem not in NOT_RUN]
    return {
        f"js-{it.stem}": Program(f"node, {it.name}, lifted", [path or "", str(it)], "" if path else "there is no node", ["--lift"]) for it in found
    }


def uvloop(asked: str, folder: Path) -> Program:
    has = shutil.which(asked) and run([asked, "-c", "import uvloop"], folder).returncode == 0
    return Program("uvloop, an echo of 50 clients", [asked, str(PROGRAMS / "echo.py"), "50", "10"], "" if has else f"{asked} has no uvloop")


def neovim(asked: str | None) -> Program:
    path = shutil.which(asked or "nvim")
    return Program("neovim with a job", [path or "", "--headless", "--clean", "-c", JOB], "" if path else "there is no nvim")


def compiled(name: str, what: str, words: list[str], folder: Path) -> Program:
    """One of programs/."""
    made = run(["cc", "-O1", "-g", str(PROGRAMS / f"{name}.c"), "-o", name, "-luv", "-lpthread"], folder) if shutil.which("cc") else None
    missing = "" if made and made.returncode == 0 else "there is no C compiler `cc` with libuv's header"
    return Program(what, [str(folder / name), *words], missing)


class Tries:
    """What was tried, and what of it isn't as it has to be."""

    def __init__(self) -> None:
        self.failed = 0
        self.logs: list[Path] = []

    def say(self, what: str, holds: bool, said: str) -> None:
        self.failed += not holds
        print(f"{'well ' if holds else 'WRONG'} {what}: {said}", flush=True)

    def record(self, program: Program, folder: Path, name: str) -> None:
        """Records a program, and says how far its recordings go."""
        if program.missing:
            print(f"not met: {program.name}: {program.missing}", flush=True)
            return
        ran = run([str(RECORD), "-o", name, *program.options, *program.words], folder)
        if "called nothing of a libuv" in ran.stderr:
            print(f"not met: {program.name}: {program.words[0]} has no libuv that is found", flush=True)
            return
        loops = LOOP.findall(ran.stdout)
        whole = [it for it in loops if it[3] and it[0] == it[1]]
        holds = bool(loops) and len(whole) == len(loops) and ran.returncode == 0
        said = f"{len(whole)} of {len(loops)} loops same"
        if loops:
            calls, of, steps, _, polls = max(loops, key=lambda it: int(it[1]))
            said += f"; in the largest {calls} of {of} callbacks, {steps} steps, {polls}"
        self.say(program.name, holds, said if holds else f"{said}\n{ran.stdout}{ran.stderr}".strip())
        self.logs += sorted(folder.glob(f"{name}.log"))


# ---- libuv's own tests, and changed logs


def counted(text: str, line: str) -> dict[str, int]:
    """The counts of a line of tests/recorder/run."""
    found = re.search(rf"^{re.escape(line)}: (.*)$", text, re.MULTILINE)
    return {what: int(count) for count, what in (it.split(" ", 1) for it in (found[1].split(", ") if found and found[1] else []))}


def try_tests(tries: Tries, libuv: Path, folder: Path) -> list[Path]:
    """Of libuv's own tests those loops count that can be followed."""
    ran = run([str(HERE / "run"), "--libuv", str(libuv.resolve()), "--keep", str(folder)], folder, HOUR)
    loops, polls = counted(ran.stdout, "loops with callbacks of libuv's own tests"), counted(ran.stdout, "polls of libuv's own tests")
    same, of = loops.get("same", 0), sum(loops.get(it, 0) for it in ("same", "stops", "WRONG"))
    as_many, long = polls.get("as many", 0), polls.get("of these as long each", 0)
    if not of:
        tries.say("libuv's own tests", False, f"no loop was followed\n{ran.stdout[-2000:]}{ran.stderr[-2000:]}")
        return []
    tries.say("libuv's own tests", same >= SAME * of and ran.returncode == 0, f"{same} of {of} loops same")
    tries.say("their polls", as_many >= AS_MANY * of, f"as many as in the program in {as_many} loops, and each as long in {long} of these")
    return [it for it in sorted(folder.glob("uv.*.log")) if it.stat().st_size < BYTES]


def try_swaps(tries: Tries, what: str, logs: list[Path], most: int, folder: Path) -> None:
    if not logs:
        return
    words = [str(HERE / "sharpness"), "--most", str(most), "--first", str(FIRST), *(str(it.resolve()) for it in logs)]
    ran = run(words, folder, HOUR)
    found = re.search(r"^swapped: (\d+) of (\d+) noticed$", ran.stdout, re.MULTILINE)
    noticed, of = (int(found[1]), int(found[2])) if found else (0, 0)
    tries.say(f"two neighbours swapped, {what}", of > 0 and noticed >= NOTICED * of, f"{noticed} of {of} noticed{ran.stderr[-2000:]}")


def try_all(asked: argparse.Namespace, folder: Path) -> int:
    tries = Tries()
    programs = {"node": node(asked.node), **in_javascript(asked.node), "uvloop": uvloop(asked.python, folder), "neovim": neovim(asked.nvim)}
    programs["clients"] = compiled("clients", "an echo of 200 clients with a check handle", ["200", "5"], folder)
    storms = {f"storm-{seed}": compiled("storm", f"storm {seed}", [str(seed), "300"], folder) for seed in range(1, STORMS + 1)}
    for name, program in (programs | storms).items():
        tries.record(program, folder, name)
    tests = []
    if asked.libuv:
        (folder / "tests").mkdir(exist_ok=True)
        tests = try_tests(tries, asked.libuv, folder / "tests")
    else:
        print("not met: libuv's own tests: no --libuv FOLDER", flush=True)
    try_swaps(tries, "in these programs", tries.logs, SWAPS, folder)
    try_swaps(tries, "in libuv's own tests", tests, SWAPS_OF_TESTS, folder)
    return 1 if tries.failed else 0


def main() -> int:
    reader = argparse.ArgumentParser(description=__doc__, formatter_class=argparse.RawDescriptionHelpFormatter)
    reader.add_argument("--libuv", type=Path, metavar="FOLDER", help="the sources of libuv")
    reader.add_argument("--node", metavar="PATH", help="node, in place of that of the PATH")
    reader.add_argument("--python", metavar="PATH", default="/usr/bin/python3", help="a Python with uvloop, in place of /usr/bin/python3")
    reader.add_argument("--nvim", metavar="PATH", help="neovim, in place of that of the PATH")
    reader.add_argument("--keep", type=Path, metavar="FOLDER", help="where programs, logs and recordings are kept")
    asked = reader.parse_args()
    with tempfile.TemporaryDirectory() as room:
        folder = (asked.keep or Path(room)).resolve()
        try:
            folder.mkdir(parents=True, exist_ok=True)
            return try_all(asked, folder)
        except OSError as fault:
            print(f"real: {fault}", file=sys.stderr)
            return 2
        except KeyboardInterrupt:
            return 130
