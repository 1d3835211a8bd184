"""Orders forced upon real programs, and hunted, where that takes minutes: tests/tools/hunts [PART..] [--libuv FOLDER] [--keep FOLDER]

  nine      `./uvt hunt` of nine programs with a use after free in some order (forces/): each is found, with no hint
  healthy   `./uvt hunt --for 15s` of programs without a fault, in C, and where they are installed in Python on uvloop, Lua on luv, R on httpuv and
            node: each run ends well
  own       programs in the order of their own recordings: all steps, no departure, the same callbacks
  again     the sessions of send, lookup and order, ten times each: the sanitizer sees the fault each time
  random    `./uvt force --random 200 --stall 20` of the nine: a run ends badly, and its recording, forced, does so again
  hang      `./uvt hunt` of a program that in some order waits for ever (forces/never.c): that is found, and that it comes each time
  node      the programs of javascript/ in the order of their own recordings (with a `node` whose libuv is seen)
  races     the nine races in node and the five in Python on uvloop (javascript/races, python/races): each is found with no hint, and how many seconds
            of the processor that took, with its ten repeats
  kept      each race of tests/tools/orders is hunted, and its order is forced twenty times more, by `force --test`: where the hunt has said that
            it is bad each time, it is
  slurm     a hunt in four parts, as docs/HUNT.md has it, and one that is cancelled (with a Slurm that runs; two nodes on one machine are enough)

Without PART all of these, except for node, races, kept and slurm. --libuv: another libuv, as its own build leaves it there (libuv.so.1). It takes
a C compiler with AddressSanitizer and libuv's header. What isn't as it has to be is printed, and the counts; status 1 if anything isn't. What has to
come is known
from the programs: what their threads and their sanitizer do, and no answer of a tool's own.
"""

from __future__ import annotations

import argparse
import os
import re
import resource
import shutil
import signal
import subprocess
import tempfile
import time
from collections.abc import Callable
from pathlib import Path

from tests.tools.orders import ENDS, HANGS
from tests.tools.races import NODE, PYTHON, UVLOOP

HERE = Path(__file__).resolve().parent
ROOT = HERE.parent.parent
TOOLS = ROOT / "tools" / "uvt"
NINE = ("lookup", "order", "window", "stall", "intime", "inwork", "send", "retry", "server")
RECORDED = ("clients", "datagrams", "late", "mixed", "starved", "threads", "work", "zero")
TRUTHS = (
    "behind",
    "blocked",
    "busy",
    "child",
    "coalesce",
    "conns",
    "crowd",
    "drift",
    "echo",
    "fifo",
    "files",
    "neverclosed",
    "pollspin",
    "pool",
    "rearmed",
    "starve",
)
# (of forces/: threads that wait until a time, a loop that never waits, 3,000 calls of a timer, a child of three seconds, two
# locks in the same order)
MOVING = ("timed", "spins", "counts", "sleeping-child", "same-locks")
# What isn't forced each time: a storm goes by its own clock and its threads' common seed; an op by a wrong thread; two loops, of which the second
# one isn't forced (its program has a race, too, and may wait for ever); and how much of a long write the system takes at once is its own matter.
NOT_FORCED = {"storm", "wrongthread", "watched", "goodbye"}
# A server that ends by itself only where it is told when, in seconds.
WORDS = {"stalls": ["2"]}
SECONDS = 900
# So often is an order forced that a hunt has kept.
FORCED_AGAIN = 20
REPORT = "heap-use-after-free"
FLAGS = ["-O1", "-g", "-w"]


class Tries:
    def __init__(self) -> None:
        self.count = self.failed = 0

    def check(self, what: str, holds: bool, why: str = "") -> None:
        self.count += 1
        if not holds:
            self.failed += 1
            print(f"hunts: {what}: {why[-2000:]}", flush=True)


def source(name: str) -> Path:
    paths = [HERE / "forces" / f"{name}.c", TOOLS / "record" / "programs" / f"{name}.c", HERE / "truths" / f"{name}.c"]
    return next(it for it in paths if it.exists())


def compiled(name: str, folder: Path, sanitizer: bool) -> str:
    path = folder / (f"{name}.asan" if sanitizer else name)
    more = ["-fsanitize=address"] if sanitizer else []
    subprocess.run(["cc", *FLAGS, *more, str(source(name)), "-o", str(path), "-luv", "-lpthread", "-lm"], check=True)
    return f"./{path.name}"


def tool(word: str, *words: str, folder: Path, seconds: float = SECONDS) -> tuple[int, str]:
    """Its status and what it says. What takes longer is ended with all that it has started."""
    ran = subprocess.Popen(
        [str(TOOLS / f"uvt-{word}"), *words],
        stdout=subprocess.PIPE,
        stderr=subprocess.STDOUT,
        text=True,
        errors="replace",
        cwd=folder,
        stdin=subprocess.DEVNULL,
        start_new_session=True,
    )
    try:
        said = ran.communicate(timeout=seconds)[0]
        return ran.returncode, said
    except subprocess.TimeoutExpired:
        return 124, f"it took more than {seconds} s"
    finally:
        if ran.poll() is None:
            os.killpg(ran.pid, signal.SIGKILL)
            ran.wait()


def nine(tries: Tries, folder: Path) -> None:
    for name in NINE:
        began = time.monotonic()
        program = compiled(name, folder, True)
        status, said = tool("hunt", program, folder=folder)
        tries.check(f"hunt, {name}", status == 3 and REPORT in said, said)
        counts = said.strip().splitlines()[-1].strip()
        print(f"{name}: {counts}; {time.monotonic() - began:.0f} s in all", flush=True)


def interpreted() -> list[list[str]]:
    """Healthy programs in Python, Lua, R (with httpuv and later) and node."""
    others = {"said", "forever", "drift", "unref"}  # (a helper, and those that never end, or take long)
    found: list[list[str]] = []
    for words, pattern in (
        ("/usr/bin/python3", "python/*.py"),
        ("/usr/bin/python3", "python/races/healthy.py"),
        ("luajit", "lua/*.lua"),
        ("Rscript", "r/*.R"),
        ("node", "javascript/*.js"),
    ):
        if shutil.which(words):
            found += [[words, str(it)] for it in sorted(HERE.glob(pattern)) if it.stem not in others]
    return found


def healthy(tries: Tries, folder: Path) -> None:
    # (where the programs in Lua have what they say of themselves by)
    os.environ["LUA_PATH"] = f"{HERE / 'lua'}/?.lua;;"
    programs = [[compiled(name, folder, True)] for name in (*RECORDED, *TRUTHS, *MOVING)] + interpreted()
    for words in programs:
        status, said = tool("hunt", "--for", "15s", *words, folder=folder)
        tries.check(f"hunt, {Path(words[-1]).name}, which is healthy", status == 0 and "each run ended well" in said, said)
        print(f"{Path(words[-1]).name}: {said.strip().splitlines()[-1].strip()}", flush=True)
    print(f"healthy: {len(programs)} programs", flush=True)


def recordings(name: str, folder: Path) -> list[Path]:
    return sorted(it for it in folder.glob(f"{name}*.rec") if re.fullmatch(rf"{re.escape(name)}(\.\d+)*\.rec", it.name))


def own(tries: Tries, folder: Path) -> None:
    names = sorted(it.stem for it in [*(TOOLS / "record" / "programs").glob("*.c"), *(HERE / "truths").glob("*.c")])
    forced = 0
    for name in names:
        program = compiled(name, folder, False)
        words = [program, *WORDS.get(name, [])]
        tool("record", "-o", name, *words, folder=folder)
        found = recordings(name, folder)
        if not found:
            tries.check(f"own, {name}: a recording", False)
            continue
        status, said = tool("force", "-o", f"{name}.forced", found[0].name, *words, folder=folder, seconds=60)
        good = bool(re.search(r"^all \d+ steps, 0 departures, same$", said, re.MULTILINE))
        forced += good
        tries.check(f"own, {name}", good or name in NOT_FORCED, said)
    print(f"own: {forced} of {len(names)} with all steps and no departure", flush=True)


def again(tries: Tries, folder: Path) -> None:
    for name in ("send", "lookup", "order"):
        program, hits = compiled(name, folder, True), 0
        for _ in range(10):
            status, said = tool("force", "-o", "again.forced", str(HERE / "forces" / f"{name}.uvt"), program, folder=folder)
            hits += status == 3 and REPORT in said and ", 0 departures" in said
        tries.check(f"again, {name}", hits == 10, f"{hits} of 10")
        print(f"again, {name}: {hits} of 10", flush=True)


def random(tries: Tries, folder: Path) -> None:
    for name in NINE:
        program = compiled(name, folder, True)
        status, said = tool("force", "--random", "200", "--stall", "20", program, folder=folder)
        tries.check(f"random, {name}", status == 3 and REPORT in said, said)
        second, forced = tool("force", "-o", "random.forced", f"{Path(program).name}.random.rec", program, folder=folder)
        tries.check(f"random, {name}: its recording", second == 3 and REPORT in forced and ", 0 departures" in forced, forced)
        print(f"random, {name}: {said.splitlines()[0]}", flush=True)


def node(tries: Tries, folder: Path) -> None:
    forced, names = 0, sorted(it.stem for it in (HERE / "javascript").glob("*.js"))
    for name in names:
        path = str(HERE / "javascript" / f"{name}.js")
        tool("record", "-o", f"node-{name}", "node", path, folder=folder)
        found = max(recordings(f"node-{name}", folder), key=lambda it: it.stat().st_size, default=None)
        said = tool("force", "-o", f"node-{name}.forced", found.name, "node", path, folder=folder, seconds=100)[1] if found else "no recording"
        forced += bool(re.search(r"^all \d+ steps, 0 departures, same$", said, re.MULTILINE))
        print(f"node, {name}: {said.strip().splitlines()[-1][:150]}", flush=True)
    # (V8's own threads send when they like)
    tries.check("node: at least a third of the programs", forced * 3 >= len(names), f"{forced} of {len(names)}")
    print(f"node: {forced} of {len(names)} with all steps and no departure", flush=True)


def hang(tries: Tries, folder: Path) -> None:
    status, said = tool("hunt", compiled("never", folder, False), folder=folder)
    good = status == 3 and "the program hangs, and in 10 of 10 further runs in the same order" in said
    tries.check("hang", good, said)
    print(f"hang: {said.strip().splitlines()[-1].strip()}", flush=True)


def races(tries: Tries, folder: Path) -> None:
    programs = [["node", str(HERE / "javascript" / "races" / f"{it}.js")] for it in NODE]
    programs += [[PYTHON, str(HERE / "python" / "races" / f"{it}.py")] for it in UVLOOP]
    for words in programs:
        name, before = Path(words[-1]).stem, resource.getrusage(resource.RUSAGE_CHILDREN)
        status, said = tool("hunt", "-o", name, *words, folder=folder)
        spent = resource.getrusage(resource.RUSAGE_CHILDREN)
        tries.check(f"races, {name}", status == 3 and "\n    its order is " in said, said)
        seconds = spent.ru_utime + spent.ru_stime - before.ru_utime - before.ru_stime
        print(f"races, {name}: {said.splitlines()[0]}; {said.strip().splitlines()[-1].strip()}, {seconds:.0f} s of the processor", flush=True)


def kept(tries: Tries, folder: Path, names: tuple[str, ...] = (*ENDS, *HANGS)) -> None:
    all = bad = 0
    for name in names:
        program = compiled(name, folder, name in ENDS)
        said = tool("hunt", "-o", name, program, folder=folder)[1]
        often = re.search(r", and in (\d+) of (\d+) further runs in the same order$", said, re.MULTILINE)
        early = ["--early"] if f" --early {name}.uvt" in said else []
        ends = [tool("force", "--test", *early, f"{name}.uvt", program, folder=folder)[0] for _ in range(FORCED_AGAIN if often else 0)]
        all, bad = all + len(ends), bad + ends.count(3)
        tries.check(f"kept, {name}", often is not None and (int(often[1]) < int(often[2]) or ends.count(3) == len(ends)), f"{ends} {said}")
        print(f"kept, {name}: {often[1]} of {often[2]}, and {ends.count(3)} of {len(ends)}" if often else f"kept, {name}: not found", flush=True)
    print(f"kept: {bad} of {all} are bad", flush=True)


def slurm(tries: Tries, folder: Path) -> None:
    def batch(count: int, time: str, *words: str) -> list[str]:
        hunts = f"{TOOLS}/uvt-hunt --for {time} --part $SLURM_ARRAY_TASK_ID/{count} {' '.join(words)}"
        return ["sbatch", "--parsable", f"--array=1-{count}", "--wrap", hunts]

    subprocess.run([*batch(4, "60s", compiled("upload", folder, True)), "--wait"], cwd=folder, check=False)
    reports = sorted(it.name for it in folder.glob("upload.asan.hunt.*.report"))
    status, said = tool("hunt", "--join", *reports, folder=folder)
    tries.check("slurm: four parts", len(reports) == 4 and status == 3 and REPORT in said and said.rstrip().endswith("in 4 parts"), said)
    job = subprocess.run(batch(1, "10m", compiled("zero", folder, True)), cwd=folder, capture_output=True, text=True, check=True).stdout.strip()
    time.sleep(20)
    subprocess.run(["scancel", job], check=True)
    for _ in range(30):
        time.sleep(1)
        if not subprocess.run(["squeue", "-h", "-j", job], capture_output=True, text=True).stdout:
            break
    said = "".join(it.read_text() for it in folder.glob(f"slurm-{job}_*.out"))
    tries.check("slurm: a part that is cancelled", "it was interrupted, and not at its end\n" in said, said)
    print(f"slurm: {len(reports)} parts of 4", flush=True)


PARTS: dict[str, Callable[[Tries, Path], None]] = {
    "nine": nine,
    "healthy": healthy,
    "own": own,
    "again": again,
    "random": random,
    "hang": hang,
    "node": node,
    "races": races,
    "kept": kept,
    "slurm": slurm,
}
BY_NAME = ("node", "races", "kept", "slurm")


def main() -> int:
    reader = argparse.ArgumentParser(description=__doc__, formatter_class=argparse.RawDescriptionHelpFormatter)
    reader.add_argument("parts", nargs="*", metavar="PART", choices=[[], *PARTS], help=", ".join(PARTS))
    reader.add_argument("--libuv", metavar="FOLDER", help="where another libuv.so.1 lies")
    reader.add_argument("--keep", type=Path, metavar="FOLDER", help="where programs and recordings are kept")
    asked = reader.parse_args()
    if asked.libuv:
        os.environ["LD_LIBRARY_PATH"] = asked.libuv
    tries = Tries()
    with tempfile.TemporaryDirectory() as folder:
        where = asked.keep or Path(folder)
        where.mkdir(parents=True, exist_ok=True)
        for name in asked.parts or [it for it in PARTS if it not in BY_NAME]:
            began, load = time.monotonic(), os.getloadavg()[0]
            PARTS[name](tries, where)
            print(f"{name}: {time.monotonic() - began:.0f} s, load {load:.0f} to {os.getloadavg()[0]:.0f} on {os.cpu_count()} processors", flush=True)
    print(f"hunts: {tries.count} tried, {tries.failed} failed")
    return 1 if tries.failed else 0
