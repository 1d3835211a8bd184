"""The flight recorder on servers: tests/recorder/flight [--dumps N] [--stalls N] [--attaches N] [--seconds S] [--pause MS]
[--seed S] [SERVER..]

  http     C, over TCP with 50 clients of its own, flat out: writes, timers that start anew, work of the pool (servers/http.c)
  three    C, three loops in three threads: idle, prepare and check handles, one loop that only waits (servers/three.c)
  many     C, 3,000 timers and 50 check handles (servers/many.c); thousands: the same with 30,000 timers, where it is named
  node     node, over HTTP with 20 clients of its own (servers/server.js), with the hook; its stalls wait, compute, or call the system in turn
  python   Python on uvloop, with 20 clients of its own (servers/server.py), with the hook; UVT_PYTHON names the Python

--dumps: so many copies of the ring of each while it runs, at random moments once the ring has turned. Each recording has to be `same` to its
end, of each loop. --stalls: so many runs of http, node and python in which a function takes 150 ms at a random moment: what was kept apart has
to name it, with its line. A run takes --seconds. With --pause each client waits so long behind an answer. --attaches: so often
the recorder comes into a program with a beat each millisecond (servers/beat.c), and leaves it: how late that was, and how late it is without
that. It prints how many were, and of how many callbacks; status 1 if one wasn't. For the hand:
--dumps 20 takes a quarter of an hour.
"""

from __future__ import annotations

import argparse
import os
import random
import re
import shlex
import signal
import subprocess
import tempfile
import time
from dataclasses import dataclass
from pathlib import Path
from typing import Any

from tests.helper import ROOT, Tries, limited
from uvt.record import ring

HERE = Path(__file__).resolve().parent / "servers"
UVT = str(ROOT / "uvt")
LOOP = re.compile(r"^loop (\d+): (\d+) of (\d+) callbacks, \d+ steps: (.*)$", re.MULTILINE)
LONG = "1000000"
STALL, LATE = 150, 100
# So many callbacks around it are followed.
AROUND = 4000
# The seconds within which a ring has to have turned, and how far apart copies are at the most.
TURNS, APART = 120, 3.0


@dataclass
class Server:
    """How it is started, behind which the seconds stand; how many MiB are kept; the words behind the seconds; what names its stall; and its kinds."""

    words: list[str]
    keep: int
    more: list[str]
    named: str = ""
    how: tuple[str, ...] = ()


def servers(folder: Path) -> dict[str, Server]:
    for name in ("http", "three", "many"):
        words = ["cc", "-O1", "-g", "-w", str(HERE / f"{name}.c"), "-o", str(folder / name), "-luv", "-lpthread"]
        subprocess.run(words, check=True)
    python = os.environ.get("UVT_PYTHON", "/usr/bin/python3")
    return {
        "http": Server([str(folder / "http")], 2, ["50"], r"nanosleep, at http\.c:\d+, in rebuild_index"),
        "three": Server([str(folder / "three")], 2, []),
        "many": Server([str(folder / "many")], 3, ["3000"]),
        "thousands": Server([str(folder / "many")], 3, ["30000"]),
        "node": Server(["node", str(HERE / "server.js")], 3, [], r"rebuildIndex \((?:\S*/)?server\.js:\d+\)", ("waits", "computes", "calls")),
        "python": Server([python, str(HERE / "server.py")], 3, [], r"rebuild_index \((?:\S*/)?server\.py:\d+\)"),
    }


class Room:
    def __init__(self, folder: Path) -> None:
        self.folder = folder
        self.servers = servers(folder)

    def uvt(self, *words: object) -> subprocess.CompletedProcess[str]:
        return limited([UVT, *map(str, words)], cwd=self.folder, capture_output=True, text=True)

    def start(self, server: Server, name: str, keep: int, late: int, more: list[str]) -> subprocess.Popen[bytes]:
        """As a service's unit does, by what `record --keep` prints."""
        asked = ["--keep", keep, *(["--late", late] if late else []), "-o", name]
        lines = self.uvt("record", *asked).stdout.splitlines()
        env = dict(os.environ) | {key: shlex.split(it)[0] for key, _, it in (line.partition("=") for line in lines)}
        with (self.folder / f"{name}.err").open("wb") as errors:
            return subprocess.Popen([*server.words, *more], cwd=self.folder, env=env, stdout=subprocess.DEVNULL, stderr=errors)

    def why(self, path: Path) -> str:
        """What is said of a ring that was kept apart, by the callbacks around that."""
        name = ring.name_of(path)
        self.uvt("record", "-o", name, "--log", path.name, "--most", AROUND, "--worst")
        return self.uvt("why", f"{name}.rec").stdout

    def rings(self, name: str) -> list[Path]:
        return sorted(it for it in self.folder.glob(f"{name}.*.ring") if ring.is_ring(it))


def end(process: subprocess.Popen[Any]) -> None:
    process.send_signal(signal.SIGKILL)
    process.wait()


def has_turned(room: Room, name: str, keep: int) -> bool:
    limit = time.monotonic() + TURNS
    while time.monotonic() < limit:
        for path in room.rings(name):
            with path.open("rb") as file:
                if max(ring.numbers_in(file), default=0) > max(keep, path.stat().st_size // ring.WINDOW):
                    return True
        time.sleep(0.2)
    return False


def try_dumps(tries: Tries, room: Room, name: str, count: int, random: random.Random) -> None:
    server = room.servers[name]
    process = room.start(server, name, server.keep, 0, [LONG, *server.more])
    same = callbacks = 0
    try:
        tries.check(f"{name}: its ring turns within {TURNS} s", has_turned(room, name, server.keep), room.rings(name))
        for number in range(count):
            time.sleep(random.uniform(0, APART))
            ran = room.uvt("dump", "-o", f"{name}-copy", process.pid)
            loops = LOOP.findall(ran.stdout)
            good = ran.returncode == 0 and loops and all(it[1] == it[2] and it[3] == "same" for it in loops)
            tries.check(f"{name}, copy {number + 1}", good, ran.stdout[-1500:] + ran.stderr[-500:])
            same += bool(good)
            callbacks += sum(int(it[1]) for it in loops)
    finally:
        end(process)
    print(f"{name}: {same} of {count} copies same to their ends, {callbacks:,} callbacks", flush=True)


def try_stalls(tries: Tries, room: Room, name: str, asked: argparse.Namespace, random: random.Random) -> None:
    server, found, seconds = room.servers[name], 0, asked.seconds
    for number in range(asked.stalls):
        at = random.randrange(2000, max(2001, (seconds - 3) * 1000))
        prefix = f"{name}-{number}"
        how = [server.how[(asked.seed + number) % len(server.how)]] if server.how else []
        process = room.start(server, prefix, 16, LATE, [str(seconds), *server.more, str(STALL), str(at), str(asked.pause), *how])
        try:
            process.wait(20 * seconds + TURNS)
        except subprocess.TimeoutExpired:
            end(process)
        ended = f"it ended with {process.returncode}: {(room.folder / f'{prefix}.err').read_text()[-500:]}"
        kept = [it for it in room.rings(prefix) if ".late-" in it.name]
        whys = [line for it in kept for line in ring.log_of(it).decode(errors="replace").splitlines() if line.startswith("- T ")]
        said = "\n".join([ended, *whys, *(room.why(it) for it in kept)])
        good = re.search(server.named, said)
        tries.check(" ".join([f"{name}, a stall of {STALL} ms at {at} ms", *how]), good, said[:6000])
        found += bool(good)
        for it in room.folder.glob(f"{prefix}.*"):
            it.unlink()
    print(f"{name}: {found} of {asked.stalls} stalls of {STALL} ms kept and named, in runs of {seconds} s", flush=True)


def try_attaches(tries: Tries, room: Room, count: int) -> None:
    """How far apart two beats are at the most while the recorder comes, while it leaves, and in as long a time without both."""
    words = ["cc", "-O1", "-g", "-w", str(HERE / "beat.c"), "-o", str(room.folder / "beat"), "-luv"]
    subprocess.run(words, check=True)
    process = subprocess.Popen([str(room.folder / "beat")], cwd=room.folder, stdin=subprocess.PIPE, stdout=subprocess.PIPE, text=True)

    def most() -> float:
        print(file=process.stdin, flush=True)
        return int(process.stdout.readline()) / 1000

    rows: dict[str, list[float]] = {"attach": [], "detach": [], "without": [], "still": []}
    try:
        for _ in range(count):
            for what, more in (("attach", ["-o", "beat", "--keep", "2"]), ("detach", ["--detach"])):
                most()
                begin = time.monotonic()
                ran = room.uvt("attach", *more, process.pid)
                took = time.monotonic() - begin
                rows[what].append(most())
                still = re.search(r"stood still for (\d+\.\d) ms", ran.stdout)
                tries.check(f"beat, {what}", still, ran.stdout + ran.stderr)
                rows["still"].append(float(still[1]) if still else 0)
                time.sleep(took)
                rows["without"].append(most())
    finally:
        end(process)
    for what, found in rows.items():
        found.sort()
        print(f"beat, {what}: {found[len(found) // 2]:.1f} ms in the middle, {found[-1]:.1f} at the most, of {len(found)}", flush=True)


def main() -> int:
    reader = argparse.ArgumentParser(description=__doc__, formatter_class=argparse.RawDescriptionHelpFormatter)
    reader.add_argument("servers", nargs="*", metavar="SERVER")
    reader.add_argument("--dumps", type=int, default=0, metavar="N", help="so many copies of each server's ring")
    reader.add_argument("--stalls", type=int, default=0, metavar="N", help="so many runs with a stall, of the servers that may have one")
    reader.add_argument("--attaches", type=int, default=0, metavar="N", help="how long a program stands still as the recorder comes, so often")
    reader.add_argument("--seconds", type=int, default=20, metavar="S", help="how long such a run is")
    reader.add_argument("--pause", type=int, default=0, metavar="MS", help="how long a client waits behind an answer")
    reader.add_argument("--seed", type=int, default=1, metavar="S")
    asked, tries = reader.parse_args(), Tries("flight")
    with tempfile.TemporaryDirectory() as folder:
        room, drawn = Room(Path(folder)), random.Random(asked.seed)
        names = asked.servers or [it for it in room.servers if it != "thousands"]
        if unknown := [it for it in names if it not in room.servers]:
            reader.error(f"there is no server {unknown[0]}: they are {', '.join(room.servers)}")
        if asked.attaches:
            try_attaches(tries, room, asked.attaches)
        for name in names:
            if asked.dumps:
                try_dumps(tries, room, name, asked.dumps, drawn)
            if asked.stalls and room.servers[name].named:
                try_stalls(tries, room, name, asked, drawn)
    return tries.end()
