"""Proves and builds the program: tools/launch/build.py ROOT KEPT CRATE..

The crates are those that the program depends on, each after those that it depends on itself, and the program last: uvt, or uvt_find. The libraries
are proved side by side, in copies of the repository beside it (tools/launch/lanes.py). Then the program is built in the repository
itself, where the kit's command takes over what was proved in the copies: so what was proved stands in crates/*/out
afterwards, for the next build and for `rt check`. Where the build is stopped or fails, the copies stay, and the next one
goes on from there."""
import hashlib
import os
import queue
import shutil
import signal
import sys
import tempfile
from typing import Dict, List, Tuple

from launch import crates
from launch.lanes import Command, Failed, Lanes, Said, Stopped, expected
from launch.progress import Progress, clock

# What a check of a crate takes of the memory, in bytes.
EACH = 1_600_000_000
# The words that each program is started with, and an input that it answers with status 0.
STARTED: Dict[str, Tuple[List[str], bytes]] = {"uvt": (["debug"], b"begin\n"), "uvt_find": ([], b"var a\nmain now\nbegin\nfind never a\n")}


def room_of(root: str) -> str:
    """The folder of the copies. It doesn't lie in the repository, of which the gate reads each file."""
    cache = os.environ.get("XDG_CACHE_HOME") or os.path.expanduser("~/.cache")
    name = "uvt-" + hashlib.sha256(os.path.realpath(root).encode()).hexdigest()[:16]
    for place in (cache, tempfile.gettempdir()):
        try:
            os.makedirs(os.path.join(place, name), exist_ok=True)
            return os.path.join(place, name)
        except OSError:
            continue
    raise Failed("uvt: neither %s nor %s can be written to" % (cache, tempfile.gettempdir()))


def processors() -> int:
    """How many checks go side by side: RT_JOBS, or as many as there are processors and memory for."""
    number = os.environ.get("RT_JOBS", "")
    if number.isdigit() and int(number):
        return int(number)
    found = len(os.sched_getaffinity(0))
    with open("/proc/meminfo", encoding="ascii") as file:
        for line in file:
            if line.startswith("MemAvailable:"):
                found = min(found, int(line.split()[1]) * 1024 // EACH)
    return max(found, 1)


def build_program(root: str, program: str, progress: Progress, lanes: Lanes) -> None:
    """Builds the program in the repository, and starts it on a short input, to see that it answers. It gets all processors, four at
    most, as nobody else waits for one."""
    progress.begins(program)
    folder = os.path.join(root, "crates", program)
    words, text = STARTED[program]
    command = Command(program, ["run", "--jobs", str(min(4, lanes.processors)), "--"] + words, folder, lanes.said, text)
    lanes.running[program] = command, "", lanes.processors
    try:
        lanes.next_end()
    finally:
        del lanes.running[program]
        command.end()


def build(root: str, kept: str, names: List[str], said: Said) -> None:
    of = crates.read(root, names)
    at_once = processors()
    progress = Progress(of, at_once)
    why = "the sources or the kit have changed" if os.path.exists(os.path.join(kept, names[-1])) else "there is no proved program yet"
    progress.say(
        "%s: proving and building it, of %d crates, %d at a time: about %d minutes from nothing, if this machine does nothing else"
        % (why, len(of), at_once, round(expected(of, at_once) / 60))
    )
    room = room_of(root)
    lanes = Lanes(root, room, progress, at_once, said)
    lanes.build(names[:-1])
    build_program(root, names[-1], progress, lanes)
    shutil.rmtree(room, ignore_errors=True)
    progress.say("built after %s; from now on each call starts at once" % clock(progress.elapsed()))


def main() -> int:
    said: Said = queue.SimpleQueue()
    for number in (signal.SIGINT, signal.SIGTERM, signal.SIGHUP):
        # (at a terminal two of them come, and of what is put behind the first one nothing is heard)
        signal.signal(number, lambda *_: said.put(None))
    root, kept, names = sys.argv[1], sys.argv[2], sys.argv[3:]
    try:
        build(root, kept, names, said)
        return 0
    except Stopped:
        print("\nuvt: stopped; what is proved is kept, and the next build goes on from there", file=sys.stderr)
    except Failed as fault:
        print("\n%s" % fault, file=sys.stderr)
        with open(os.path.join(kept, "log"), "w", encoding="utf-8") as log:
            print(fault, file=log)
    except OSError as error:
        print("\nuvt: %s: %s" % (error.filename or "the build", error.strerror), file=sys.stderr)
    return 70
