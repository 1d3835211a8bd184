"""Crates are proved side by side, each by the kit's own command in a copy of the repository.

The kit lets one command at a time work in a crate and in all that the crate depends on, and all crates depend on one. So each
lane is a copy of its own. A library that is built in one lane is given to the others and to the repository, with the stamp by which the
kit knows of which sources it is: so it is proved once. (It is the same bytes wherever it is built.)"""
import contextlib
import os
import queue
import re
import shutil
import subprocess
import threading
from typing import Container, Dict, List, Optional, Set, Tuple

from launch.crates import BY_JOBS, IN_A_ROW, Crate, chains
from launch.progress import Progress

PARTS = ("src", "specs", "proofs")
# A crate whose proof takes so many seconds takes long.
LONG = 100
# What rt says of each function that it proved, and of how far it is: nobody who looks for a fault reads it.
ROUTINE = re.compile(r"(fn|enum|struct|trait|impl) .*: proved$|(library|crate) \S+: modules |(statements|logic|by-macro:) |so far: |rt: chose ")


class Failed(Exception):
    """A crate that isn't proved, and what rt says of it."""


class Stopped(Exception):
    """A build that a signal ends. It is raised where the build waits, and nowhere else: within a library's call it might be taken for a
    fault of what that does, and passed over."""


class Command:
    """A command of the kit in a crate's folder. What it says goes into the queue, a line at a time, and None once it has ended."""

    def __init__(self, name: str, words: List[str], folder: str, said: "Said", given: bytes = b"") -> None:
        self.name, self.functions = name, 0
        self.lines: List[str] = []
        self.process = subprocess.Popen(
            ["rt"] + words, cwd=folder, stdin=subprocess.PIPE, stdout=subprocess.PIPE, stderr=subprocess.STDOUT, start_new_session=True
        )
        assert self.process.stdin and self.process.stdout
        self.output = self.process.stdout
        with contextlib.suppress(BrokenPipeError):
            self.process.stdin.write(given)
            self.process.stdin.close()
        threading.Thread(target=self.read, args=(said,), daemon=True).start()

    def read(self, said: "Said") -> None:
        for line in self.output:
            said.put((self, line.decode(errors="replace").rstrip("\n")))
        self.process.wait()
        said.put((self, None))

    def end(self) -> None:
        # (with rt all that it has started ends)
        self.process.terminate()
        try:
            self.process.wait(5)
        except subprocess.TimeoutExpired:
            self.process.kill()


def copy_sources(root: str, lane: str, crates: Dict[str, Crate]) -> None:
    """The program's crates as they stand, beside what commands kept in this copy before."""
    for name in crates:
        for part in PARTS:
            source, target = os.path.join(root, "crates", name, part), os.path.join(lane, "crates", name, part)
            shutil.rmtree(target, ignore_errors=True)
            if os.path.isdir(source):
                shutil.copytree(source, target, symlinks=True)
    with open(os.path.join(lane, "crates.txt"), "w", encoding="utf-8") as file:
        file.writelines(crate.line + "\n" for crate in crates.values())


def stamp_of(library: str) -> bytes:
    try:
        with open(os.path.join(library, "stamp"), "rb") as file:
            return file.read()
    except OSError:
        return b""


def link(source: str, target: str) -> None:
    """The same file in another place, or where the file systems are two a copy of it."""
    try:
        os.link(source, target)
    except OSError:
        shutil.copy2(source, target)


def give(library: str, target: str) -> None:
    """A library as the kit has built it, in another copy of the repository. Where that can't be, the kit builds it there again."""
    if not stamp_of(library) or stamp_of(library) == stamp_of(target):
        return
    with contextlib.suppress(OSError):
        shutil.rmtree(target + ".new", ignore_errors=True)
        shutil.copytree(library, target + ".new", copy_function=link)
        shutil.rmtree(target, ignore_errors=True)
        os.rename(target + ".new", target)
    shutil.rmtree(target + ".new", ignore_errors=True)


# What the commands say, each line with who said it; and None where a signal ends the build. (A signal may come while something is put.)
Said = queue.SimpleQueue[Optional[Tuple[Command, Optional[str]]]]


class Lanes:
    def __init__(self, root: str, room: str, progress: Progress, processors: int, said: Said) -> None:
        self.root, self.room, self.progress, self.processors, self.said = root, room, progress, processors, said
        self.crates, self.chains = progress.crates, progress.chains
        self.running: Dict[str, Tuple[Command, str, int]] = {}  # each crate's command, lane and processors
        self.free: List[str] = []
        self.lanes: List[str] = []

    def build(self, names: List[str]) -> None:
        """Builds the libraries of these crates, which depend on one another and on nothing else."""
        for number in range(min(self.processors, len(names))):
            lane = os.path.join(self.room, "lane-%d" % number)
            copy_sources(self.root, lane, self.crates)
            self.lanes.append(lane)
            self.free.insert(0, lane)
        left = sorted(names, key=lambda name: -self.chains[name])
        try:
            while left or self.running:
                self.start_ready(left)
                command = self.next_end()
                _, lane, _ = self.running.pop(command.name)
                self.share(command.name, lane)
                self.free.append(lane)
        finally:
            for command, _, _ in self.running.values():
                command.end()

    def share(self, name: str, lane: str) -> None:
        """Gives a library that was built in a lane to all who may depend on it."""
        place = os.path.join("crates", name, "out", "rlib")
        for folder in self.lanes + [self.root]:
            give(os.path.join(lane, place), os.path.join(folder, place))

    def start_ready(self, left: List[str]) -> None:
        """Starts those that only depend on what is done, as `chosen` has them."""
        running = {name: jobs for name, (_, _, jobs) in self.running.items()}
        for name, jobs in chosen(self.crates, self.progress.done, running, left, self.processors)[: len(self.free)]:
            lane = self.lane_for(name)
            left.remove(name)
            self.progress.begins(name)
            command = Command(name, ["lib", "--jobs", str(jobs)], os.path.join(lane, "crates", name), self.said)
            self.running[name] = command, lane, jobs

    def lane_for(self, name: str) -> str:
        """A free lane: the one where a build that was stopped had begun with this crate, if there is one."""
        begun = [lane for lane in self.free if os.path.isdir(os.path.join(lane, "crates", name, "out", "incremental"))]
        lane = (begun or self.free)[-1]
        self.free.remove(lane)
        return lane

    def next_end(self) -> Command:
        """Waits until a command has ended well."""
        while True:
            try:
                heard = self.said.get(timeout=1)
            except queue.Empty:
                self.progress.tell()
                continue
            if heard is None:
                raise Stopped
            command, line = heard
            if line is None:
                if command.process.returncode:
                    raise Failed(failure(command))
                self.progress.ends(command.name, command.functions)
                return command
            hear(command, line, self.progress)


def hear(command: Command, line: str, progress: Progress) -> None:
    """Takes in a line that rt says: how far it is, its verdict, or that it waits for another rt."""
    command.lines.append(line)
    far = re.match(r"so far: (\d+) of (\d+) functions checked", line)
    verdict = re.match(r"logic=proved .*\bfunctions=(\d+)", line)
    if far:
        progress.checked(command.name, int(far[1]), int(far[2]))
    elif verdict:
        command.functions = int(verdict[1])
    elif line.startswith("rt: waiting for ") or "waiting for it" in line:
        progress.say(line)


def chosen(crates: Dict[str, Crate], done: Container[str], running: Dict[str, int], left: List[str], processors: int) -> List[Tuple[str, int]]:
    """The crates to be started now, each with its number of processors: those of `left` that only depend on what is done, in the order of
    `left`. A crate gets the processors that no other one waits for, four at most. One that takes long gets two where there are two, also
    if another one has to wait then: those above it, of which some are on the longest chain, would wait longer."""
    ready = [name for name in left if all(below in done for below in crates[name].below)]
    idle, found = processors - sum(running.values()), []
    for at, name in enumerate(ready):
        if idle > 0:
            spare = min(4, idle // (len(ready) - at))
            jobs = min(idle, max(spare, 2 if crates[name].weight >= LONG else 1))
            idle -= jobs
            found.append((name, jobs))
    return found


def expected(crates: Dict[str, Crate], processors: int) -> float:
    """How many seconds a build from nothing takes where nothing else is done: what was measured of each crate, in the order of `chosen`."""
    longest, now = chains(crates), 0.0
    done: Set[str] = set()
    running: Dict[str, int] = {}
    left = sorted(crates, key=lambda name: -longest[name])
    ends: Dict[str, float] = {}
    while left or running:
        for name, jobs in chosen(crates, done, running, left, processors):
            left.remove(name)
            running[name] = jobs
            ends[name] = now + crates[name].weight * (1 if name in IN_A_ROW else BY_JOBS[jobs])
        name = min(running, key=lambda it: ends[it])
        now = ends[name]
        del running[name]
        done.add(name)
    return now


def failure(command: Command) -> str:
    told = [line for line in command.lines if not ROUTINE.match(line)]
    return "\n".join(["uvt: %s was not built; rt says:" % command.name] + told[-60:])
