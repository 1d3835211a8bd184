"""What a step on and a step back cost: tests/costs/run [--programs ARENA PLAIN] [--longest]

Three scripts: idle handles that spin; 1,000 timers that repeat, of which a part is due in each iteration; 100 requests whose after
callbacks queue them again, taken and finished by two workers. A session gets some number of steps by commands, and then `back` and
`forward` over all of them in turn: these run the steps and take them back, and print a line. Each time is the program's own processor
time for that command, as the system counts it (the first number of /proc/PID/schedstat, read before the command and once the program
waits again), less that of a command that does nothing, by the number of steps; it is the middle of seven.

The plain loop does all steps again for each step back. So only steps on are compared, the last 1,000 of sessions of 10,000 steps,
the same ones over both machines. Memory is what the program holds once the steps stand (VmRSS); a step's is that of two sessions
of different lengths, as the difference of what they hold by that of their steps.

With --longest it goes 16,777,216 steps on and all of them back; that takes some 6 GB.

It builds both programs first (tests/machines/build.py), unless their paths are given."""
import argparse
import os
import re
import statistics
import subprocess
import tempfile
import time

from tests.machines import build

LENGTHS = [10000, 100000, 1000000]
PARTS = [1000, 10000, 100000, 1000000]
TIMES = 7
LONGEST = 16777216


def idles():
    names = ["i%d" % number for number in range(10)]
    lines = ["var " + name for name in names]
    for name in names:
        lines += ["main init %s idle" % name, "main start " + name]
    return lines + ["main run default"]


def timers():
    """Each tick makes those due whose repeat divides the time, some three in ten."""
    names = ["t%d" % number for number in range(1000)]
    lines = ["var " + name for name in names]
    for number, name in enumerate(names):
        lines += ["main init %s timer" % name, "main start %s 1 %d" % (name, 1 + number % 10)]
    return lines + ["main run default"]


def requests():
    names = ["r%d" % number for number in range(100)]
    lines = ["workers 2"] + ["var " + name for name in names]
    for name in names:
        lines += ["main queue %s 1 abc" % name, "after %s queue %s 1 abc" % (name, name)]
    return lines + ["main run default"]


# a script, and the commands of which so many are given that a session has its length
SCRIPTS = [
    ("10 idle handles", idles(), ["loop 1000"]),
    ("1,000 repeating timers", timers(), ["tick 1", "loop 3000"]),
    ("100 requests", requests(), ["take 0", "take 1", "finish 1", "finish 0", "loop 100"]),
]


class Session:
    """A program that converses, and what it has used so far."""

    def __init__(self, program, script):
        self.program = subprocess.Popen([program, "debug"], stdin=subprocess.PIPE, stdout=subprocess.PIPE)
        self.folder = "/proc/%d/" % self.program.pid
        self.steps = self.ask(script + ["begin"])

    def read(self, name):
        with open(self.folder + name) as file:
            return file.read()

    def used(self):
        """Nanoseconds of the processor, once the program waits for input."""
        while self.read("stat").rpartition(") ")[2][0] != "S":
            time.sleep(0.0005)
        return int(self.read("schedstat").split()[0])

    def held(self):
        return 1024 * int(re.search(r"VmRSS:\s+([0-9]+) kB", self.read("status")).group(1))

    def ask(self, lines):
        """Gives the lines and `back 0`, whose answer is how many steps stand, and waits for that."""
        self.program.stdin.write(("\n".join(lines + ["back 0"]) + "\n").encode())
        self.program.stdin.flush()
        last = b"\n"
        while True:
            part = os.read(self.program.stdout.fileno(), 1 << 16)
            if not part:
                raise SystemExit("costs: the program ended")
            last = (last + part)[-64:]
            found = re.search(rb"\nat ([0-9]+)\n$", last)
            if found:
                self.steps = int(found.group(1))
                return self.steps

    def spent(self, line):
        before = self.used()
        self.ask([line])
        return self.used() - before

    def cost(self, line):
        """Nanoseconds of the command."""
        return self.spent(line) - min(self.spent("#") for _ in range(3))

    def grow(self, length, commands):
        while self.steps < length:
            self.ask(commands * max(1, (length - self.steps) // 4000))

    def end(self):
        self.program.stdin.close()
        self.program.wait()


def costs(session, count):
    """Nanoseconds a step back and a step on, of the last COUNT steps."""
    back, on = [], []
    for _ in range(TIMES):
        standing = session.steps
        back.append(session.cost("back %d" % count) / count)
        if session.steps != standing - count:
            raise SystemExit("costs: %d steps stand" % session.steps)
        on.append(session.cost("forward %d" % count) / count)
    return statistics.median(back), statistics.median(on)


def long_session(program, script, commands, length):
    session = Session(program, script)
    session.grow(length, commands)
    return session


def show_steps(arena):
    print("| Script | Steps | step on | step back | bytes a step |\n|---|---|---|---|---|")
    for name, script, commands in SCRIPTS:
        before: tuple[int, float] = None
        for length in LENGTHS:
            session = long_session(arena, script, commands, length)
            steps, held = session.steps, session.held()
            back, on = costs(session, steps)
            each = "%.0f" % ((held - before[1]) / (steps - before[0])) if before else ""
            before = steps, held
            print("| %s | %d | %.0f | %.0f | %s |" % (name, steps, on, back, each), flush=True)
            session.end()


def show_both(programs):
    print("\n| The last 1,000 of 10,000 steps | step on | step on, plain | ratio | step back |\n|---|---|---|---|---|")
    for name, script, commands in SCRIPTS:
        sessions = [long_session(program, script, commands, LENGTHS[0]) for program in programs]
        (back, on), (_, plain) = [costs(session, PARTS[0]) for session in sessions]
        print("| %s | %.0f | %.0f | %.2f | %.0f |" % (name, on, plain, on / plain, back), flush=True)
        for session in sessions:
            session.end()


def show_parts(arena):
    """A part of the steps of a long session taken back: each costs the same, however many they are."""
    print("\n| The last of a million steps | " + " | ".join("%s, a step back" % name for name, _, _ in SCRIPTS) + " |")
    print("|---|" + "---|" * len(SCRIPTS))
    sessions = [long_session(arena, script, commands, LENGTHS[-1]) for _, script, commands in SCRIPTS]
    for count in PARTS:
        print("| %d | " % count + " | ".join("%.0f" % costs(session, count)[0] for session in sessions) + " |", flush=True)
    for session in sessions:
        session.end()


def show_longest(arena):
    session = Session(arena, SCRIPTS[0][1])
    small = session.held()
    looped = session.cost("loop %d" % LONGEST)
    if session.steps != LONGEST:
        raise SystemExit("costs: %d steps stand" % session.steps)
    held = session.held()
    back = session.cost("back %d" % LONGEST)
    on = session.cost("forward %d" % LONGEST)
    again = session.cost("back %d" % LONGEST)
    print(
        "%d steps, seconds: `loop` with their lines printed %.2f, `back` %.2f, `forward` %.2f, `back` %.2f"
        % (LONGEST, looped / 1e9, back / 1e9, on / 1e9, again / 1e9)
    )
    print("%.2f GB are held, %.0f bytes a step; %d steps stand at the end" % (held / 1e9, (held - small) / LONGEST, session.steps))
    session.end()


def asked():
    """What the words ask for."""
    reader = argparse.ArgumentParser(description=__doc__, formatter_class=argparse.RawDescriptionHelpFormatter)
    reader.add_argument("--programs", nargs=2, metavar=("ARENA", "PLAIN"), help="both programs, built before")
    reader.add_argument("--longest", action="store_true", help="only the longest session, of the first program")
    return reader.parse_args()


def main():
    words = asked()
    with tempfile.TemporaryDirectory(prefix="uvt-costs-") as folder:
        programs = words.programs or build.build(folder)
        print("load %.1f, %d processors\n" % (os.getloadavg()[0], os.cpu_count()))
        if words.longest:
            show_longest(programs[0])
        else:
            show_steps(programs[0])
            show_both(programs)
            show_parts(programs[0])
        print("\nload %.1f" % os.getloadavg()[0])
    return 0
