"""Both machines take random sessions: tests/machines/run [--programs ARENA PLAIN] [COUNT [SEED]]

By default 10,000 sessions, the first of number 1. A session is a random script and 20 to some hundred commands, with `state` behind each
and `trace` at the end (sessions.py); its number is the seed. The program as it is, over the loop over one memory, and the program
over the plain loop get it, and must print the same bytes and end alike. Of two that differ, the input and both outputs are left
in out/machines/. With 10,000 sessions and more there is one of 16,777,216 steps too, for the refusal of one more; that takes some 6 GB.

It builds both programs first (build.py), unless their paths are given. It prints how often each answer, refusal, line and part of a
state came (seen.py), those that never came last, and how many sessions differed; status 1 if any did, or if with 10,000 sessions or
more something never came."""
import argparse
import hashlib
import os
import random
import subprocess
import sys
import tempfile
from collections import Counter
from concurrent.futures import ProcessPoolExecutor

from tests.helper import Tries, limited
from tests.machines import build
from tests.machines import seen
from tests.machines import sessions

MANY = 10000
SIDE_BY_SIDE = 3
LONGEST = b"var i\nmain init i idle\nmain start i\nmain run default\nbegin\nloop 16777216\nloop\nstate\nback 1\nloop 2\nstate\n"


def run(program, text):
    ended = limited([program, "debug"], input=text, stdout=subprocess.PIPE, stderr=subprocess.PIPE)
    return ended.returncode, ended.stdout, ended.stderr


def save(seed, text, outputs):
    folder = os.path.join(build.ROOT, "out", "machines")
    os.makedirs(folder, exist_ok=True)
    for name, what in zip(("uvt", "arena", "plain"), [text] + outputs):
        with open(os.path.join(folder, "%d.%s" % (seed, name)), "wb") as file:
            file.write(what)


def try_session(programs, seed):
    """What is wrong with the session of that number, or None, and what it showed."""
    lines, asked = sessions.session(random.Random(seed))
    text = sessions.input_of(lines, asked)
    ends = [run(program, text) for program in programs]
    if ends[0] != ends[1]:
        save(seed, text, [end[1] + end[2] for end in ends])
        return "the machines differ", None
    status, output, errors = ends[0]
    shown = None if status or errors else seen.see_session(asked, output.decode())
    return (None, shown) if shown else ("status %d, errors %r, or other output than a state for each command" % (status, errors), None)


def try_some(programs, seeds):
    wrong: dict[int, str] = {}
    all_seen: Counter[str] = Counter()
    for seed in seeds:
        why, shown = try_session(programs, seed)
        if why:
            wrong[seed] = why
        else:
            all_seen += shown
    return wrong, all_seen


def try_longest(programs, all_seen):
    """Whether both end a session of as many steps as may be in the same way; its output isn't kept."""
    sums = []
    for program in programs:
        with tempfile.TemporaryFile() as file:
            file.write(LONGEST)
            file.seek(0)
            started = subprocess.Popen([program, "debug"], stdin=file, stdout=subprocess.PIPE)
            sum, last = hashlib.sha256(), b""
            for part in iter(lambda: started.stdout.read(1 << 20), b""):
                sum.update(part)
                last = (last + part)[-4096:]
            sums.append((sum.hexdigest(), started.wait()))
    all_seen["refused", "loop steps"] += last.count(b"\nrefused steps\n")
    return sums[0] == sums[1] and sums[0][1] == 0


def tell(all_seen):
    """Prints what was seen, and gives what wasn't."""
    kind = None
    for key in seen.wanted():
        if key[0] != kind:
            kind = key[0]
            print("\n%s" % kind)
        print("%10d  %s" % (all_seen[key], key[1]))
    return [key for key in seen.wanted() if not all_seen[key]]


def try_all(tries, programs, first, count):
    """What all sessions showed that aren't wrong."""
    every = [range(at, min(at + 50, first + count)) for at in range(first, first + count, 50)]
    done = 0
    all_seen: Counter[str] = Counter()
    with ProcessPoolExecutor(SIDE_BY_SIDE) as pool:
        for some, (some_wrong, some_seen) in zip(every, pool.map(try_some, [programs] * len(every), every)):
            all_seen += some_seen
            for seed in some:
                tries.check("session %d" % seed, seed not in some_wrong, some_wrong.get(seed, ""))
            done += 50
            if done % 1000 == 0 and done < count:
                tries.say("%d sessions so far, %d wrong" % (done, tries.failed))
    return all_seen


def asked_for(words):
    """What the command line asks for."""
    reader = argparse.ArgumentParser(description=__doc__, formatter_class=argparse.RawDescriptionHelpFormatter)
    reader.add_argument("--programs", nargs=2, metavar=("ARENA", "PLAIN"), help="both programs, built before")
    reader.add_argument("count", nargs="?", type=int, default=MANY, metavar="COUNT", help="how many sessions (%d)" % MANY)
    reader.add_argument("seed", nargs="?", type=int, default=1, metavar="SEED", help="the number of the first one (1)")
    asked = reader.parse_args(words)
    for program in asked.programs or []:
        if not os.path.isfile(program):
            reader.error("there is no program %s" % program)
    return asked


def main():
    asked, tries = asked_for(sys.argv[1:]), Tries("machines")
    with tempfile.TemporaryDirectory(prefix="uvt-machines-") as folder:
        programs = asked.programs or build.build(folder)
        all_seen = try_all(tries, programs, asked.seed, asked.count)
        if asked.count >= MANY:
            tries.check("the longest session", try_longest(programs, all_seen), "the machines differ")
    missed = tell(all_seen)
    for kind, what in missed:
        tries.say("never came: %s %s" % (kind, what))
    tries.say("%d of %d never came" % (len(missed), len(seen.wanted())))
    if asked.count >= MANY:
        tries.check("what may come", not missed, "%d never came" % len(missed))
    return tries.end()
