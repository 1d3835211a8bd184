"""Live runs of scripts that come to their end: jobs on workers, senders that wake the loop, timers, and handles of I/O for which nothing comes."""
import random
import re
import subprocess

from tests.helper import limited


def script(draw):
    """A script with up to 50 jobs and up to 8 senders, and how many workers its words ask for, if they do."""
    senders, jobs = draw.randint(0, 8), draw.randint(0, 50)
    handles = draw.randint(1, senders) if senders else 0
    lines = ["var a%d" % number for number in range(handles)] + ["var j%d" % number for number in range(jobs)]
    said = draw.choice([None, draw.randint(1, 8)])
    if said:
        lines.append("workers %d" % said)
    for number in range(handles):
        lines += ["main init a%d async" % number, "on a%d close a%d" % (number, number)]
    for number in range(jobs):
        lines.append("main queue j%d %d %s" % (number, draw.choice([1, 1, 2, 1000]), "x" * draw.randint(1, 64)))
        if draw.random() < 0.1:
            lines.append("after j%d @1 queue j%d 1" % (number, number))
        if draw.random() < 0.1:
            lines.append("main cancel j%d" % draw.randint(0, number))
    lines += others(draw)
    lines.append("main run default")
    # each handle has a sender, so the loop comes to its end
    for thread in range(senders):
        names = [thread % handles] + [draw.randrange(handles) for _ in range(draw.randint(0, 5))]
        lines += ["thread %d send a%d" % (thread, name) for name in names]
    asked = draw.choice([None, draw.randint(1, 8)])
    return "\n".join(lines + [""]), asked


def others(draw):
    """Up to three timers, which may be called straight from the heap, and a handle of I/O that keeps no loop alive."""
    lines = ["timers heap"] * (draw.random() < 0.3)
    if draw.random() < 0.3:
        lines += ["io", "var r", "main init r io", "main start r", "main unref r"]
    for number in range(draw.randint(0, 3)):
        lines += ["var t%d" % number, "main init t%d timer" % number, "main start t%d %d 0" % (number, draw.choice([0, 1, 1, 20]))]
        if draw.random() < 0.5:
            lines.append("on t%d @1 start t%d 0 0" % (number, number))
    return lines


def words(asked):
    return ["live"] if asked is None else ["live", "--workers=%d" % asked]


def workers_of(text, asked):
    said = re.search(r"^workers ([0-9]+)$", text, re.M)
    return asked or (int(said.group(1)) if said else 4)


def first_lines(text, asked):
    """How the recording of a run begins."""
    newer = [line for line in ("io", "timers heap") if line in text.split("\n")]
    return ["uvt 3" if newer else "uvt 2", "order 1.45", *newer, "workers %d" % workers_of(text, asked)]


def try_run(uvt, seed):
    """What is wrong with the run of that number; None where it came to its end and its recording is replayed as `same`."""
    text, asked = script(random.Random(seed))
    ended = limited([uvt] + words(asked), input=text.encode(), stdout=subprocess.PIPE, stderr=subprocess.PIPE)
    if ended.returncode or ended.stderr:
        return "status %d, errors %r" % (ended.returncode, ended.stderr)
    lines = ended.stdout.decode().splitlines()
    wanted = first_lines(text, asked)
    if lines[: len(wanted)] != wanted:
        return "it begins with %r, and not %r" % (lines[: len(wanted)], wanted)
    steps, calls = lines[lines.index("begin") + 1 : lines.index("calls")], lines[lines.index("calls") + 1 :]
    done = sum(line.startswith("after ") and not line.endswith(" ECANCELED") for line in calls)
    takes, finishes, sends = (sum(line.startswith(word) for line in steps) for word in ("take ", "finish ", "send "))
    if not done == takes == finishes:
        return "%d requests were done, %d takes, %d finishes" % (done, takes, finishes)
    if sends > text.count("\nthread "):
        return "%d sends, and %d lines of threads" % (sends, text.count("\nthread "))
    replayed = limited([uvt, "replay"], input=ended.stdout, stdout=subprocess.PIPE, stderr=subprocess.PIPE)
    real = (replayed.returncode, replayed.stdout, replayed.stderr)
    return None if real == (0, b"same\n", b"") else "its replay: %r" % (real,)
