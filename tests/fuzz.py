"""Gives the program random inputs, and says which of them end it as no input may.

  tests/fuzz                          100,000 inputs, two programs at a time
  tests/fuzz --inputs 1000000         as many
  tests/fuzz --seconds 600            for so long
  tests/fuzz --live 0.05              of the live runs that are drawn only this part: one whose loop never ends takes many seconds
  tests/fuzz --program PATH           another program than out/uvt/uvt
  tests/fuzz --seed N                 other inputs

An input is one of examples/, or of the conversations and recordings of tests/program, with some of its bytes, numbers, words or
lines changed, dropped, doubled, or taken from another one. One that brings a line, or a line behind another one, that no input before
it brought (numbers and names aside) is changed in its turn.

It must end by itself within ten seconds (a live run within two minutes), with status 0 and no line on the errors, or with status 2, 3 or 4
and one line there; with status 2 nothing may be written, and no fault may be one of memory or of reading, of which there is enough. An
input that ends otherwise is kept in the folder that is named, and the status is 1. At the end it says how many inputs there were, how they
ended, and how many lines and pairs of lines they brought.
"""

import argparse
import collections
import multiprocessing
import os
import random
import re
import resource
import signal
import subprocess
import sys
import tempfile
import time
from pathlib import Path
from types import FrameType

ROOT = Path(__file__).resolve().parent.parent
# A live run of a loop that never ends goes on to the limit of steps.
SECONDS = {"debug": 10, "replay": 10, "live": 120}
MOST_OUTPUT = 1 << 26
# How much of an output is looked at for lines that are new.
LOOKED_AT = 1 << 15
WORDS = (
    "var main on after closed thread begin order 1.43 1.44 1.45 slots workers init start stop again repeat due ref unref hasref "
    "active close closing send "
    "closeloop stoploop updatetime now alive timeout queue cancel run default once nowait timer idle prepare check async io timers heap loop "
    "tick back forward take finish break call code section poll clear rback trace walk state image record quit uvt calls end debug OK EINVAL EBUSY "
    "ECANCELED EBOUND EFULL ESTALE EKIND a b r t 0 1 2 3 4 9 64 65 255 256 1000 1001 1024 1025 4096 65535 65536 16777215 16777216 4294967295 "
    "4294967296 4611686018427387904 4611686018427387905 18446744073709551615 18446744073709551616 @1 @2 @0 @4294967295 #"
).split()
KNOWN = frozenset(WORDS) | frozenset(
    "ok refused ended blocked nowork noworker busyworker idleworker range steps limit image bad command at out pending done timers "
    "infinite place name none slot free unused ready waiting running link list heap places counts same differs entry first collect "
    "fire active closing begun retired empty request polled woken unwoken".split()
)


def seeds() -> list[tuple[str, bytes]]:
    """The inputs to begin with, each with its command."""
    found = []
    for folder in (ROOT / "examples", ROOT / "tests/program/conversations", ROOT / "tests/program/recordings"):
        for path in sorted(folder.iterdir()):
            word = {".uvt": "debug", ".rec": "replay", ".live": "live"}.get(path.suffix)
            if word:
                found.append((word, path.read_bytes()))
    return found


def changed_line(draw: random.Random, line: bytes) -> bytes:
    words = line.split(b" ")
    at = draw.randrange(len(words))
    how = draw.randrange(5)
    if how == 0:
        words[at] = draw.choice(WORDS).encode()
    elif how == 1:
        words.insert(at, draw.choice(WORDS).encode())
    elif how == 2:
        del words[at]
    elif how == 3 and words[at].isdigit():
        words[at] = b"%d" % max(0, int(words[at][:20]) + draw.choice((-1, 1, 2, 10, 1000)))
    else:
        byte = draw.randrange(len(line) + 1)
        return line[:byte] + bytes([draw.choice((0, 9, 10, 13, 31, 32, 45, 64, 97, 127, 128, 255))]) + line[byte + draw.randrange(2) :]
    return b" ".join(words)


def changed(draw: random.Random, text: bytes, other: bytes) -> bytes:
    """A text with some of its lines changed."""
    lines, others = text.split(b"\n"), other.split(b"\n")
    for _ in range(draw.choice((1, 1, 2, 3, 6))):
        at = draw.randrange(len(lines))
        how = draw.randrange(8)
        if how < 3:
            lines[at] = changed_line(draw, lines[at])
        elif how == 3 and len(lines) > 1:
            del lines[at]
        elif how == 4:
            lines.insert(at, draw.choice(lines))
        elif how == 5:
            lines.insert(at, draw.choice(others))
        elif how == 6:
            lines[at:] = others[draw.randrange(len(others)) :]
        else:
            lines.insert(at, " ".join(draw.choices(WORDS, k=draw.randrange(1, 4))).encode())
        lines = lines or [b""]
    text = b"\n".join(lines)
    if draw.randrange(20) == 0:
        text = text[: draw.randrange(len(text) + 1)]
    # (so many steps of a loop that never ends take seconds, and many megabytes)
    return re.sub(rb"^(loop|forward|back) [0-9]{5,8}$", rb"\1 4096", text, flags=re.M)


def shapes_of(output: bytes) -> list[str]:
    """The lines of an output, with numbers and names aside."""
    found = []
    for line in output.decode("latin-1").split("\n"):
        words = re.sub(r"[0-9a-f]{64}", "D", line).split(" ")
        shape = [word if word in KNOWN and not word.isdigit() else "0" if re.fullmatch(r"-|[0-9.]+", word) else "n" for word in words[:9]]
        found.append(" ".join(shape))
    return found


class Watch:
    """Ends a program that doesn't end by itself."""

    def __init__(self) -> None:
        self.child = 0
        self.ended = False
        signal.signal(signal.SIGALRM, self.end)

    def end(self, _number: int, _frame: FrameType | None) -> None:
        self.ended = True
        try:
            os.kill(self.child, signal.SIGKILL)
        except ProcessLookupError:
            pass

    def over(self, child: int, seconds: int) -> None:
        self.child, self.ended = child, False
        signal.setitimer(signal.ITIMER_REAL, seconds)

    def off(self) -> None:
        signal.setitimer(signal.ITIMER_REAL, 0)


class Begun:
    """The program with one command, begun once: for each input it forks before its main (tests/fuzzing/forks.c)."""

    CONTROL, ANSWERS = 198, 199

    def __init__(self, program: str, word: str, forks: str, files: list[int]) -> None:
        (asks, self.ask), (self.hear, answers) = os.pipe(), os.pipe()
        pairs = [*((file, number) for number, file in enumerate(files)), (asks, self.CONTROL), (answers, self.ANSWERS)]
        actions = [(os.POSIX_SPAWN_DUP2, file, number) for file, number in pairs]
        os.posix_spawn(program, [program, word], {"LD_PRELOAD": forks}, file_actions=actions)
        os.close(asks)
        os.close(answers)

    def answer(self) -> int:
        return int.from_bytes(os.read(self.hear, 4), sys.byteorder, signed=True)

    def again(self, watch: Watch, seconds: int) -> int:
        """Runs it once more, and answers its exit status."""
        os.write(self.ask, b"1")
        watch.over(self.answer(), seconds)
        status = self.answer()
        watch.off()
        return os.waitstatus_to_exitcode(status)


class Runner:
    """Runs the program on one input after another, over files in memory."""

    def __init__(self, program: str, forks: str) -> None:
        self.files = [os.memfd_create(name) for name in ("input", "output", "errors")]
        self.begun = {word: Begun(program, word, forks, self.files) for word in SECONDS}
        self.watch = Watch()

    def run(self, word: str, text: bytes) -> tuple[int, bytes, bytes]:
        for file in self.files:
            os.ftruncate(file, 0)
            os.lseek(file, 0, os.SEEK_SET)
        os.pwrite(self.files[0], text, 0)
        status = self.begun[word].again(self.watch, SECONDS[word])
        return status, os.pread(self.files[1], LOOKED_AT, 0), os.pread(self.files[2], 4096, 0)


def forks_of(folder: str) -> str | None:
    """The library that lets the program begin once, compiled; None where there is no C compiler."""
    library = os.path.join(folder, "forks.so")
    command = [os.environ.get("CC", "cc"), "-O2", "-shared", "-fPIC", "-o", library, str(ROOT / "tests/fuzzing/forks.c")]
    try:
        return library if subprocess.run(command).returncode == 0 else None
    except FileNotFoundError:
        return None


def why_wrong(runner: Runner, status: int, output: bytes, errors: bytes) -> str | None:
    """Why no input may end the program so; None where it may."""
    if runner.watch.ended:
        return "it didn't end by itself"
    if status not in (0, 2, 3, 4):
        return f"status {status}"
    if (status == 0) != (errors == b""):
        return f"status {status} with {errors!r} on the errors"
    if status and not re.fullmatch(rb"uvt: [a-z0-9 ]+\n", errors):
        return f"{errors!r} on the errors"
    if status == 2 and output:
        return "a bad script, and something was written"
    if errors in (b"uvt: out of memory\n", b"uvt: read failed\n"):
        return f"{errors!r} on the errors"
    return None


def work(number: int, asked: argparse.Namespace) -> tuple:
    """Tries one worker's part of the inputs, and answers what it came to."""
    signal.signal(signal.SIGINT, signal.SIG_IGN)
    resource.setrlimit(resource.RLIMIT_FSIZE, (MOST_OUTPUT, MOST_OUTPUT))
    draw = random.Random(asked.seed * 1000 + number)
    runner, corpus = Runner(asked.program, asked.forks), seeds()
    lines: set[str] = set()
    pairs: set[tuple[str, str]] = set()
    ends: collections.Counter = collections.Counter()
    wrong = []
    begun, tried, share = time.monotonic(), 0, -(-asked.inputs // asked.processes)
    first = list(corpus)
    while tried < share and (asked.seconds is None or time.monotonic() - begun < asked.seconds):
        word, text = first[tried] if tried < len(first) else draw.choice(corpus)
        if tried >= len(first):
            text = changed(draw, text, draw.choice(corpus)[1])
            # (a live run starts threads, so it takes longer)
            if draw.randrange(10) == 0:
                word = draw.choice(("debug", "replay", "live") if draw.randrange(5) == 0 else ("debug", "replay"))
        if word == "live" and tried >= len(first) and draw.random() >= asked.live:
            continue
        tried += 1
        status, output, errors = runner.run(word, text)
        ends[f"{word} {status}"] += 1
        if why := why_wrong(runner, status, output, errors):
            wrong.append((why, word, text))
        shapes = shapes_of(output)
        edges = set(zip([word] + shapes, shapes))
        if not edges <= pairs:
            pairs |= edges
            lines.update(shapes)
            if tried > len(first):
                corpus.append((word, text))
    return tried, lines, pairs, ends, wrong, len(corpus) - len(first)


def told(asked: argparse.Namespace, parts: list[tuple], took: float) -> int:
    """Says what all parts came to, and gives the status."""
    lines, pairs = set().union(*(part[1] for part in parts)), set().union(*(part[2] for part in parts))
    ends: collections.Counter = sum((part[3] for part in parts), collections.Counter())
    wrong = [one for part in parts for one in part[4]]
    for at, (why, word, text) in enumerate(wrong, 1):
        path = Path(asked.keep) / f"{at}.{word}"
        path.parent.mkdir(parents=True, exist_ok=True)
        path.write_bytes(text)
        print(f"{path}: {why}")
    print(f"{sum(part[0] for part in parts)} inputs in {took / 60:.1f} minutes, {len(wrong)} ended as they may not")
    print("ends: " + ", ".join(f"{end} {ends[end]}" for end in sorted(ends)))
    print(f"{len(lines)} lines and {len(pairs)} pairs of lines, numbers and names aside; {sum(part[5] for part in parts)} inputs brought new ones")
    return 1 if wrong else 0


def main() -> int:
    parser = argparse.ArgumentParser(description=__doc__, formatter_class=argparse.RawDescriptionHelpFormatter)
    parser.add_argument("--program", default=str(ROOT / "out/uvt/uvt"))
    parser.add_argument("--inputs", type=int, default=100_000)
    parser.add_argument("--seconds", type=float)
    parser.add_argument("--live", type=float, default=1.0, metavar="PART")
    parser.add_argument("--seed", type=int, default=1)
    parser.add_argument("--processes", type=int, default=2)
    parser.add_argument("--keep", default=os.path.join(tempfile.gettempdir(), "uvt-fuzz"), help="where inputs are kept that end it wrongly")
    asked = parser.parse_args()
    if not os.access(asked.program, os.X_OK):
        print(f"tests/fuzz: there is no program {asked.program}: ./uvt build builds it", file=sys.stderr)
        return 2
    begun = time.monotonic()
    with tempfile.TemporaryDirectory(prefix="uvt-fuzz-") as folder:
        asked.forks = forks_of(folder)
        if asked.forks is None:
            print("tests/fuzz: there is no C compiler, or tests/fuzzing/forks.c can't be compiled", file=sys.stderr)
            return 2
        with multiprocessing.Pool(asked.processes) as pool:
            parts = pool.starmap(work, [(number, asked) for number in range(asked.processes)])
    return told(asked, parts, time.monotonic() - begun)
