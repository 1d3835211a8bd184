"""Makes and closes a million handles, and takes all of it back where no memory is to be had.

  tests/pieces/run                     1,000,000 handles under 65,535 names, each in a slot of its own
  tests/pieces/run --handles N         as many
  tests/pieces/run --names N           under as many names
  tests/pieces/run --program PATH      another program than out/uvt/uvt

The script has a check handle for each name, and closes it; each close callback makes one anew under its name and closes it, so the
loop goes on. Slots are retired at their first freeing, so each handle takes a slot that was never used, and a piece of memory is asked
for at each 1,024th. Then every allocation is refused but those by which the command's own line is read, as many as for a bad
command of the same length, and `back` takes all steps back. The image must be the one from before the first step, byte for byte.
In a second run `forward` runs them again so, and must come to the state that stood before, for running steps again asks for no piece.

It says how long each part took, and how much memory the program held. Needs a C compiler as `cc`. The status is 0 where all of it
holds, 1 where not, and 2 where nothing could be tried.
"""

import argparse
import hashlib
import os
import subprocess
import sys
import tempfile
import time
from pathlib import Path

from typing import IO
from tests.helper import ROOT, Tries

REFUSE = ROOT / "tests/refused-allocations/refuse.c"
MOST_SLOTS = 16_777_215


def write_script(file: IO[bytes], names: int) -> None:
    """The script, up to its line `begin`."""
    file.write(b"slots %d 0\n" % MOST_SLOTS)
    for text in (b"var n%d\n", b"main init n%d check\n", b"main close n%d\n"):
        file.writelines(text % name for name in range(names))
    file.write(b"main run default\n")
    for name in range(names):
        file.write(b"closed n%d init n%d check\nclosed n%d close n%d\n" % (name, name, name, name))
    file.write(b"begin\n")


def steps_of(names: int, handles: int) -> int:
    """As many steps as it takes to make so many handles: three for each that is made by a close callback, and the sections' lines."""
    rounds = -(-max(0, handles - names) // names)
    return 2 * names + 1 + rounds * (3 * names + 16)


class Program:
    """A conversation with the program, whose memory may be refused."""

    def __init__(self, program: str, library: str, folder: str, granted: int) -> None:
        self.mark, self.asked, self.granted = Path(folder) / "mark", Path(folder) / "asked", granted
        self.mark.unlink(missing_ok=True)
        environment = {"LD_PRELOAD": library, "MARK": str(self.mark), "ASKED": str(self.asked), "GRANTED": str(granted)}
        self.child = subprocess.Popen([program, "debug"], env=environment, stdin=subprocess.PIPE, stdout=subprocess.PIPE)
        assert self.child.stdin and self.child.stdout
        self.to, self.answers = self.child.stdin, self.child.stdout

    def say(self, line: bytes) -> None:
        self.to.write(line + b"\n")
        self.to.flush()

    def answer(self, last: bytes) -> bytes:
        """The sum of what is written up to a line that begins so."""
        read = hashlib.sha256()
        for line in self.answers:
            if line.startswith(last):
                break
            read.update(line)
        else:
            raise EOFError("the program ended early")
        return read.digest()

    def text(self, command: bytes, last: bytes = b"at ") -> bytes:
        """The sum of what a command prints, which is told from the next answer: `back 0` says where the session stands."""
        self.say(command)
        self.say(b"back 0")
        return self.answer(last)

    def without_memory(self, line: bytes, last: bytes) -> None:
        """Does a command while all is refused but what the program was granted."""
        self.mark.touch()
        self.say(line)
        self.answer(last)
        self.mark.unlink()

    def held(self) -> int:
        """The most memory that it held, in kilobytes."""
        for line in Path(f"/proc/{self.child.pid}/status").read_text().splitlines():
            if line.startswith("VmHWM"):
                return int(line.split()[1])
        return 0

    def end(self) -> tuple[int, int]:
        """Its exit status, and how many allocations were asked for while the mark was there."""
        self.to.close()
        self.answers.read()
        status = self.child.wait()
        return status, int(self.asked.read_text().split()[1])


def begun(asked: argparse.Namespace, library: str, folder: str, granted: int) -> Program:
    program = Program(asked.program, library, folder, granted)
    write_script(program.to, asked.names)
    return program


def allocations_of_a_line(asked: argparse.Namespace, library: str, folder: str, line: bytes) -> int:
    """How many allocations a bad command as long as this line takes."""
    program = begun(asked, library, folder, 1000)
    program.text(b"back 0")
    program.answer(b"at ")
    program.without_memory(b"bick" + line[4:], b"bad command")
    return program.end()[1]


class Watch:
    """Says how long each part took."""

    def __init__(self) -> None:
        self.clock = time.monotonic()

    def took(self, what: str) -> None:
        now = time.monotonic()
        print(f"{what}: {now - self.clock:.1f} s", flush=True)
        self.clock = now


def stepped(program: Program, steps: int) -> None:
    """Takes so many steps."""
    program.say(b"loop %d" % steps)
    program.say(b"back 0")
    program.answer(b"at %d" % steps)


def try_back(asked: argparse.Namespace, library: str, folder: str, watch: Watch) -> list[str]:
    """Takes all steps back without memory, and says what is wrong."""
    steps = steps_of(asked.names, asked.handles)
    back = b"back %d" % steps
    program = begun(asked, library, folder, allocations_of_a_line(asked, library, folder, back))
    watch.took(f"{program.granted} allocations are those of the command's line")
    fresh = program.text(b"image")
    watch.took("the script is read")
    stepped(program, steps)
    watch.took(f"{steps} steps")
    program.without_memory(back, b"at 0")
    watch.took("all of them taken back without memory")
    wrong = [] if program.text(b"image") == fresh else ["back at the beginning the image is another one"]
    held = program.held()
    status, _ = program.end()
    print(f"{asked.handles} handles under {asked.names} names, {held // 1024} MB held at most")
    return wrong + ([f"status {status}"] if status else [])


def try_forward(asked: argparse.Namespace, library: str, folder: str, watch: Watch) -> list[str]:
    """Runs all steps again without memory, and says what is wrong."""
    steps = steps_of(asked.names, asked.handles)
    forward = b"forward %d" % steps
    program = begun(asked, library, folder, allocations_of_a_line(asked, library, folder, forward))
    program.text(b"back 0")
    program.answer(b"at ")
    stepped(program, steps)
    before = program.text(b"state")
    program.say(b"back %d" % steps)
    program.answer(b"at 0")
    watch.took("the same steps, taken back")
    program.without_memory(forward, b"at %d" % steps)
    watch.took("and run again without memory")
    wrong = [] if program.text(b"state") == before else ["forward comes to another state"]
    status, _ = program.end()
    return wrong + ([f"status {status}"] if status else [])


def main() -> int:
    reader = argparse.ArgumentParser(description=__doc__, formatter_class=argparse.RawDescriptionHelpFormatter)
    reader.add_argument("--handles", type=int, default=1_000_000)
    reader.add_argument("--names", type=int, default=65_535)
    reader.add_argument("--program", default=str(ROOT / "out/uvt/uvt"))
    asked = reader.parse_args()
    if not os.access(asked.program, os.X_OK):
        print(f"tests/pieces/run: there is no program {asked.program}: ./uvt build builds it", file=sys.stderr)
        return 2
    with tempfile.TemporaryDirectory(prefix="uvt-pieces-") as folder:
        library = os.path.join(folder, "refuse.so")
        if subprocess.run(["cc", "-shared", "-fPIC", "-O1", "-o", library, str(REFUSE), "-ldl"]).returncode:
            print("tests/pieces/run: tests/refused-allocations/refuse.c can't be compiled", file=sys.stderr)
            return 2
        tries, watch = Tries("pieces"), Watch()
        for name, part in (("steps taken back without memory", try_back), ("steps run again without memory", try_forward)):
            try:
                wrong = part(asked, library, folder, watch)
            except (EOFError, BrokenPipeError) as fault:
                wrong = [str(fault)]
            tries.check(name, not wrong, ", ".join(wrong))
    return tries.end()
