"""A conversation with `uvt debug`, and the texts that it answers cut into values.

What is here speaks the program's own words (docs/FORMAT.md) and has no loop of its own: every answer is the program's.
"""

from __future__ import annotations

import contextlib
import functools
import io
import itertools
import os
import re
import signal
import subprocess
import sys
import threading
from pathlib import Path
from typing import Any, Callable, Iterator

# (a fault, and a script, are what each conversation begins with: both are had from here, too)
from uvt.inputs import Fault as Fault, Recording, Script as Script, read_recording
from uvt.state import State

ROOT = Path(__file__).resolve().parent.parent.parent
# Whether these are the tools of tools/package/pack, without a repository.
INSTALLED = (ROOT / "version").is_file()


def out_folder() -> Path:
    """Where the tools compile what they need: below the repository, or for installed tools in a folder of the user's and their version's."""
    if not INSTALLED:
        return ROOT / "out"
    # (who has no home gets a folder that can't be made, and hears so where something has to be compiled)
    cache = Path(os.environ.get("XDG_CACHE_HOME") or home() / ".cache")
    return cache / "uvt" / (ROOT / "version").read_text(encoding="ascii").strip()


def home() -> Path:
    """The user's folder; one that isn't there where HOME isn't set, and nobody knows the user."""
    try:
        return Path.home()
    except RuntimeError:
        return Path("/nonexistent")


OUT = out_folder()

# The two lines that end an answer: that of `back 0`, which changes nothing, and that of a line that is no command. No
# answer has the second one right behind the first one but at its end.
END_COMMANDS = b"back 0\n?\n"
AT = re.compile(r"at (\d+)$")
BAD = "bad command"
AT_LINE = re.compile(rb"\nat (\d+)(?=\n)")
# So many steps are done before the program says how many stand.
MANY_STEPS = 10_000
# as many bytes as every pipe holds at least
PIPE = 4096


for _stream in (sys.stdout, sys.stderr):
    # (a name of a file may have bytes that the terminal's encoding has no sign for)
    if isinstance(_stream, io.TextIOWrapper):
        _stream.reconfigure(errors="backslashreplace")


@functools.lru_cache(maxsize=None)
def built_program() -> str:
    """The program that a call of the launcher would start, which says so where it is the one before its proofs; or the one that UVT names."""
    return os.environ.get("UVT") or program_at(["path"], "there is no program to talk with")


def search_program() -> str:
    """The same of the search, which UVT_FIND names."""
    return os.environ.get("UVT_FIND") or program_at(["path", "find"], "there is no program that searches")


def program_at(words: list[str], absent: str) -> str:
    """What the launcher says to these words."""
    asked = subprocess.run([str(ROOT / "uvt"), *words], stdin=subprocess.DEVNULL, stdout=subprocess.PIPE, text=True)
    if asked.returncode:
        raise Fault(absent)
    return asked.stdout.rstrip("\n")


def is_proved() -> bool:
    """Is the program that a call would start a proved one, as far as is known without starting or building it?"""
    named = os.environ.get("UVT")
    return INSTALLED or ("unproved" not in named if named else (OUT / "uvt" / "uvt").is_file() and not (OUT / "uvt" / "unproved").is_dir())


def started(work: Callable[..., None], *words: object) -> threading.Thread:
    """A thread that does this. An interrupt waits until it has begun: the locks with which Python begins a thread don't bear one."""
    thread = threading.Thread(target=work, args=words, daemon=True)
    before = signal.pthread_sigmask(signal.SIG_BLOCK, [signal.SIGINT])
    try:
        thread.start()
    except RuntimeError:
        raise Fault("the system gives it no further thread: too little memory, or too many processes (ulimit)") from None
    finally:
        signal.pthread_sigmask(signal.SIG_SETMASK, before)
    return thread


def packed(commands: list[str]) -> str:
    """Steps as commands, those of the loop in a row together."""
    found = []
    for command, those in itertools.groupby(commands):
        if command == "loop":
            found.append(f"loop {len(list(those))}\n")
        else:
            found += [f"{it}\n" for it in those]
    return "".join(found)


class Conversation:
    """A running `uvt debug`, with its script read. One command is asked at a time."""

    def __init__(self, script: Script, program: list[str] | None = None) -> None:
        self.script = script
        words = program or [built_program(), "debug"]
        try:
            self.process = subprocess.Popen(
                words,
                stdin=subprocess.PIPE,
                stdout=subprocess.PIPE,
                stderr=subprocess.PIPE,
                # (an interrupt at the terminal is for whoever asks, and not for the program)
                start_new_session=True,
            )
        except OSError as fault:
            raise Fault(f"{words[0]} could not be started: {fault.strerror}") from None
        assert self.process.stdin and self.process.stdout and self.process.stderr
        self.input, self.output, self.errors = self.process.stdin, self.process.stdout, self.process.stderr
        self.length = 0
        self.send("".join(it + "\n" for it in script.lines) + "begin\n")
        self.ask("back 0")

    def send(self, text: str) -> None:
        try:
            self.input.write(text.encode("ascii", "surrogateescape"))
            self.input.flush()
        except (BrokenPipeError, ValueError):
            self.ended()

    def ended(self) -> None:
        """The program has ended where it wasn't asked to: says why."""
        said = self.errors.read().decode("ascii", "replace").strip()
        self.process.wait()
        at = re.search(r"bad script line (\d+)", said)
        line = self.script.lines[int(at[1]) - 1] if at and 0 < int(at[1]) <= len(self.script.lines) else None
        told = said.splitlines()[-1] if said else f"uvt ended with status {self.process.returncode}"
        if at:
            told = f"uvt: bad script line {int(at[1]) - 1 + self.script.first}"
        raise Fault(told if line is None else f"{told}: {line}")

    def read_line(self) -> str:
        line = self.output.readline()
        if not line.endswith(b"\n"):
            self.ended()
        return line[:-1].decode("ascii", "replace")

    def answer(self) -> Iterator[str]:
        """The lines of an answer whose end was asked for."""
        last = self.read_line()
        while True:
            line = self.read_line()
            if line == BAD and (at := AT.match(last)):
                self.length = int(at[1])
                return
            yield last
            last = line

    def ask(self, command: str) -> list[str]:
        """Asks a command, and answers the lines that it printed. `length` is how many steps stand then.

        An interrupt waits until the answer is read, so that no half of it is taken for the next one.
        """
        if "\n" in command:
            raise Fault("a command is one line")
        before = signal.pthread_sigmask(signal.SIG_BLOCK, [signal.SIGINT])
        try:
            self.send(command + "\n" + END_COMMANDS.decode())
            return list(self.answer())
        finally:
            signal.pthread_sigmask(signal.SIG_SETMASK, before)

    def ask_each(self, commands: list[str]) -> Iterator[list[str]]:
        """Asks one command after another without waiting for the answers, and gives these in order. All have to be read.

        The commands are those that do steps, or set breaks: no line of their answers looks as that of `back 0` does, which ends each.
        """
        text = "".join(f"{it}\nback 0\n" for it in commands)
        # (a pipe holds only so much: who writes all before reading would wait for a reader who waits)
        writer = started(self.send_quietly, text) if len(text) > PIPE else None
        if not writer:
            self.send_quietly(text)
        yield from self.answers(len(commands))
        if writer:
            writer.join()

    def answers(self, count: int) -> Iterator[list[str]]:
        """The lines of so many answers, each up to the line of its `back 0`."""
        lines: list[str] = []
        for row in self.rows() if count else ():
            if not row.startswith("at "):
                lines.append(row)
                continue
            self.length = int(row[3:])
            yield lines
            lines, count = [], count - 1
            if not count:
                return

    def do_all(self, commands: list[str], tell: Callable[[int], None]) -> None:
        """Does steps as far as they are not refused, and passes over all that they print. `length` is how many stand then; `tell` hears it
        on the way."""
        parts = [packed(commands[at : at + MANY_STEPS]) for at in range(0, len(commands), MANY_STEPS)]
        writer = started(self.send_quietly, "".join(f"{it}back 0\n" for it in parts))
        left, rest = len(parts), b"\n"
        while left:
            part = self.read_some()
            part = rest + part
            rest = part[part.rfind(b"\n") :]
            for at in AT_LINE.findall(part):
                self.length = int(at)
                tell(self.length)
                left -= 1
        writer.join()

    def walk(self) -> bytes:
        """The lines of the standing steps, each with its step in front."""
        self.send("walk\nback 0\n")
        said = self.bytes_until(b"at ")
        del said[said.rfind(b"\n", 0, -1) + 1 :]
        return bytes(said)

    def ask_all(self, commands: list[str]) -> list[str]:
        """Asks many commands that do steps, and answers all their lines, without saying which are whose."""
        writer = started(self.send_quietly, "\n".join([*commands, "back 0", ""]))
        # (no line of theirs begins so but the last one)
        lines = self.bytes_until(b"at ").decode("ascii", "replace").split("\n")[:-1]
        writer.join()
        self.length = int(lines.pop().removeprefix("at "))
        return lines

    def read_some(self) -> bytes:
        """What the program has written, as soon as there is some."""
        output: Any = self.output
        part: bytes = output.read1(1 << 16)
        if not part:
            self.ended()
        return part

    def bytes_until(self, last: bytes) -> bytearray:
        """All lines up to one that begins so, which is the last one that comes."""
        said = bytearray()
        while not said.endswith(b"\n") or not said.startswith(last, said.rfind(b"\n", 0, -1) + 1):
            part = self.read_some()
            said += part
        return said

    def send_quietly(self, text: str) -> None:
        """Sends, where the reader is the one who tells that the program has ended."""
        with contextlib.suppress(BrokenPipeError, ValueError):
            self.input.write(text.encode("ascii", "surrogateescape"))
            self.input.flush()

    def state(self) -> State:
        return State(self.ask("state"))

    def of_name(self, name: str) -> State:
        """What one name is bound to: of the state the line of the name, and that of its slot while it holds that, and no more."""
        return State(self.ask(f"state {name}"))

    def state_at(self, length: int) -> State:
        """Goes to where so many steps stand, by those that stand or that were taken back, and answers the state there."""
        away = length - self.length
        move = f"forward {away}" if away > 0 else f"back {-away}"
        self.send(f"{move}\nstate\n")
        return self.read_state_behind(move)

    def read_state_behind(self, move: str) -> State:
        """The answer to a move, and the state behind it."""
        said = self.read_line()
        # (the line `done-yet` is a state's last one)
        read = self.output.readline
        lines: list[bytes] = []
        while not lines or not lines[-1].startswith(b"done-yet"):
            lines.append(read())
            if not lines[-1].endswith(b"\n"):
                self.ended()
        if not (at := AT.match(said)):
            raise Fault(f"the program answers `{said}` to `{move}`")
        self.length = int(at[1])
        return State(b"".join(lines).decode("ascii", "replace").split("\n")[:-1])

    def states_at(self, lengths: list[int]) -> Iterator[State]:
        """The same of many, asked all at once. All have to be read."""
        moves, here = [], self.length
        for length in lengths:
            moves.append(f"forward {length - here}" if length > here else f"back {here - length}")
            here = length
        writer = started(self.send_quietly, "".join(f"{it}\nstate\n" for it in moves))
        for move in moves:
            yield self.read_state_behind(move)
        writer.join()

    def sent_at(self, looks: list[tuple[int, str]]) -> threading.Thread:
        """Goes to where so many steps stand, and asks a command there: of many, and behind them what is no command, all at once."""
        moves: list[str] = []
        for length, command in looks:
            moves.append(f"forward {length - self.length}\n{command}" if length > self.length else f"back {self.length - length}\n{command}")
            self.length = length
        return started(self.send_quietly, "\n".join([*moves, "?", ""]))

    def times_at(self, lengths: list[int]) -> list[tuple[int, int]]:
        """The loop's time and the clock where so many steps stand, of many lengths, asked all at once."""
        writer, found = self.sent_at([(it, "state") for it in lengths]), []
        for line in self.rows():
            if line.startswith("steps "):
                _, _, _, now, _, clock, *_ = line.split(" ")
                found.append((int(now), int(clock)))
            elif line == BAD:
                break
        writer.join()
        return found

    def names_at(self, looks: list[tuple[int, str]]) -> str:
        """Of many numbers of steps what is said of one name each (`of_name`), asked all at once: a line `at N`, and those of the name."""
        writer = self.sent_at([(length, f"state {name}") for length, name in looks])
        said = self.bytes_until(BAD.encode()).decode("ascii", "replace")
        writer.join()
        return said[: -len(BAD) - 1]

    def rows(self) -> Iterator[str]:
        """All lines, as they come."""
        rest = b""
        while True:
            part = self.read_some()
            part = rest + part
            end = part.rfind(b"\n") + 1
            rest = part[end:]
            yield from part[:end].decode("ascii", "replace").split("\n")[:-1]

    def trace(self) -> list[str]:
        return self.ask("trace")

    def record(self) -> list[str]:
        """The lines of the recording: the last one is `end`, and no other one is. (Of those that are alike one is kept.)"""
        self.send("record\n")
        known: dict[str, str] = {}
        found: list[str] = []
        for line in self.rows():
            found.append(known.setdefault(line, line))
            if line == "end":
                break
        return found

    def recording(self) -> Recording:
        return read_recording("\n".join(self.record()) + "\n")

    def close(self) -> None:
        """Ends the program."""
        if self.process.poll() is None:
            with contextlib.suppress(BrokenPipeError, ValueError):
                self.input.write(b"quit\n")
                self.input.close()
            self.output.read()
            self.process.wait()

    def stop(self) -> None:
        """Ends the program, whatever it is at: there may be answers that nobody reads any more."""
        self.process.kill()
        self.process.wait()

    def __enter__(self) -> Conversation:
        return self

    def __exit__(self, fault: type[BaseException] | None, *_: object) -> None:
        if fault is None:
            self.close()
        else:
            self.stop()
