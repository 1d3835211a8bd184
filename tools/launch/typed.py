"""Hands what is typed at a terminal to `uvt debug`, a line at a time: tools/launch/typed.py PROGRAM FILE

FILE is the beginning of the input, or empty. A line of a script that is bad is told at once, with why, and isn't handed on: so it can be
typed again. The program alone says which line is bad: it is started on the script up to that line, which does no step. Of a command that
the program answers with `bad command` it is said why, too. `help` lists what may be typed. All else is the program's: what is
printed, and the status. What is said here goes to standard error."""
from __future__ import annotations

import contextlib
import difflib
import os
import re
import subprocess
import sys
import threading
from typing import Iterator, List, Optional

from launch import bad_line, reasons
from launch.tool import START, take_interrupts

BAD = b"bad command\n"
# The two lines that end an answer: that of `back 0`, which changes nothing, and that of a line that is no command.
ENDS = b"back 0\n?\n"
AT = re.compile(rb"at \d+\n")
OP = "OP is one of: " + ", ".join((word + " " + shape).strip() for word, shape in reasons.OPS.items()) + "; of `main` also run MODE, closeloop"

LINES = [
    ("var NAME", "declares a name: a lower case letter, and then lower case letters, digits or _"),
    ("main OP", "the next op of the main program"),
    ("on NAME OP", "an op of each callback of NAME; `on NAME @2 OP` of the second one alone"),
    ("after NAME OP, closed NAME OP", "the same of its after callbacks, and of its close callback"),
    ("order VERSION, workers N, slots N", "the order of the loop (1.44 or 1.45), the pool, the memory"),
    ("io", "the script has handles of I/O: behind it `init NAME io` makes one"),
    ("timers heap", "due timers are called straight from the heap, as libuv does before 1.48"),
    ("begin", "ends the script: behind it come commands"),
]
COMMANDS = [
    ("loop, loop N", "a step, up to N steps"),
    ("tick MS", "the clock goes on by so many ms"),
    ("back N, forward N", "takes the last N steps back, or runs them again"),
    ("break call NAME", "from now on a step stops a run if it begins a callback of NAME"),
    ("break code CODE, break section WORD", "the same, where an op answers CODE, or a section begins"),
    ("break clear", "clears all breaks"),
    ("rback", "goes back to the last step that matches a break"),
    ("take K, finish K", "worker K takes a request, or finishes it"),
    ("cancel NAME, send NAME", "from outside, as another thread does"),
    ("io NAME", "the callback of a handle of I/O comes, in a script with the line `io`"),
    ("trace, walk", "shows the lines of the steps; `walk` with the number of the step in front"),
    ("state, image, record", "shows the state, the memory, the recording"),
    ("state NAME", "shows what one name is bound to"),
    ("quit", "ends"),
]
# The form of each command: words, or what stands for one. Of `break` there are four.
FORMS = {
    "loop": ["", "N"],
    "tick": ["MS"],
    "take": ["K"],
    "finish": ["K"],
    "cancel": ["NAME"],
    "send": ["NAME"],
    "io": ["NAME"],
    "back": ["N"],
    "forward": ["N"],
    "rback": [""],
    "trace": [""],
    "walk": [""],
    "state": ["", "NAME"],
    "image": [""],
    "record": [""],
    "quit": [""],
    "break": ["call NAME", "code CODE", "section WORD", "clear"],
}
RANGES = {"MS": (0, reasons.LARGEST), "K": (0, 65535), "loop": (1, 16777216), "back": (0, 16777216), "forward": (0, 16777216)}


def say(text: str) -> None:
    print("uvt: " + text, file=sys.stderr, flush=True)


def show_help(begun: bool) -> None:
    for form, what in COMMANDS if begun else LINES:
        print("  %-36s %s" % (form, what), file=sys.stderr)
    print("  " + ("docs/FORMAT.md says more of each" if begun else OP), file=sys.stderr, flush=True)


def near(word: str, known: List[str]) -> str:
    found = difflib.get_close_matches(word, known, 1)
    return ": did you mean `%s`?" % found[0] if found else ""


def why_no_word(word: str, what: str, command: str, names: List[str]) -> Optional[str]:
    """Why a word can't stand where a command's form has this."""
    if what in reasons.LISTED:
        return None if word in reasons.LISTED[what] else "`%s` is none of %s" % (word, ", ".join(reasons.LISTED[what]))
    if what == "NAME":
        return None if word in names else "`%s` is no name of the script%s" % (word, near(word, names))
    least, most = RANGES.get(what, RANGES.get(command, (0, reasons.LARGEST)))
    if not re.fullmatch("0|[1-9][0-9]*", word):
        return "`%s` is no number: digits alone, with no sign and no zero in front" % word
    return None if least <= int(word) <= most else "`%s` is out of range: %s is %d to %d" % (word, what, least, most)


def why_no_command(line: bytes, names: List[str], has_io: bool) -> str:
    """Why the program answers `bad command`."""
    try:
        reasons.of_bytes(line)
        words = reasons.split(line.decode("ascii"), 9)
    except reasons.Why as found:
        return found.sentence()
    if words[0] not in FORMS:
        if words[0] in ("var", "main", "on", "after", "closed", "begin"):
            return "`%s` is a line of a script, and the script has ended with `begin`" % words[0]
        return "`%s` is no command%s" % (words[0], near(words[0], [*FORMS, "help"]) or "; help has them all")
    if words[0] == "io" and not has_io:
        return reasons.REASONS["outside"]
    forms = [it.split() for it in FORMS[words[0]]]
    for form in forms:
        if len(form) == len(words) - 1 and form[:-1] == words[1:-1]:
            if form == words[1:]:
                continue
            wrong = why_no_word(words[-1], form[-1], words[0], names) if form[-1].isupper() else None
            if wrong:
                return wrong
    return "the command has the form " + " or ".join("`%s`" % " ".join([words[0], *form]) for form in forms)


class Typed:
    def __init__(self, program: str, text: bytes) -> None:
        self.program = program
        self.lines = text.split(b"\n")
        # (a last line without its end is a line too)
        if not self.lines[-1]:
            self.lines.pop()
        self.running: Optional[subprocess.Popen[bytes]] = None

    def names(self) -> List[str]:
        words = [it.decode("ascii", "replace").split(" ") for it in self.lines]
        return [it[1] for it in words if it[0] == "var" and len(it) == 2]

    def script(self) -> List[bytes]:
        """The lines of the script so far."""
        return self.lines[: self.lines.index(b"begin")] if b"begin" in self.lines else self.lines

    def bad_line(self) -> int:
        """The first bad line of the script so far, by the program; 0 where there is none."""
        script = b"".join(it + b"\n" for it in self.script()) + b"begin\n"
        tried = subprocess.run([self.program, "debug"], input=script, stdout=subprocess.DEVNULL, stderr=subprocess.PIPE)
        found = re.search(rb"bad script line (\d+)", tried.stderr)
        return int(found[1]) if found else 0

    def start(self) -> None:
        """Starts the program on all that is there, and shows what it answers."""
        self.running = subprocess.Popen([self.program, "debug"], stdin=subprocess.PIPE, stdout=subprocess.PIPE)
        self.give(b"".join(it + b"\n" for it in self.lines))

    def give(self, text: bytes) -> bool:
        """Hands lines on, and shows the answer. Whether it was `bad command`."""
        # (a file's lines may be more than a pipe holds, and so may their answers)
        writer = threading.Thread(target=self.write, args=(text + ENDS,), daemon=True)
        writer.start()
        shown = b""
        for shown in self.answer():
            os.write(1, shown)
        writer.join()
        return shown == BAD

    def write(self, text: bytes) -> None:
        assert self.running and self.running.stdin
        # (a program that has ended takes no more)
        with contextlib.suppress(BrokenPipeError):
            self.running.stdin.write(text)
            self.running.stdin.flush()

    def answer(self) -> Iterator[bytes]:
        """The lines of an answer, each as soon as it isn't its end."""
        assert self.running and self.running.stdout
        last: Optional[bytes] = None
        for line in self.running.stdout:
            if line == BAD and last is not None and AT.fullmatch(last):
                return
            if last is not None:
                yield last
            last = line
        if last is not None:
            yield last
        self.running.wait()

    def has_ended(self) -> bool:
        return self.running is not None and self.running.returncode is not None

    def take_script_line(self, line: bytes) -> None:
        if line == b"help" or line == b"?":
            show_help(False)
            return
        self.lines.append(line)
        if line == b"begin":
            self.start()
            return
        number = self.bad_line()
        if number:
            found = bad_line.why("debug", self.lines, number)
            say("line %d isn't taken: %s" % (number, found.sentence() if found else "it is bad") + ("" if line != b"quit" else "; here Ctrl-D ends"))
            self.lines.pop()

    def take_command(self, line: bytes) -> None:
        if line == b"help" or line == b"?":
            show_help(True)
        elif self.give(line + b"\n") and not self.has_ended():
            say(why_no_command(line, self.names(), b"io" in self.script()))

    def end(self) -> int:
        """The input has ended: the status is the program's."""
        if self.running is None:
            self.running = subprocess.Popen([self.program, "debug"], stdin=subprocess.PIPE)
            self.write(b"".join(it + b"\n" for it in self.lines))
        if not self.has_ended():
            assert self.running.stdin
            with contextlib.suppress(BrokenPipeError):
                self.running.stdin.close()
            self.running.wait()
        return self.running.returncode


def typed_lines() -> Iterator[bytes]:
    """The lines of the terminal, as they come."""
    rest = b""
    while True:
        more = os.read(0, 4096)
        if not more:
            if rest:
                yield rest
            return
        *whole, rest = (rest + more).split(b"\n")
        yield from whole


def read_file(path: str) -> bytes:
    """What of the file can be read."""
    try:
        with open(path, "rb") as file:
            return file.read()
    except OSError:
        return b""


def of_bad_file(program: str, path: str, number: int) -> int:
    """The file's own script is bad: the program says so, and then it is said why."""
    with open(path, "rb") as file:
        status = subprocess.run([program, "debug"], stdin=file).returncode
    subprocess.run([sys.executable, START, "bad-line", "debug", path, str(number)])
    return status


def converse() -> int:
    program, path = sys.argv[1], sys.argv[2]
    typed, number = Typed(program, read_file(path) if path else b""), 0
    if typed.lines:
        number = typed.bad_line()
    if number:
        return of_bad_file(program, path, number)
    if b"begin" in typed.lines:
        typed.start()
    given = typed_lines()
    while not typed.has_ended() and (line := next(given, None)) is not None:
        if typed.running is None:
            typed.take_script_line(line)
        else:
            typed.take_command(line)
    return typed.end()


def main() -> int:
    take_interrupts()
    try:
        return converse()
    except KeyboardInterrupt:
        return 130
    except OSError:
        say("write failed")
        return 4
