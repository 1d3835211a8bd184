"""A search that says how far it is: a question is asked of the program with more and more states, until it is settled."""

from __future__ import annotations

import os
import re
import subprocess
import sys
import tempfile
import time
from typing import IO

from uvt.conversation import Fault, search_program, started

BAD_LINE, UNSETTLED = 2, 3
BAD = b"bad script line"
# How many states a search keeps where no line says it, and by which numbers it comes there: one that isn't settled is begun anew with ten
# times as many, so that whoever interrupts it knows how far it was. The shorter ones together take a ninth of the last one's time.
DEFAULT_STATES = 10_000_000
FIRST_STATES, GROWTH = 1_000, 10
# How often the program is looked at, and how long a search is silent at a terminal, in seconds.
PAUSE = 0.1
SILENT = 2


def held(process: int) -> str:
    """What a process holds of the memory, in MB."""
    try:
        with open(f"/proc/{process}/statm", encoding="ascii") as file:
            return f", {int(file.read().split()[1]) * os.sysconf('SC_PAGE_SIZE') // 1_000_000} MB"
    except (OSError, ValueError):
        return ""


class Search:
    """A question, and what came of it."""

    def __init__(self, asked: bytes, output: IO[bytes]) -> None:
        self.asked = asked
        self.output = output
        # there are more states than these
        self.past = 0
        self.said: list[bytes] = []
        self.program = search_program()
        self.began = time.monotonic()

    def settle(self) -> tuple[int, bytes]:
        """The status, and what was said on the errors. The answer stands in the output."""
        states = FIRST_STATES
        while (question := self.bounded(states)) is not None:
            status = self.ask(question, aside=True)
            self.output.seek(0)
            if status == BAD_LINE:
                # (it is said by the number of its line in what was asked)
                self.said = [line for line in self.said if BAD not in line]
                break
            # (of `find latest` how late it is at least stands before that, and a session behind it)
            if status != UNSETTLED or not self.output.readline().endswith(b"not settled within %d states\n" % states):
                return status, b"".join(self.said)
            self.past, states = states, states * GROWTH
        return self.ask(self.asked, aside=False), b"".join(self.said)

    def bounded(self, states: int) -> bytes | None:
        """The question with so many states kept; none where it asks for no more than that itself."""
        lines = self.asked.split(b"\n")
        begin = lines.index(b"begin") if b"begin" in lines else len(lines)
        for number, line in enumerate(lines):
            bound = re.fullmatch(rb" *most +states +(\d+) *", line)
            if number > begin and bound:
                return b"\n".join([*lines[:number], b"most states %d" % states, *lines[number + 1 :]]) if states < int(bound[1]) else None
        return self.asked.rstrip(b"\n") + b"\nmost states %d\n" % states if states < DEFAULT_STATES else None

    def ask(self, question: bytes, aside: bool) -> int:
        """The status of the program that is asked this; what it says of a bad line isn't said where that is asked aside."""
        known, self.said = self.said, []
        self.output.seek(0)
        self.output.truncate()
        with tempfile.TemporaryFile() as given:
            given.write(question)
            given.seek(0)
            try:
                program = subprocess.Popen([self.program], stdin=given, stdout=self.output, stderr=subprocess.PIPE)
            except OSError as fault:
                raise Fault(f"{fault.filename} could not be started: {fault.strerror}") from None
            teller = started(self.hand_on, program.stderr, known, aside)
            try:
                status = self.wait(program)
            finally:
                program.terminate()
            teller.join()
        return status

    def hand_on(self, errors: IO[bytes], known: list[bytes], aside: bool) -> None:
        """What the program says on its errors is kept, and said at once, except what is known."""
        for line in errors:
            self.said.append(line)
            if line not in known and not (aside and BAD in line):
                sys.stderr.buffer.write(line)
                sys.stderr.flush()

    def wait(self, program: subprocess.Popen[bytes]) -> int:
        """Waits for the program's end. At a terminal it says how long the search has taken, how far it is, and what it holds of the memory."""
        at_terminal, told = sys.stderr.isatty(), 0
        while program.poll() is None:
            time.sleep(PAUSE if at_terminal or told else PAUSE / 10)
            spent = int(time.monotonic() - self.began)
            if at_terminal and spent >= SILENT and spent != told:
                told = spent
                minutes, seconds = divmod(spent, 60)
                far = f", more than {self.past} states" if self.past else ""
                print(f"\r\x1b[Kuvt find: searching, {minutes}:{seconds:02}{far}{held(program.pid)}", end="", file=sys.stderr, flush=True)
        if told:
            print("\r\x1b[K", end="", file=sys.stderr, flush=True)
        return program.returncode
