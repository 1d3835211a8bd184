"""Files that somebody sends you: recordings, notes, logs, scripts and adapter messages, changed at random.

Each is what a tool was made for with a few things changed: a line less, two lines for one, words of another line, a number that is
no number or too large, bytes that steer a terminal. Whatever comes, the tool ends with a status of its own and a sentence, or with
its answer; nothing that steers a terminal reaches it.

    tests/tools/fuzz --program PATH [--inputs N] [--seed S] [--kind KIND]    by hand; the tests of the tools have 1,000 of each kind
"""

from __future__ import annotations

import argparse
import contextlib
import importlib
import io
import multiprocessing
import os
import random
import re
import signal
import sys
import tempfile
import traceback
import types
from concurrent.futures import ProcessPoolExecutor
from pathlib import Path
from typing import Any, Iterator

from tests.helper import Tries, log_at

HERE = Path(__file__).resolve().parent
ROOT = HERE.parent.parent

KINDS = ("recording", "notes", "log", "script", "message")
LOGS = ("late", "starved", "mixed", "threads", "accepted", "datagrams", "luv", "node-late", "ctest", "watchers")
# Of truths/: with places, requests of streams and the processor's time.
TRUTHS = ("hangup", "giveup", "watchdog", "again", "chat")
SCRIPTS = ("late-timer", "never-called", "two-timers", "live-run-back", "sends-are-one")
# How long one input may take, in seconds: what takes longer hangs.
PATIENCE = 60
# What steers a terminal; a line feed and a tab don't.
STEERS = re.compile(r"[\x00-\x08\x0b-\x1f\x7f-\x9f]")
ODD = (
    "",
    "-1",
    "0",
    "01",
    "1e9",
    "999999999999999999999",
    "18446744073709551616",
    "4294967296",
    "\x1b[31m",
    "\x1b]0;X\x07",
    "\x9b2J",
    "\x00",
    "\xff",
    "\u202e",
    "\r",
    "\t",
    "..",
    "/",
    "__proto__",
    "constructor",
    "%s",
    "{}",
    "`",
    "'",
    '"',
    "é",
    "a" * 300,
)


def log_of(name: str) -> Path:
    return log_at(HERE / ("truths" if name in TRUTHS else "logs") / f"{name}.log")


class Hung(Exception):
    """It took too long."""


# ---- changes


def changed(draw: random.Random, text: str, times: int) -> str:
    """A text with so many changes."""
    lines = text.split("\n")
    for _ in range(times):
        at = draw.randrange(len(lines))
        how = draw.randrange(8)
        if how == 0 and len(lines) > 1:
            del lines[at]
        elif how == 1:
            lines.insert(at, draw.choice(lines))
        elif how == 2:
            other = draw.randrange(len(lines))
            lines[at], lines[other] = lines[other], lines[at]
        elif how == 3:
            lines[at:] = lines[at : at + 1] if draw.random() < 0.2 else lines[at:]
        elif how == 4:
            lines[at] = lines[at][: draw.randrange(len(lines[at]) + 1)]
        else:
            words = lines[at].split(" ")
            words[draw.randrange(len(words))] = draw.choice(ODD) if how < 7 else draw.choice(draw.choice(lines).split(" "))
            lines[at] = " ".join(words)
    return "\n".join(lines)


# ---- tools, in this process


def tool(name: str) -> types.ModuleType:
    """A tool of tools/ as a module."""
    return importlib.import_module(f"uvt.commands.{name}")


def run(module: types.ModuleType, words: list[str], text: str = "") -> tuple[int, str]:
    """The status of a tool, and all that it writes."""
    said = io.StringIO()
    kept = sys.argv, sys.stdin
    sys.argv, sys.stdin = [str(module.__file__), *words], io.StringIO(text)
    try:
        with contextlib.redirect_stdout(said), contextlib.redirect_stderr(said):
            try:
                status = module.main()
            except SystemExit as end:
                status = end.code if isinstance(end.code, int) else 1
    finally:
        sys.argv, sys.stdin = kept
        for number in (signal.SIGTERM, signal.SIGHUP):
            signal.signal(number, signal.SIG_DFL)
    return status, said.getvalue()


class Wire:
    """The messages of a client that asks all this, and goes."""

    def __init__(self, messages: list[dict[str, Any]]) -> None:
        self.messages = messages
        self.sent: list[dict[str, Any]] = []

    def is_waiting(self) -> bool:
        return bool(self.messages)

    def receive(self) -> dict[str, Any]:
        if not self.messages:
            from uvt import dap_wire

            raise dap_wire.Gone
        return self.messages.pop(0)

    def send(self, message: dict[str, Any]) -> None:
        self.sent.append(message)


REQUESTS: list[tuple[str, dict[str, Any]]] = [
    ("initialize", {"linesStartAt1": True}),
    ("setBreakpoints", {"source": {"path": "FILE"}, "breakpoints": [{"line": 2}]}),
    ("setFunctionBreakpoints", {"breakpoints": [{"name": "beat"}]}),
    ("setExceptionBreakpoints", {"filters": ["code"]}),
    ("configurationDone", {}),
    ("threads", {}),
    ("stackTrace", {"threadId": 1}),
    ("scopes", {"frameId": 0}),
    ("variables", {"variablesReference": 1}),
    ("continue", {"threadId": 1}),
    ("next", {"threadId": 1}),
    ("stepIn", {"threadId": 1}),
    ("stepOut", {"threadId": 1}),
    ("stepBack", {"threadId": 1}),
    ("reverseContinue", {"threadId": 1}),
    ("pause", {"threadId": 1}),
    ("evaluate", {"expression": "state", "context": "repl"}),
    ("evaluate", {"expression": "loop 10"}),
    ("gotoTargets", {"source": {"path": "FILE"}, "line": 3}),
    ("goto", {"threadId": 1, "targetId": 4}),
    ("completions", {"text": "br", "column": 2}),
    ("source", {"sourceReference": 1}),
    ("disconnect", {}),
]
VALUES: list[Any] = [
    None,
    True,
    -1,
    0,
    10**30,
    1.5,
    "",
    "\ud800",
    "\x1b[31m",
    [],
    {},
    [None],
    {"line": None},
    "goto 99999999",
    "FILE",
    "beat",
    {"path": None},
    "x" * 1000,
]


def replaced(draw: random.Random, value: Any, path: str) -> Any:
    """A value with some part of it another one."""
    if draw.random() < 0.15:
        return draw.choice(VALUES)
    if isinstance(value, dict):
        return {key: replaced(draw, it, path) for key, it in value.items() if draw.random() < 0.95}
    if isinstance(value, list):
        return [replaced(draw, it, path) for it in value]
    return path if value == "FILE" else value


def messages_for(draw: random.Random, path: str) -> list[dict[str, Any]]:
    asked = [("launch", {"program": path, "stopOnEntry": True})] + [draw.choice(REQUESTS) for _ in range(12)]
    found = []
    for number, (command, words) in enumerate(asked, 1):
        arguments = words if number == 1 and draw.random() < 0.9 else replaced(draw, words, path)
        message = {"seq": number, "type": "request", "command": command, "arguments": arguments}
        found.append(message if draw.random() < 0.95 else replaced(draw, message, path))
    return [it for it in found if isinstance(it, dict)]


# ---- one input of each kind


class Tried:
    """What a lane has at hand: the tools, and recordings of the kept logs."""

    def __init__(self, folder: Path) -> None:
        self.folder = folder
        self.tools = {name: tool(name) for name in ("why", "view", "shell", "find", "record")}
        self.recordings: list[tuple[str, str]] = []
        for name in LOGS + TRUTHS:
            run(self.tools["record"], ["-o", str(folder / name), "--log", str(log_of(name))])
            for path in sorted(folder.glob(f"{name}*.rec")):
                notes = path.with_suffix(".notes")
                self.recordings.append((path.read_text("latin-1"), notes.read_text("latin-1") if notes.is_file() else ""))

    def asked(self, draw: random.Random, path: Path) -> Iterator[tuple[str, list[str], str]]:
        """A tool, its words and its input, about a file."""
        names = re.findall(r"(?m)^var (\S+)$", path.read_text("latin-1")) or ["beat"]
        yield draw.choice(
            [
                ("why", [str(path)], ""),
                ("why", [draw.choice(names), str(path)], ""),
                ("why", ["app.js:3", str(path)], ""),
                ("view", [str(path)], ""),
                ("view", ["--trace-event", str(path)], ""),
                ("shell", [str(path)], f"where\ninfo\nwhy {draw.choice(names)}\nback 3\nlist\n"),
            ]
        )

    def recording(self, draw: random.Random) -> Iterator[tuple[str, list[str], str]]:
        path = self.folder / "any.rec"
        recording, notes = draw.choice(self.recordings)
        path.write_text(changed(draw, recording, draw.randrange(1, 4)), "latin-1", newline="\n", errors="replace")
        path.with_suffix(".notes").write_text(notes, "latin-1", newline="\n")
        yield from self.asked(draw, path)

    def notes(self, draw: random.Random) -> Iterator[tuple[str, list[str], str]]:
        path = self.folder / "any.rec"
        recording, notes = draw.choice([it for it in self.recordings if it[1]])
        path.write_text(recording, "latin-1", newline="\n")
        head, _, rest = notes.partition("\n")
        path.with_suffix(".notes").write_text(f"{head}\n{changed(draw, rest, draw.randrange(1, 4))}", "latin-1", newline="\n", errors="replace")
        yield from self.asked(draw, path)

    def log(self, draw: random.Random) -> Iterator[tuple[str, list[str], str]]:
        path = self.folder / "any.log"
        text = log_of(draw.choice(LOGS + TRUTHS)).read_text("latin-1")
        path.write_text(changed(draw, text, draw.randrange(1, 4)), "latin-1", newline="\n", errors="replace")
        for left in self.folder.glob("made*"):
            left.unlink()
        yield "why", [str(path)], ""
        yield "record", ["-o", str(self.folder / "made"), "--log", str(path)], ""
        for made in sorted(self.folder.glob("made*.rec"))[:1]:
            yield from self.asked(draw, made)

    def script(self, draw: random.Random) -> Iterator[tuple[str, list[str], str]]:
        path = self.folder / "any.uvt"
        text = (ROOT / "examples" / f"{draw.choice(SCRIPTS)}.uvt").read_text("latin-1")
        path.write_text(changed(draw, text, draw.randrange(1, 4)), "latin-1", newline="\n", errors="replace")
        yield from self.asked(draw, path)

    def message(self, draw: random.Random) -> Iterator[tuple[str, list[str], str]]:
        from uvt import conversation, dap

        path = self.folder / "launched.uvt"
        path.write_bytes((ROOT / "examples" / f"{draw.choice(SCRIPTS)}.uvt").read_bytes())
        asked = messages_for(draw, str(path))
        with contextlib.redirect_stderr(io.StringIO()):
            try:
                dap.Adapter(Wire(asked)).serve()  # type: ignore[arg-type]
            except conversation.Fault:
                pass
        return
        yield


def wrong_of(tried: Tried, kind: str, seed: int) -> str:
    """What is wrong with what becomes of an input; `` where nothing is."""
    draw = random.Random(f"{kind} {seed}")

    def late(number: int, frame: object) -> None:
        raise Hung

    signal.signal(signal.SIGALRM, late)
    signal.alarm(PATIENCE)
    try:
        for name, words, text in getattr(tried, kind)(draw):
            status, said = run(tried.tools[name], words, text)
            found = STEERS.search(said)
            if found:
                return f"{name} writes {found.group(0)!r}: {said[max(0, found.start() - 60) : found.end() + 20]!r}"
            if status not in (0, 1, 2, 3, 4, 70):
                return f"{name} ends with {status}"
    except Hung:
        return f"it takes more than {PATIENCE} seconds"
    except Exception:
        return "".join(traceback.format_exc(limit=-3))
    finally:
        signal.alarm(0)
    return ""


def lane(asked: tuple[str, int, int, int]) -> tuple[int, list[str]]:
    """A part of the inputs of a kind, in a process of its own: how many, and what was wrong with which."""
    kind, seed, inputs, step = asked
    found = []
    with tempfile.TemporaryDirectory(prefix="uvt-fuzz-") as folder:
        tried = Tried(Path(folder))
        for number in range(seed, seed + inputs, step):
            wrong = wrong_of(tried, kind, number)
            if wrong:
                found.append(f"{kind} {number}: {wrong}")
    return len(range(seed, seed + inputs, step)), found


def try_fuzz(tries: Tries, inputs: int = 1000, kinds: tuple[str, ...] = KINDS, seed: int = 0) -> None:
    """So many of each kind, by as many processes as there are processors. The program is that of UVT."""
    lanes = max(1, min(4, os.cpu_count() or 1))
    work = [(kind, seed + at, inputs - at, lanes) for kind in kinds for at in range(lanes)]
    with ProcessPoolExecutor(lanes, multiprocessing.get_context("spawn")) as pool:
        for count, found in pool.map(lane, work):
            for number in range(count):
                wrong = found[number] if number < len(found) else ""
                tries.check("files at random", not wrong, wrong)


def main() -> int:
    parser = argparse.ArgumentParser(description=__doc__, formatter_class=argparse.RawDescriptionHelpFormatter)
    parser.add_argument("--program", type=Path, help="the program that is talked with; else that of ./uvt")
    parser.add_argument("--inputs", type=int, default=1000, metavar="N", help="how many of each kind (1,000)")
    parser.add_argument("--seed", type=int, default=0, metavar="S", help="the number of the first one")
    parser.add_argument("--kind", choices=KINDS, help="those of one kind alone")
    asked = parser.parse_args()
    if asked.program:
        os.environ["UVT"] = str(asked.program.resolve())
    tries = Tries("fuzz")
    try_fuzz(tries, asked.inputs, (asked.kind,) if asked.kind else KINDS, asked.seed)
    return tries.end()
