"""Tries the tools around the program: tests/tools/run [--program PATH] [-j N] [PART..]

  - the conversation (tools/uvt/conversation.py): where an answer ends, texts cut into values, a script that is none
  - the shell (tools/uvt/uvt-shell): gdb's words over a pipe, and at a terminal completion, history and an interrupt; with --panes,
    what somebody sees who types in tmux (panes.py): by hand, since it goes by what is on a screen when
  - why a callback was late or never came (tools/uvt/uvt-why): the question of each example, and fifty random recordings beside a slow
    check (whys.py, slow_why.py)
  - the page of a run (tools/uvt/uvt-view): its states beside the program's, and the lanes (views.py). How it looks in a browser is for the
    hand: tests/tools/browser
  - the same run in the Trace Event Format, by the format's rules (trace_events.py); and what Chromium's DevTools have of it, where chromium is
    installed (devtools.py)
  - the debug adapter (tools/uvt/uvt-dap), by a client that looks at the shape of each message (daps.py). Another client, in Go,
    is for the hand: tests/tools/godap/run
  - the extension for VS Code (tools/uvt/vscode), without the editor: its files' fields, its colours beside the program, and the adapter as
    its manifest starts it (editors.py)
  - the same script on libuv (tools/uvt/uvt-libuv), where it is installed (libuvs.py). By hand, and much more of it: tests/libuv/run
  - recordings of programs (tools/uvt/uvt-record) from the logs of logs/, logs that are cut or changed, and, with a C compiler and libuv, programs
    (records.py); and from logs that are drawn, of threads that are held up within a send (held.py)
  - programs of which the last windows are kept, and copies of them while they run (keeps.py, kept.c); the recorder in programs that run
    already, and out of them again (attaches.py)
  - orders that are forced upon real programs (tools/uvt/uvt-force), with a C compiler and libuv (forces.py, forces/)
  - races in node and in Python, hunted (races.py, javascript/races/, python/races/)
  - what `why` says of programs whose true causes are known, and that it says nothing that they don't confirm (truths.py, truths/)
  - two recordings of one program beside each other (besides.py, beside/)
  - what it says of programs in node, of whose JavaScript the hook told (javascripts.py, javascript/)
  - the same of programs in Python and Lua (interpreters.py, python/, lua/)
  - the search (tools/uvt/uvt-find): each example that asks, and what is said of bad lines (finds.py)
  - that a program under the recorder ends as without it, also under sanitizers and valgrind (unharmed.py)
  - that nothing harms a program or its user: handlers that send, many loops, filters of system calls, who is killed, reports that hold
    anything (harms.py, harms/)
  - how each tool begins and ends: interrupts, outputs that are full or closed (starts.py)
  - recordings, notes, logs, scripts and adapter messages that are changed at random, 1,000 of each (fuzz.py)
  - the tool that shortens proofs (tools/make/shorter), without the prover: what it makes of small lemmas (shorts.py)
  - the words of the pages, the tools and their tests (words.py); how tools and tests are formatted, and their types (formed.py)
  - each call of a tool that README.md, docs/TOOLS.md or docs/RECORD.md shows prints what stands there

The program is that of ./uvt build, or the one that is named. It prints a line for each that failed, and at the end how
many there were; status 1 if any failed.
"""

from __future__ import annotations

import argparse
import os
import pty
import select
import signal
import tempfile
import time
from pathlib import Path
from typing import Callable, Iterable

from tests.helper import EXAMPLES, ROOT, Tries, limited, side_by_side
from tests.tools.attaches import try_attaches
from tests.tools.daps import BEFORE_SENDS, CONVERSATIONS, try_adapter
from tests.tools.devtools import try_devtools
from tests.tools.editors import try_editors
from tests.tools.finds import try_find
from tests.tools.forces import try_forces, try_hanging, try_hunted, try_started, try_told
from tests.tools.formed import try_form
from tests.tools.fuzz import try_fuzz
from tests.tools.harms import try_harms
from tests.tools.held import try_held
from tests.tools.interpreters import try_interpreters
from tests.tools.javascripts import try_javascript
from tests.tools.keeps import try_keeps, try_kept_apart, try_kept_node
from tests.tools.libuvs import try_libuv
from tests.tools.panes import try_panes
from tests.tools.races import try_healthy_lua, try_healthy_node, try_races, try_uvloop
from tests.tools.records import try_logs, try_recorded, try_records
from tests.tools.shorts import try_shorter
from tests.tools.starts import try_starts
from tests.tools.trace_events import try_trace_events
from tests.tools.besides import try_besides
from tests.tools.truths import try_truths
from tests.tools.unharmed import try_unharmed, try_unharmed_more
from tests.tools.views import try_views
from tests.tools.whys import try_whys
from tests.tools.words import try_old_words
from uvt.conversation import Conversation, Fault, Script
from uvt.inputs import read_input
from uvt.notes import Notes

HERE = Path(__file__).resolve().parent
SHELL = str(ROOT / "tools" / "uvt" / "uvt-shell")
SECONDS = 300


# ---- the conversation


def try_conversation(tries: Tries) -> None:
    script, commands = read_input(EXAMPLES / "two-timers.uvt")
    with Conversation(script) as talk:
        tries.check("the commands behind a script", commands == ["tick 5", "loop 100"], commands)
        tries.check("an answer of a line", talk.ask("tick 5") == ["out tick 5"])
        # as docs/TOUR.md shows it
        lines = talk.ask("loop 100")
        tries.check("an answer of many lines", lines[-4:] == ["call b 1.0", "call a 0.0", "end 0", "refused ended"], lines)
        tries.check("the answer to no command is its own", talk.ask("?") == ["bad command"])
        length = talk.length
        tries.check("an answer that looks as the end does", talk.ask("back 1") == [f"at {length - 1}"])
        tries.check("an answer that is empty", talk.ask("quit the loop") == ["bad command"])
        state = talk.state()
        tries.check("the numbers of a state", (state.numbers["steps"], state.numbers["clock"]) == (length - 1, 5), state.numbers)
        tries.check("what names are bound to", state.bound == {"a": "0.0", "b": "1.0"}, state.bound)
        tries.check("a slot by its name", state.slot_of("b").values["begun"] == "1", state.slot_of("b"))
        tries.check("a recording's steps", talk.recording().steps == ["tick 5"] + ["loop"] * (length - 2))


def try_faults(tries: Tries) -> None:
    try:
        Conversation(Script(["var a", "main strat a 1 0"]))
        told = ""
    except Fault as fault:
        told = str(fault)
    tries.check("a script that is none", told == "uvt: bad script line 2: main strat a 1 0", told)
    for name, wanted in (("nowhere.uvt", "No such file"), ("sent-session.rec", None)):
        try:
            read_input(EXAMPLES / name)
            told = None
        except Fault as fault:
            told = str(fault)
        tries.check(f"{name} as input", told == wanted if wanted is None else wanted in (told or ""), told)


# ---- the shell over a pipe


def shelled(path: Path, lines: list[str]) -> tuple[list[str], int, str]:
    ran = limited([SHELL, str(path)], input="\n".join(lines) + "\n", capture_output=True, text=True, env=os.environ)
    return ran.stdout.splitlines(), ran.returncode, ran.stderr


def try_shell(tries: Tries) -> None:
    with tempfile.TemporaryDirectory() as folder:
        # the example's script, and of its commands those that are steps: its pages show what they print
        path = Path(folder) / "never-called.uvt"
        script, _ = read_input(EXAMPLES / "never-called.uvt")
        path.write_text("\n".join([*script.lines, "begin", "loop 100", "tick 5", "loop 100", "tick 4", "loop 100"]) + "\n")
        try_words(tries, path, WORDS)
    try_words(tries, CONVERSATIONS / f"{BEFORE_SENDS}.uvt", IO_WORDS)
    out, status, told = shelled(EXAMPLES / "nowhere.uvt", [])
    tries.check("shell, no such file", status == 1 and "No such file" in told and "Traceback" not in told, told)
    out, status, told = shelled(EXAMPLES / "sent-session.rec", ["trace"])
    tries.check("shell, a recording", status == 0 and any(line.startswith("after ") for line in out), f"{out} {told}")


# Lines, and what has to stand in some line of the answer.
Words = list[tuple[str, list[str], list[str]]]
WORDS: Words = [
    ("the next line has a mark", ["run", "list"], ["    8 > main init timeout timer"]),
    ("an empty line does the last command again", ["run", "step", ""], ["init timeout timer = 0.0", "init retry timer = 1.0"]),
    ("back to who closed it", ["break retry", "reverse-continue"], ["break ok", "break at 29", "closed retry 1.0"]),
    ("a name whose handle is gone", ["print retry"], ["retry: 1.0 is gone; called 1 closed"]),
    ("a callback to its end", ["goto 18", "s", "finish"], ["call timeout 0.0", "close retry = ok"]),
    ("the nearest word", ["stpe"], ["no command `stpe`: did you mean `step`?"]),
    ("the nearest name", ["print retri"], ["no name `retri`: did you mean `retry`?"]),
    ("a name that is none", ["break nobody"], ["nobody is no name, code or section"]),
    ("a checkpoint", ["run", "s 3", "checkpoint", "s", "goto #1"], ["checkpoint #1: at 3", "at 3, the main program, at its line 3"]),
    ("a length that is none", ["goto 99999"], ["and what was taken back doesn't reach to 99999"]),
    ("the program's own words", ["run", "loop 2"], ["init timeout timer = 0.0", "init retry timer = 1.0"]),
    ("what isn't a command of the program", ["break code EBUZY"], ["bad command", "did you mean `break code EBUSY`?"]),
    ("why it was never called", ["why retry"], ["    closed at step 20 by line 14: on timeout close retry"]),
    ("why, where it isn't closed yet", ["goto 10", "why retry"], ["never called: up to the end, at 10, nobody starts it"]),
    ("what was recorded is gone along", ["run", "break closed", "delete", "continue"], ["call reply 2.0", "refused ended"]),
    (
        "another session, and the recorded one again",
        ["goto 18", "tick 1", "restore", "where"],
        ["from here on it is another session: 26 recorded steps are left out; `restore` brings them back", "26 recorded steps come behind this"],
    ),
    (
        "breaks by their numbers",
        ["break retry", "break ESTALE", "watch reply", "delete 1", "info breaks"],
        ["#2 break code ESTALE", "#3 watch reply"],
    ),
    ("a line", ["run", "break 15", "continue"], ["break line 15, #1, at 42", "line 15 comes next"]),
    ("a line, back", ["break 15", "reverse-continue", "where"], ["break line 15, #1, at 42"]),
    ("a line that is none", ["break 99"], ["the script has no line 99"]),
    ("a break for once", ["run", "tbreak timeout", "continue", "info breaks"], ["call timeout 0.0", "no breaks"]),
    ("until", ["run", "until retry", "info breaks"], ["closed retry 1.0", "no breaks"]),
    (
        "a watch",
        ["run", "watch retry", "continue", "continue"],
        ["retry was nothing", "retry was 1.0 timer ref 1 active 0 closing 0", "retry is  1.0 timer ref 1 active 0 closing 1"],
    ),
    ("back to before a callback", ["goto 18", "step", "reverse-finish"], ["at 18"]),
    ("help", ["help next"], ["next: a step, and all of a callback that it begins"]),
    ("no I/O", ["io retry"], ["bad command", "the script has no line `io`, so it has no handles of I/O"]),
]
IO_WORDS: Words = [
    (
        "a callback of I/O is the next step",
        ["goto 8", "step", "where"],
        ["call r 0.0", "at 9, run once: polled (a callback of I/O left the poll, and nobody had woken it), in call 1 of `on r`"],
    ),
    ("over all of it", ["goto 8", "next"], ["call r 0.0", "send a = ok"]),
    ("back to the poll", ["goto 9", "reverse-step"], ["at 8, run once: poll infinite"]),
    ("the same step by hand", ["goto 8", "io r", "continue"], ["call r 0.0", "call a 1.0", "refused ended"]),
    ("and another one", ["goto 9", "loop 2", "io r"], ["from here on it is another session: "]),
    ("a break at it", ["run", "tbreak r", "continue"], ["call r 0.0", "break at 9"]),
    ("where nobody is called", ["goto 11", "where"], ["at 11, run once: done unwoken (nobody had woken the poll, so it calls nobody)"]),
    ("why it is late", ["why a"], ["step 24, call 1: an iteration later, for the send at step 10, in the same millisecond"]),
    ("a name that is none", ["io s"], ["bad command"]),
    ("what it is", ["help io"], ["io: the program's own; docs/FORMAT.md has it"]),
    (
        "handles",
        ["goto 9", "info handles", "print r"],
        ["0.0 io r ref 1 active 1 closing 0", "r = 0.0 io ref 1 active 1 closing 0; called 1 on; on no list"],
    ),
]


def try_words(tries: Tries, path: Path, cases: Words) -> None:
    for what, lines, wanted in cases:
        out, status, told = shelled(path, lines)
        found = all(any(want in line for line in out) for want in wanted)
        tries.check(f"shell, {what}", found and status == 0 and not told, f"{out} {told}")


# ---- what came, by the notes of a recording


def try_noted(tries: Tries) -> None:
    """The notes beside a recording say what came with a callback of I/O: the shell and `why` tell it."""
    script, commands = read_input(CONVERSATIONS / f"{BEFORE_SENDS}.uvt")
    with Conversation(script) as talk, tempfile.TemporaryDirectory() as folder:
        for it in commands:
            talk.ask(it)
        data = "".join(f"{it}\n" for it in talk.record()).encode()
        path = Path(folder) / "noted.rec"
        path.write_bytes(data)
        path.with_suffix(".notes").write_text(Notes(names={"r": ("tcp", "written by hand")}, what={"r": {1: "read:5"}}).text(data))
        out, status, told = shelled(path, ["goto 8", "step", "goto 8", "tick 1", "io r"])
        at = out.index("call r 0.0")
        tries.check("shell, what came", out[at + 1] == "    tcp: 5 bytes were read" and not status and not told, f"{out} {told}")
        tries.check("shell, what came in another session nobody says", out[-1] == "call r 0.0", out)
        ended = limited([str(ROOT / "tools" / "uvt" / "uvt-why"), "r", str(path)], capture_output=True, text=True, env=os.environ)
        tries.check("why, what came", "step 9, call 1: it left the poll: tcp: 5 bytes were read, and when nobody knows" in ended.stdout, ended.stdout)


# ---- the shell at a terminal


class Terminal:
    """A shell at a terminal of its own."""

    def __init__(self, path: Path, home: str) -> None:
        child, self.terminal = pty.fork()
        if child == 0:
            # (what is started in the background may have interrupts ignored)
            signal.signal(signal.SIGINT, signal.SIG_DFL)
            os.environ.update(HOME=home, TERM="dumb")
            os.execv(SHELL, [SHELL, str(path)])
        self.child = child
        self.seen = b""

    def type(self, text: bytes) -> None:
        os.write(self.terminal, text)

    def until(self, wanted: bytes) -> bytes:
        """What is printed up to this text, or in so many seconds. What came behind it is kept for the next one."""
        ends = time.monotonic() + SECONDS
        while wanted not in self.seen and time.monotonic() < ends:
            if select.select([self.terminal], [], [], 0.2)[0]:
                try:
                    self.seen += os.read(self.terminal, 65536)
                except OSError:
                    break
        before, found, self.seen = self.seen.partition(wanted)
        return before + found

    def end(self) -> int:
        self.type(b"\x04")
        self.until(b"\x00")
        os.close(self.terminal)
        return os.waitstatus_to_exitcode(os.waitpid(self.child, 0)[1])


def try_terminal(tries: Tries) -> None:
    with tempfile.TemporaryDirectory() as home:
        spin = Path(home) / "spin.uvt"
        spin.write_text("var watcher\nmain init watcher idle\nmain start watcher\nmain run default\n")
        shell = Terminal(spin, home)
        shell.until(b"(uvt) ")
        shell.type(b"continue\n")
        shell.until(b"call watcher")
        shell.type(b"\x03")
        seen = shell.until(b"stopped, at ")
        tries.check("terminal, an interrupt stops `continue`", b"stopped, at " in seen, seen[-200:])
        shell.until(b"(uvt) ")
        shell.type(b"stpe\n")
        seen = shell.until(b"did you mean `step`?")
        tries.check("terminal, an unknown word", b"no command `stpe`: did you mean `step`?" in seen, seen[-200:])
        shell.until(b"(uvt) ")
        shell.type(b"print wat\t\n")
        seen = shell.until(b"idle ref 1 active 1")
        tries.check("terminal, a name is completed", b"watcher = 0.0 idle ref 1 active 1" in seen, seen[-200:])
        shell.until(b"(uvt) ")
        shell.type(b"\x1b[A\n")
        seen = shell.until(b"idle ref 1 active 1")
        tries.check("terminal, the last command comes again", b"watcher = 0.0 idle ref 1 active 1" in seen, seen[-200:])
        shell.until(b"(uvt) ")
        tries.check("terminal, the end of the input", shell.end() == 0)


PARTS: dict[str, Callable[[Tries], None]] = {
    "conversation": try_conversation,
    "faults": try_faults,
    "shell": try_shell,
    "noted": try_noted,
    "terminal": try_terminal,
    "views": try_views,
    "trace-events": try_trace_events,
    "devtools": try_devtools,
    "adapter": try_adapter,
    "editors": try_editors,
    "libuv": try_libuv,
    "whys": try_whys,
    "find": try_find,
    "truths": try_truths,
    "besides": try_besides,
    "records": try_records,
    "logs": try_logs,
    "recorded": try_recorded,
    "keeps": try_keeps,
    "kept-apart": try_kept_apart,
    "kept-node": try_kept_node,
    "attaches": try_attaches,
    "held": try_held,
    "harms": try_harms,
    "forces": try_forces,
    "hunted": try_hunted,
    "hanging": try_hanging,
    "started": try_started,
    "told": try_told,
    "races": try_races,
    "uvloop": try_uvloop,
    "healthy-node": try_healthy_node,
    "healthy-lua": try_healthy_lua,
    "javascript": try_javascript,
    "interpreters": try_interpreters,
    "shorter": try_shorter,
    "fuzz": try_fuzz,
    "starts": try_starts,
    "unharmed": try_unharmed,
    "unharmed-more": try_unharmed_more,
    "words": try_old_words,
    "form": try_form,
}
# Those that take longest, the longest one first.
LONGEST = (
    *("hanging", "races", "healthy-node", "unharmed", "keeps", "started", "hunted", "told", "unharmed-more", "uvloop", "forces", "form", "fuzz"),
    *("logs", "harms", "recorded", "kept-apart", "records", "healthy-lua", "starts", "find", "attaches", "kept-node", "trace-events", "javascript"),
)


def in_order(names: Iterable[str]) -> list[str]:
    """The longest ones first."""
    return sorted(names, key=lambda name: LONGEST.index(name) if name in LONGEST else len(LONGEST))


def main() -> int:
    reader = argparse.ArgumentParser(description=__doc__, formatter_class=argparse.RawDescriptionHelpFormatter)
    reader.add_argument("--program", metavar="PATH", help="the program to be talked to, in place of that of ./uvt build")
    reader.add_argument("--panes", action="store_true", help="try the shell in tmux as well")
    reader.add_argument("-j", dest="jobs", metavar="N", type=int, default=1, help="so many parts at a time, each by a process of its own")
    reader.add_argument("parts", nargs="*", metavar="PART", help=f"only these parts, of {', '.join(PARTS)}")
    asked = reader.parse_args()
    for name in asked.parts:
        if name not in PARTS:
            reader.error(f"there is no part {name}: they are {', '.join(PARTS)}")
    if asked.program:
        os.environ["UVT"] = asked.program
    tries, names = Tries("tools"), asked.parts or list(PARTS)
    if asked.jobs > 1 and len(names) > 1:
        words = [str(HERE / "run"), *(["--program", asked.program] if asked.program else [])]
        side_by_side(tries, [[*words, name] for name in in_order(names)], asked.jobs)
    else:
        for name in names:
            PARTS[name](tries)
    if asked.panes:
        try_panes(tries)
    return tries.end()
