"""Tries the shell (tools/uvt/uvt-shell) in tmux, as somebody who types sees it: completion, history, an interrupt, an unknown word."""

from __future__ import annotations

import os
import re
import shlex
import shutil
import subprocess
import tempfile
import time
from pathlib import Path

from tests.helper import Check, Tries

ROOT = Path(__file__).resolve().parent.parent.parent
SHELL = str(ROOT / "tools" / "uvt" / "uvt-shell")
SECONDS = 30
# an idle handle that is called in each iteration: `continue` comes to no end
SPIN = "var watcher\nmain init watcher idle\nmain start watcher\nmain run default\n"


class Pane:
    """A shell in a server of tmux of its own."""

    def __init__(self, folder: Path, script: Path) -> None:
        self.socket = str(folder / "socket")
        home = {**os.environ, "HOME": str(folder), "INPUTRC": "/dev/null", "LC_ALL": "C.UTF-8"}
        self.environment = {name: value for name, value in home.items() if not name.startswith("TMUX")}
        # (tmux may lose the status of what ends in a pane, so it is printed there)
        asked = f"{shlex.quote(SHELL)} {shlex.quote(str(script))}; echo ended with $?; exec sleep 600"
        self.tmux("-f", "/dev/null", "new-session", "-d", "-x", "100", "-y", "30", asked)

    def tmux(self, *words: str) -> str:
        ran = subprocess.run(["tmux", "-S", self.socket, *words], capture_output=True, text=True, timeout=SECONDS, env=self.environment)
        return ran.stdout

    def type(self, *keys: str) -> None:
        """Types words as they are, and keys by their names: `Tab`, `Enter`, `Up`, `C-c`."""
        for key in keys:
            named = key in ("Tab", "Enter", "Up", "Down") or re.fullmatch("C-[a-z]", key) is not None
            self.tmux("send-keys", *([] if named else ["-l"]), key)

    def screen(self) -> str:
        return self.tmux("capture-pane", "-p", "-e").rstrip()

    def until(self, wanted: str) -> tuple[bool, str]:
        """Whether the screen comes to show this, and what it shows with its colours."""
        ends = time.monotonic() + SECONDS
        while True:
            shown = self.screen()
            found = re.search(wanted, re.sub(r"\x1b\[[0-9;]*m", "", shown)) is not None
            if found or time.monotonic() > ends:
                return found, shown
            time.sleep(0.02)

    def close(self) -> None:
        self.tmux("kill-session")


PROMPT = r"\(uvt\)"
# What is typed, one after another, and what the end of the screen shows then.
TYPED: list[tuple[str, tuple[str, ...], str]] = [
    ("a prompt", (), rf"    2 > main init watcher idle\n{PROMPT}$"),
    ("a command is completed", ("pri", "Tab"), rf"\n{PROMPT} print$"),
    ("a name is completed", ("wat", "Tab"), rf"\n{PROMPT} print watcher$"),
    ("the command that was completed", ("Enter",), rf"\n{PROMPT} print watcher\nwatcher: not made yet; never called\n{PROMPT}$"),
    ("what a word may be", ("rever", "Tab", "Tab", "Tab"), rf"reverse-continue +reverse-next +reverse-step *\n{PROMPT} reverse-$"),
    ("the end of a word", ("s", "Tab", "Enter"), rf"\n{PROMPT} reverse-step\nrefused range\nat 0, the main program, at its line 0\n.*\n{PROMPT}$"),
    ("sections and codes are completed", ("break EB", "Tab", "U", "Tab", "Enter"), rf"\n{PROMPT} break EBUSY\nbreak ok\n{PROMPT}$"),
    ("an unknown word", ("stpe", "Enter"), rf"\n{PROMPT} stpe\nno command `stpe`: did you mean `step`\?\n{PROMPT}$"),
    ("an unknown word, far from all", ("zzzzz", "Enter"), rf"\n{PROMPT} zzzzz\nno command `zzzzz`; `help` has them all\n{PROMPT}$"),
    ("the last command but three", ("Up", "Up", "Up", "Up"), rf"\n{PROMPT} reverse-step$"),
    ("on to a later one", ("Down", "Down", "Down"), rf"\n{PROMPT} zzzzz$"),
    ("an interrupt of a line", ("C-c",), rf"\n{PROMPT} zzzzz(\^C)?\n{PROMPT}$"),
    ("a command is searched", ("C-r", "prin"), r"`prin': print watcher$"),
    ("what was searched", ("Enter",), rf"\n{PROMPT} print watcher\nwatcher: not made yet; never called\n{PROMPT}$"),
    ("a step", ("step", "Enter"), rf"\n{PROMPT} step\ninit watcher idle = 0.0\n{PROMPT}$"),
    ("an empty line does it again", ("Enter",), rf"\n{PROMPT}\nstart watcher = ok\n{PROMPT}$"),
]


def try_typing(check: Check, pane: Pane) -> None:
    for what, keys, wanted in TYPED:
        pane.type(*keys)
        found, shown = pane.until(wanted)
        check(f"tmux, {what}", found, shown)


def try_interrupt(check: Check, pane: Pane) -> None:
    """Ctrl-C in `continue`: the shell goes on where it stopped."""
    pane.type("continue", "Enter")
    found, shown = pane.until("call watcher 0.0\n(.*\n)*call watcher 0.0")
    check("tmux, it goes on", found and "\x1b[1mcall watcher 0.0" in shown, shown)
    pane.type("C-c")
    found, shown = pane.until(rf"stopped, at \d+\n{PROMPT}$")
    check("tmux, an interrupt stops `continue`", found, shown)
    at = re.findall(r"stopped, at (\d+)", shown)[-1] if found else "?"
    pane.type("where", "Enter")
    found, shown = pane.until(rf"\n{PROMPT} where\nat {at}, run default: .*\n(.*\n)?{PROMPT}$")
    check("tmux, where it stopped", found and int(at) > 1000, shown)
    pane.type("reverse-continue", "Enter")
    found, shown = pane.until(rf"back to the start\nat 0\nat 0, the main program, at its line 0\n.*\n{PROMPT}$")
    check("tmux, and back from there", found, shown)


def try_panes(tries: Tries) -> None:
    if not shutil.which("tmux"):
        print("tools: there is no tmux here: the shell wasn't tried in it", flush=True)
        return
    with tempfile.TemporaryDirectory() as name:
        folder = Path(name)
        script = folder / "spin.uvt"
        script.write_text(SPIN)
        for part in ((try_typing, try_interrupt), (try_kept,)):
            pane = Pane(folder, script)
            try:
                for it in part:
                    it(tries.check, pane)
                pane.type("C-d")
                found, shown = pane.until("ended with 0$")
                tries.check("tmux, the end of the input", found, shown)
            finally:
                pane.close()


def try_kept(check: Check, pane: Pane) -> None:
    """A shell that is started later has what was typed before."""
    pane.until(rf"{PROMPT}$")
    pane.type("Up", "Up")
    found, shown = pane.until(rf"\n{PROMPT} where$")
    check("tmux, the history of the last time", found, shown)
    # (the end of the input is one at an empty line alone)
    pane.type("C-c")
    found, shown = pane.until(rf"\n{PROMPT} where(\^C)?\n{PROMPT}$")
    check("tmux, an empty line again", found, shown)
