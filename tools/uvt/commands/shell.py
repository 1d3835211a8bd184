"""A shell for `uvt debug` with history, completion and gdb's words.

  ./uvt shell FILE    a script, or a recording. The commands behind its `begin` are done first, without a word
  ./uvt shell         asks for nothing but commands: the loop of an empty script

The words are gdb's and rr's (step, next, continue, until, finish, reverse-step, reverse-next, reverse-continue, reverse-finish, break,
tbreak, watch, delete, list, info, print, run, checkpoint, goto, where, restore) and the program's own (docs/FORMAT.md). `help` has them
all. An empty line does the last command again, and Ctrl-C stops a long `continue`.

It talks with the program that `./uvt` would start; UVT names another one.
"""

from __future__ import annotations

import argparse
import sys
from pathlib import Path

from launch.tool import run_tool
from uvt.conversation import Conversation, Script, home
from uvt.inputs import read_input
from uvt.shell import Quit, Shell
from uvt.ways import longest_way

HISTORY = home() / ".uvt_history"


def with_history(shell: Shell) -> None:
    """History and completion, where the terminal can have them."""
    try:
        import readline
    except ImportError:
        return
    found: list[str] = []

    def complete(word: str, number: int) -> str | None:
        if number == 0:
            found[:] = shell.complete(readline.get_line_buffer()[: readline.get_begidx()], word)
        return found[number] + " " if number < len(found) else None

    readline.set_completer(complete)
    readline.set_completer_delims(" ")
    readline.parse_and_bind("tab: complete")
    try:
        readline.read_history_file(HISTORY)
    except OSError:
        pass


def keep_history() -> None:
    try:
        import readline

        readline.write_history_file(HISTORY)
    except (ImportError, OSError):
        pass


def converse(shell: Shell, at_terminal: bool) -> None:
    """Asks for one line after another, up to the end of the input or `quit`."""
    while True:
        try:
            line = input("(uvt) " if at_terminal else "")
        except EOFError:
            return
        except KeyboardInterrupt:
            print()
            continue
        try:
            shell.do(line)
        except Quit:
            return
        except KeyboardInterrupt:
            print("stopped")


def talk_about(path: Path | None) -> int:
    at_terminal = sys.stdin.isatty() and sys.stdout.isatty()
    script, commands = read_input(path) if path else (Script([]), [])
    steps = longest_way(script, commands)
    with Conversation(script) as talk:
        for command in commands if steps is not commands else []:
            talk.ask(command)
        for _ in talk.ask_each(commands if steps is commands else []):
            pass
        # (of single steps those that were refused don't count)
        shell = Shell(talk, print, at_terminal, talk.recording().steps if steps is commands else steps)
        shell.part()
        if at_terminal:
            with_history(shell)
        shell.do_where([])
        converse(shell, at_terminal)
        if at_terminal:
            keep_history()
    return 0


def main() -> int:
    reader = argparse.ArgumentParser(description=__doc__, formatter_class=argparse.RawDescriptionHelpFormatter)
    reader.add_argument("file", nargs="?", type=Path, metavar="FILE", help="a script or a recording")
    asked = reader.parse_args()
    return run_tool("uvt-shell", lambda: talk_about(asked.file), failed=1)
