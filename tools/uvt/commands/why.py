"""Why a callback ran late, or never.

  ./uvt why NAME < FILE    a recording, or a script with `begin` and the steps behind it
  ./uvt why NAME FILE      the same
  ./uvt why FILE           without a name: which names there are, and what stands out. The longest callbacks, the latest timers, sends
                           and requests, when the pool was full, what kept the loop alive, who spun; each with its step.
                           (`./uvt why < FILE` does so too)
  ./uvt why [NAME] X.ring  of what was kept of a program (./uvt record --keep): it is recorded first, into this folder
  ./uvt why FILE.log       what a log says by itself, at once: the longest callbacks, and who waited for the loop. Before ./uvt build the log
                           beside a long recording is told so first, since the whole answer takes longer then

  ./uvt why --beside GOOD.rec BAD.rec    two recordings of one program: what took longer or was later in the second, and why, where the two part, and
                           what is in one of them alone

For each callback of the name it says when it was due or asked for, by which line, when it was called, and what stood between; for
each that never came, why. Each answer names steps: `goto N` of ./uvt shell goes there. Where the commands of a script go back,
and on in another way, the longest of the ways is told. Of a recording that ./uvt record made it reads the notes beside it, too.

Of a program in node NAME may also be a function of JavaScript (`save`), or a line of it (`app.js:12`) that began one, started a timer, or
asked for a request of the pool. So it is in Python on uvloop and in Lua on luv.

UVT names another program than the launcher ./uvt.
"""

from __future__ import annotations

import glob
import re
import sys
from pathlib import Path

from launch.tool import keeps_all, run_tool
from uvt import log_summary
from uvt.conversation import Fault, INSTALLED, Script, is_proved
from uvt.inputs import read_descriptor, read_input
from uvt.javascript_pieces import PLACE, fitted
from uvt.overview import Overview
from uvt.progress import Teller
from uvt.record import ring
from uvt.walk import Walk
from uvt.ways import longest_way
from uvt.why import why
from uvt.why_javascript import WhyJavaScript


def read_asked(words: list[str]) -> tuple[str | None, Path | None]:
    """The name and the file that were typed, in either order; None for what wasn't."""
    lines = [it for it in words if PLACE.fullmatch(it) and not Path(it).is_file()]
    files = [it for it in words if it not in lines and ("/" in it or "." in it or Path(it).is_file())]
    names = [it for it in words if it not in files]
    if len(files) > 1 or len(names) > 1:
        raise Fault(f"one name and one file, and not {' and '.join(f'`{it}`' for it in words)}")
    return names[0] if names else None, Path(files[0]) if files else None


def known(script: Script, name: str) -> str:
    if name not in script.names():
        import difflib

        near = difflib.get_close_matches(name, script.names(), 1)
        raise Fault(f"no name `{name}`" + (f": did you mean `{near[0]}`?" if near else ""))
    return name


# A recording of so many steps is long for the program before its proofs.
MANY = 1_000_000


def log_of(path: Path) -> bytes:
    """The log beside a recording, if there is one."""
    try:
        return path.with_name(re.sub(r"(\.\d+)?(\.lift)?\.rec$", ".log", path.name)).read_bytes()
    except OSError:
        return b""


def told_early(path: Path, script: Script, steps: int) -> None:
    """What the log of a long recording says is told before the loop is led through it, where that takes long."""
    found = log_summary.glances(data) if log_summary.is_log(data := log_of(path)) else {}
    if script.notes.loop in found:
        print(f"before the loop is led through its {steps} steps:", *found[script.notes.loop].answer(), "", sep="\n", flush=True)


def of_log(name: str | None, path: Path) -> list[str] | None:
    """What a log says by itself; None of another file."""
    try:
        with path.open("rb") as file:
            if not log_summary.is_log(file.read(200)):
                return None
            file.seek(0)
            data = file.read()
    except (OSError, ValueError):
        return None
    if name is not None:
        raise Fault(f"this is a log of a program: `uvt-record --log {path}` makes recordings of it, which can be asked about {name}")
    return [*log_summary.told(data), f"make a recording, and ask that: {'uvt' if INSTALLED else './uvt'} record --log {path}"]


def of_ring(path: Path) -> Path:
    """The recording that is made of a ring, beside where we are: of its loops the one with the most in it."""
    # (what makes recordings takes as long to load as all the rest)
    from uvt.record.parts import Part
    from uvt.record.run import from_log

    before = set(Path().glob("*.rec"))
    from_log(path, None, Part(worst=True))
    made = [it for it in Path().glob(f"{glob.escape(ring.name_of(path))}*.rec") if it not in before or it.stat().st_mtime >= path.stat().st_mtime]
    if not made:
        raise Fault(f"{path}: nothing of it could be recorded")
    return max(made, key=lambda it: it.stat().st_size)


def answered(name: str | None, path: Path | None) -> list[str]:
    if path is None and sys.stdin.isatty():
        raise Fault("a recording or a script is wanted: ./uvt why NAME FILE, or ./uvt why NAME < FILE; --help says more")
    if path and ring.is_ring(path):
        path = of_ring(path)
    if path and (lines := of_log(name, path)):
        return lines
    script, commands = read_input(path) if path else read_descriptor(sys.stdin.buffer)
    of_javascript = name is not None and bool(script.notes.javascript) and name not in script.names()
    if name is not None and not of_javascript:
        known(script, name)
    if name is None and path and len(commands) > MANY and not is_proved():
        told_early(path, script, len(commands))
    teller = Teller("uvt-why", "steps")
    with Walk(script, longest_way(script, commands), tell=teller.tell) as walk:
        teller.done()
        if name is not None and of_javascript:
            return WhyJavaScript(walk).answer(name)
        if name is not None:
            return [row for line in why(walk, name) for row in (fitted(line) if script.notes.javascript else [line])]
        command = "uvt why" if INSTALLED else "./uvt why"
        return Overview(walk).answer(f"{command} NAME {path}" if path else f"{command} NAME < FILE")


def answered_beside(good: Path, words: list[str]) -> list[str]:
    name, bad = read_asked(words)
    if name is not None or bad is None:
        raise Fault("two recordings are wanted, and no name: ./uvt why --beside GOOD.rec BAD.rec")
    from uvt.beside import beside

    walks: list[Walk] = []
    try:
        for path in (good, bad):
            script, commands = read_input(path)
            walks.append(Walk(script, longest_way(script, commands)))
        return beside(walks[0], walks[1], (str(good), str(bad)))
    finally:
        for walk in walks:
            walk.close()


def answer(words: list[str], good: str | None) -> int:
    keeps_all()
    print("\n".join(answered_beside(Path(good), words) if good else answered(*read_asked(words))))
    return 0


def main() -> int:
    # (names and files alone need no reader of options, which takes longer to load than all the rest of this file)
    if not any(it.startswith("-") for it in sys.argv[1:]):
        return run_tool("uvt-why", lambda: answer(sys.argv[1:], None), failed=1)
    import argparse

    reader = argparse.ArgumentParser(description=__doc__, formatter_class=argparse.RawDescriptionHelpFormatter)
    reader.add_argument("words", nargs="*", metavar="NAME FILE", help="a name that the script declares, and a file; both may be left out")
    reader.add_argument("--beside", metavar="GOOD.rec", help="another recording of the same program, with which that of FILE is compared")
    asked = reader.parse_args()
    return run_tool("uvt-why", lambda: answer(asked.words, asked.beside), failed=1)
