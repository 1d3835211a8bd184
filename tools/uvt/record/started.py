"""Starts a program under the recorder, and says why one could not be, or why nothing of it was recorded."""

from __future__ import annotations

import contextlib
import os
import re
import shlex
import shutil
import signal
import struct
import subprocess
from dataclasses import dataclass
from pathlib import Path
from typing import Iterator

from uvt.conversation import Fault
from uvt.notes import signal_name
from uvt.record.compiled import recorder

HOOKS = Path(__file__).resolve().parent
# What every libuv has in it, as a name of the environment.
WITHIN = b"UV_THREADPOOL_SIZE"
# Programs that run a file of somebody's; and their words behind which there is none.
RUNNERS = re.compile(r"node(js)?|python[\d.]*|pypy[\d.]*|lua(jit)?[\d.]*")
WITHOUT = {"-c", "-e", "-m", "-p", "-i", "--eval", "--print", "--test"}


def sanitizers(program: str) -> list[str]:
    """The runtimes that have to stand in front of all other libraries of the program, where it needs any."""
    path = shutil.which(program)
    if not path:
        return []
    try:
        ran = subprocess.run(["ldd", path], capture_output=True, text=True, errors="replace", timeout=120)
    except (OSError, subprocess.TimeoutExpired):
        return []
    return re.findall(r"=> (\S*/lib(?:asan|hwasan|tsan)\.so\S*)", ran.stdout)


def why_not(program: str, fault: OSError) -> str:
    """Why it could not be started, in a sentence: it may be a file of the recorder's own."""
    try:
        with open(program, "rb") as file:
            head = file.read(8)
    except OSError:
        head = b""
    if head.startswith(b"uvt-log"):
        return f"{program} is a log, and no program: uvt-record --log {program} makes recordings of it"
    if head.startswith(b"uvt "):
        return f"{program} is a recording already, and no program: uvt-why, uvt-shell and uvt-view take it"
    return f"{program} could not be started: {fault.strerror}"


def is_whole_by_itself(data: bytes) -> bool:
    """Is it a program that no dynamic linker starts?"""
    if data[:5] != b"\x7fELF\x02":
        return False
    (at,), (size, count) = struct.unpack_from("<Q", data, 32), struct.unpack_from("<HH", data, 54)
    INTERPRETER = 3
    return all(struct.unpack_from("<I", data, at + it * size)[0] != INTERPRETER for it in range(count))


def nothing_recorded(program: str, status: int) -> str:
    """Why there is no log, as far as that can be seen."""
    if sanitizers(program) and status != 0:
        return f"{program} ended with status {status} before it called libuv: it is built with a sanitizer, whose runtime may want to be alone"
    try:
        data = Path(shutil.which(program) or program).read_bytes()
        if is_whole_by_itself(data):
            return f"{program} is linked statically, with its C library too: no recorder can be loaded into it"
    except (OSError, struct.error):
        data = b""
    if WITHIN in data:
        what = "it has one within it, but its functions have no symbols (strip), or are no functions any more (LTO)"
        return f"{program} called nothing of a libuv that can be found: {what}"
    return f"{program} called nothing of a libuv: none that is a shared library, and none within it"


def ended(status: int) -> str:
    """How the program ended, where that is worth a word."""
    if status < 0:
        return f"the program was ended by {signal_name(-status)}: its log goes up to its last event"
    return f"the program ended with status {status}" if status else ""


def with_hooks(environment: dict[str, str]) -> dict[str, str]:
    """What node, Python and Lua load before the program. Any other program passes these words by."""
    hook = str(HOOKS / "node" / "hook.js").replace("\\", "\\\\").replace('"', '\\"')
    return environment | {
        "UVT_RECORDER": str(recorder()),
        "NODE_OPTIONS": " ".join(filter(None, [f'--require "{hook}"', environment.get("NODE_OPTIONS", "")])),
        "PYTHONPATH": ":".join(filter(None, [str(HOOKS / "python"), environment.get("PYTHONPATH", "")])),
        "LUA_INIT": environment.get("LUA_INIT", f"@{HOOKS / 'lua' / 'hook.lua'}"),
    }


@dataclass
class Keep:
    """What is kept of a log: so many windows of a MiB; and apart what took so many ms, 0: nothing."""

    windows: int
    late: int = 0

    def environment(self) -> dict[str, str]:
        return {"UVT_KEEP": str(self.windows)} | ({"UVT_LATE": str(self.late)} if self.late else {})


@contextlib.contextmanager
def in_front_of(program: subprocess.Popen[bytes]) -> Iterator[None]:
    """An interrupt at the terminal is for the program meanwhile; what ends this tool ends the program, and its log is taken."""
    before = {signal.SIGINT: signal.signal(signal.SIGINT, lambda *_: None)}
    before |= {it: signal.signal(it, lambda *_: program.terminate()) for it in (signal.SIGTERM, signal.SIGHUP)}
    try:
        yield
    finally:
        for number, handler in before.items():
            signal.signal(number, handler)


def run_program(words: list[str], prefix: Path, bare: bool, keep: Keep | None = None) -> tuple[int, int]:
    """Runs it with the recorder, which writes PREFIX.PID.log. Answers its process and its status."""
    # (a ring stays beside the program, which may go on without this tool)
    environment = dict(os.environ, UVT_LOG=str(prefix)) | (keep.environment() if keep else {"UVT_ENDS_WITH": str(os.getpid())})
    environment["LD_PRELOAD"] = " ".join(filter(None, [*sanitizers(words[0]), str(recorder()), os.environ.get("LD_PRELOAD", "")]))
    try:
        program = subprocess.Popen(words, env=environment if bare else with_hooks(environment))
    except OSError as fault:
        raise Fault(why_not(words[0], fault)) from None
    with in_front_of(program):
        return program.pid, program.wait()


def name_for(words: list[str]) -> str:
    """What the files are called where nobody says: as the program, or as the file that it runs (`node app.js`: `app`)."""
    program = Path(words[0]).name
    for it in words[1:] if RUNNERS.fullmatch(program) else []:
        if it in WITHOUT:
            break
        if not it.startswith("-") and (Path(it).is_file() or Path(f"{it}.js").is_file()):
            return Path(it).stem or program
    return program


def words_to_start_with(name: str | None, keep: Keep, bare: bool) -> list[str]:
    """What has to be in the environment of a program that somebody else starts, a line each, as a shell and systemd's EnvironmentFile take it."""
    preload = " ".join(filter(None, [str(recorder()), os.environ.get("LD_PRELOAD", "")]))
    ours = {"UVT_LOG": str(Path(name or "uvt").resolve())} | keep.environment() | {"LD_PRELOAD": preload}
    if not bare:
        ours |= {name: it for name, it in with_hooks(dict(os.environ)).items() if it != os.environ.get(name)}
    return [f"{name}={shlex.quote(it)}" for name, it in ours.items()]
