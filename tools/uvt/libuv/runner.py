"""Scripts on the real libuv: the runner of tools/uvt/libuv is built where need be, and runs them.

The library is the installed one, or the one that is a part of node.
"""

from __future__ import annotations

import os
import shutil
import subprocess
import tempfile
from dataclasses import dataclass
from pathlib import Path

from uvt.codes import SECTIONS as ALL_SECTIONS
from uvt.conversation import OUT, ROOT, Fault

SOURCES = ROOT / "tools" / "uvt" / "libuv"
BUILT = OUT / "libuv"
SECONDS = 600
LOAD = "require(process.argv[1]).run(process.argv[2], process.argv[3])"

# libuv counts the clock's nanoseconds in 64 bits; no clock may go past this many ms.
LAST_MS = 2**64 // 10**6


@dataclass
class Library:
    """A libuv that scripts can be run on."""

    version: str
    words: list[str]
    preloaded: Path | None = None

    def order(self) -> str:
        """Which order of the loop it has: that before 1.45, or that from 1.45 on."""
        return "1.44" if tuple(int(it) for it in self.version.split(".")[:2]) < (1, 45) else "1.45"


def make(target: str, absent: str) -> None:
    """Builds the runner, or says why there is none."""
    for word, what in (("make", "`make`"), (os.environ.get("CC", "cc"), "a C compiler")):
        if shutil.which(word) is None:
            raise Fault(f"the runner can't be built: there is no {what} here")
    ran = subprocess.run(["make", "-s", "-C", str(SOURCES), f"out={BUILT}", target], capture_output=True, text=True)
    if ran.returncode != 0:
        said = ran.stdout + ran.stderr
        # the compiler finds no header, or the linker no library
        if "uv.h" in said or "node_api.h" in said or "-luv" in said:
            raise Fault(absent)
        raise Fault("the runner can't be built: " + (said.strip().splitlines() or ["make fails"])[0])


def installed() -> Library:
    make("run", "libuv isn't installed here with its headers (Debian has them in the package libuv1-dev)")
    runner = str(BUILT / "libuv-run")
    asked = subprocess.run([runner, "--version"], capture_output=True, text=True)
    if asked.returncode != 0:
        raise Fault("the runner doesn't start: " + asked.stderr.strip())
    return Library(asked.stdout.strip(), [runner])


def of_node() -> Library:
    if shutil.which("node") is None:
        raise Fault("there is no node here")
    make("addon", "node isn't installed here with its headers (/usr/include/node, or what NODE_HEADERS names)")
    addon = BUILT / "libuv-run.node"
    asked = subprocess.run(["node", "-p", "process.versions.uv"], capture_output=True, text=True)
    if asked.returncode != 0:
        raise Fault("node doesn't start: " + asked.stderr.strip())
    return Library(asked.stdout.strip(), ["node", "-e", LOAD, str(addon)], addon)


def run_programs(library: Library, programs: dict[str, str], workers: int) -> dict[str, list[str]]:
    """The lines of each program, by its name. All of them have so many workers."""
    environment = dict(os.environ, UV_THREADPOOL_SIZE=str(workers), UV_USE_IO_URING="0")
    if library.preloaded:
        environment["LD_PRELOAD"] = str(library.preloaded)
    with tempfile.TemporaryDirectory(prefix="uvt-libuv-") as folder:
        given, printed = Path(folder) / "given", Path(folder) / "printed"
        given.write_text("".join(f"### {name}\n{text}\n" for name, text in programs.items()))
        try:
            ran = subprocess.run(library.words + [str(given), str(printed)], env=environment, capture_output=True, text=True, timeout=SECONDS)
        except subprocess.TimeoutExpired:
            raise Fault(f"libuv {library.version} is not through after {SECONDS} seconds") from None
        if ran.returncode != 0:
            said = ran.stderr.strip().splitlines()
            raise Fault(f"the runner ends with status {ran.returncode}" + (f": {said[-1]}" if said else ""))
        return cut(printed.read_text())


def cut(text: str) -> dict[str, list[str]]:
    found: dict[str, list[str]] = {}
    for part in text.split("### ")[1:]:
        name, _, lines = part.partition("\n")
        found[name] = lines.rstrip("\n").split("\n")
    return found


# The lines of uvt that libuv's runs have no counterpart of.
SECTIONS = frozenset(ALL_SECTIONS) - {"poll"}


def common(line: str) -> str | None:
    """A line of uvt as the runner prints it, or None where it prints none: a request's digest is left out."""
    if line in SECTIONS:
        return None
    words = line.split(" ")
    return " ".join(words[:4]) if words[0] == "after" and len(words) == 5 else line
