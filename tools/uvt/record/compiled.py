"""The recorder, compiled on the machine where it records."""

from __future__ import annotations

import contextlib
import fcntl
import os
import re
import shutil
import subprocess
import sys
import time
from pathlib import Path

from uvt.conversation import OUT, Fault

RECORDER = Path(__file__).resolve().parent / "recorder"
BUILT = OUT / "recorder" / "recorder.so"


def recorder(forcing: bool = False) -> Path:
    """The recorder, or that which forces an order as well, compiled where that isn't done yet or its sources are newer."""
    built = BUILT.with_name("force.so") if forcing else BUILT
    if is_new(built, forcing):
        return built
    compiler = shutil.which("cc") or shutil.which("gcc") or shutil.which("clang")
    if not compiler:
        raise Fault("there is no C compiler, and the recorder has to be compiled once")
    if re.search("[ :]", str(built)):
        raise Fault(f"{built.parent}: a library that is preloaded can't lie in a folder with a space or a colon in its name")
    try:
        built.parent.mkdir(parents=True, exist_ok=True)
        with built.with_suffix(".lock").open("w") as lock:
            # (another call may be at it: one of them compiles, and the others wait)
            fcntl.flock(lock, fcntl.LOCK_EX)
            if not is_new(built, forcing):
                compile_recorder(compiler, built, forcing)
    except OSError as fault:
        raise Fault(f"{fault.filename or built.parent}: {fault.strerror}") from None
    return built


def sources_of(forcing: bool) -> list[Path]:
    return [it for it in sorted(RECORDER.glob("*.c")) if forcing or not it.name.startswith("force")]


def is_new(built: Path, forcing: bool) -> bool:
    """Is it there, and no source newer?"""
    newest = max(it.stat().st_mtime for it in [*sources_of(forcing), *RECORDER.glob("*.h")])
    return built.is_file() and built.stat().st_mtime >= newest


def compile_anew() -> None:
    """What it lacks may be there the next time: then it is compiled again. (It stays until then: others may be about to preload it.)"""
    for it in (BUILT, BUILT.with_name("force.so")):
        with contextlib.suppress(OSError):
            os.utime(it, (0, 0))


def compile_recorder(compiler: str, built: Path, forcing: bool) -> None:
    """Compiles it, and says so: it takes some seconds, once."""
    what = "what forces an order" if forcing else "the recorder"
    print(f"uvt: compiling {what}, once", end="", file=sys.stderr, flush=True)
    began = time.monotonic()
    part = built.with_name(f"{built.stem}.{os.getpid()}.so")
    words = ["-O2", "-fPIC", "-shared", "-ftls-model=initial-exec", "-fno-optimize-sibling-calls", "-Wl,-z,defs"]
    words += [*(["-DFORCE"] if forcing else []), "-o", str(part)]
    ran = subprocess.run([compiler, *words, *map(str, sources_of(forcing)), "-ldl", "-lpthread"], capture_output=True, text=True)
    print(f" ({time.monotonic() - began:.1f} s)", file=sys.stderr, flush=True)
    if ran.returncode != 0:
        part.unlink(missing_ok=True)
        missing = "uv.h" in ran.stderr
        why = (
            "libuv's header uv.h isn't there (Debian: libuv1-dev)"
            if missing
            else next((it for it in ran.stderr.split("\n") if "error:" in it), ran.stderr.strip().split("\n")[0])
        )
        raise Fault(f"the recorder can't be compiled: {why}")
    part.replace(built)
