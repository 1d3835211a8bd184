"""A ring of the recorder (recorder/ring.c): the last windows of a log. They are put in their order behind the words to which their lines refer.

The files may be copied while the program runs: a window that is being written is taken up to there.
"""

from __future__ import annotations

import glob
import os
import re
import time
from dataclasses import dataclass
from pathlib import Path
from typing import BinaryIO

from uvt.conversation import Fault
from uvt.record.now import lines_of

WINDOW = 1 << 20
MARK = b"- W "
# So long is enough for a window's first line.
FIRST = 64
# How often a copy is made anew where the program has gone on to another window meanwhile.
TRIES = 100
# So many windows are taken of the ring that was kept apart before.
PAST = 4
RING = re.compile(r"(.*\.[\d-]+)(?:\.late-\d+)?\.ring")
BASE = re.compile(rb"^- Z (\d{1,19})$", re.MULTILINE)


def number_of(window: bytes) -> int | None:
    """Which window it is, by its first line; None where it has none (it is being cleared)."""
    first, end, _ = window.partition(b"\n")
    return int(first[len(MARK) :]) if end and first.startswith(MARK) and first[len(MARK) :].isdigit() else None


def whole_lines(window: bytes) -> bytes:
    """What is written of it, without its first line."""
    text = window.partition(b"\0")[0]
    return text[: text.rfind(b"\n") + 1].partition(b"\n")[2]


def put_together(words: bytes, windows: dict[int, bytes]) -> bytes:
    """A log, as the recorder writes one without a ring."""
    known = sorted(windows)
    # (no gap: what stands before one isn't the log's any more)
    while known and known[-1] - known[0] != len(known) - 1:
        known.pop(0)
    first = [MARK + str(known[0]).encode() + b"\n"] if known else []
    return b"".join([words[: words.rfind(b"\n") + 1], *first, *(whole_lines(windows[it]) for it in known)])


# ---- a copy


def numbers_in(file: BinaryIO) -> dict[int, int]:
    """The windows by their numbers, and where each of them begins in the file."""
    found = {}
    for at in range(0, os.fstat(file.fileno()).st_size, WINDOW):
        if (number := number_of(os.pread(file.fileno(), FIRST, at))) is not None:
            found[number] = at
    return found


def windows_of(file: BinaryIO) -> dict[int, bytes]:
    """All windows, none of which was written over while it was read. (The newest is read last; if another one has begun by then it was cut.)"""
    windows: dict[int, bytes] = {}
    for _ in range(TRIES):
        found = numbers_in(file)
        missing = sorted(it for it in found if it not in windows)
        if not missing:
            break
        if windows:
            del windows[max(windows)]
            missing = sorted(it for it in found if it not in windows)
        for number in missing:
            data = os.pread(file.fileno(), WINDOW, found[number])
            if number_of(os.pread(file.fileno(), FIRST, found[number])) == number_of(data) == number:
                windows[number] = data
    return windows


def windows_before(windows: dict[int, bytes], path: Path) -> dict[int, bytes]:
    """A ring that began behind one that was kept apart has no past of its own: that one's last windows are it."""
    found = dict(windows)
    for other in path.parent.glob(f"{glob.escape(words_of(path).stem)}.*ring") if windows else []:
        if is_ring(other) and other.name != path.name:
            with other.open("rb") as file:
                places = numbers_in(file)
                for number in range(min(windows) - 1, max(0, min(windows) - 1 - PAST), -1):
                    if number not in places:
                        break
                    found[number] = os.pread(file.fileno(), WINDOW, places[number])
    return found


def copied(words: Path, ring: Path, path: Path) -> bytes:
    """The log of a ring, whose program may be running. (What is referred to stands in the words first, so they are read behind it.)"""
    try:
        with ring.open("rb") as file:
            windows = windows_before(windows_of(file), path)
        return put_together(words.read_bytes(), windows)
    except OSError as fault:
        raise Fault(f"{fault.filename or ring}: {fault.strerror}") from None


def is_ring(path: Path) -> bool:
    return RING.fullmatch(path.name) is not None and path.is_file()


def name_of(path: Path) -> str:
    """What is made of a ring is called so."""
    return path.name.removesuffix(".ring")


def words_of(path: Path) -> Path:
    """`PREFIX.PID.words` is beside `PREFIX.PID.ring` and `PREFIX.PID.late-N.ring`."""
    found = RING.fullmatch(path.name)
    return path.with_name(f"{found[1] if found else path.stem}.words")


def log_of(path: Path) -> bytes:
    """The log of a ring's file."""
    return copied(words_of(path), path, path)


# ---- that of a process


@dataclass
class Living:
    """The ring of a process that runs, and what the program is called."""

    words: Path
    ring: Path
    path: Path
    program: str
    process: int


def link_of(path: Path) -> str:
    """Where it leads; `` where it is gone (a program opens and closes files meanwhile)."""
    try:
        return os.readlink(path)
    except FileNotFoundError:
        return ""


def why_unseen(process: int) -> str:
    """Why there is nothing of it in /proc. (That may be mounted with hidepid.)"""
    try:
        os.kill(process, 0)
    except PermissionError:
        return "it is another user's, and isn't seen in /proc: it takes root"
    except OSError:
        pass
    return "there is no process of this number"


def ring_of_process(process: int) -> Living:
    """Its files, as it has them open: so it doesn't matter where they lie, or from where its folders are seen."""
    folder = Path(f"/proc/{process}")
    try:
        links = [(it, name) for it in (folder / "fd").iterdir() if (name := link_of(it))]
    except OSError as fault:
        why = why_unseen(process) if isinstance(fault, FileNotFoundError) else fault.strerror
        raise Fault(f"process {process}: {why}") from None
    words = [it for it, name in links if name.removesuffix(" (deleted)").endswith(".words")]
    ring = [it for it, name in links if RING.fullmatch(Path(name.removesuffix(" (deleted)")).name)]
    if not words or not ring:
        raise Fault(f"process {process} keeps no ring: start it by ./uvt record --keep, or with what that prints")
    program = Path(os.readlink(folder / "exe")).name
    return Living(words[0], ring[0], Path(os.readlink(ring[0])), program, process)


def of_process(living: Living) -> bytes:
    """A copy of its ring, as a log; the last line says when that was, by its first loop's time."""
    data = copied(living.words, living.ring, living.path)
    base = BASE.search(data)
    now = time.clock_gettime_ns(time.CLOCK_MONOTONIC) // 1_000_000
    if not base:
        return data
    where = "".join(f"{it}\n" for it in lines_of(living.process, int(base[1])))
    return data + where.encode() + b"- D %d\n" % max(0, now - int(base[1]))
