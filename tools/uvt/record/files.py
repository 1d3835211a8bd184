"""Files that are written whole, or not at all, and folders of a call's own."""

from __future__ import annotations

import glob
import os
import re
import shutil
import tempfile
from pathlib import Path

from uvt.conversation import Fault


def write(path: Path, data: bytes) -> None:
    """Writes a file whole, or leaves what was there."""
    part = path.with_name(path.name + ".part")
    try:
        # (no link that somebody else has put there is followed)
        part.unlink(missing_ok=True)
        with part.open("xb") as file:
            file.write(data)
        part.replace(path)
    except OSError as fault:
        part.unlink(missing_ok=True)
        raise Fault(f"{path}: {fault.strerror}") from None


def is_alive(process: int) -> bool:
    try:
        return Path(f"/proc/{process}/stat").read_text().rpartition(")")[2].split()[0] != "Z"
    except (OSError, IndexError):
        return False


def room_for(name: str) -> Path:
    """A folder for the logs of a run, beside where they are to be kept."""
    return room_in(Path(name).resolve().parent, f".{Path(name).name}.")


def room_in(beside: Path, mine: str) -> Path:
    """A folder of this call's own in another one. One that a killed call of the same user has left there goes."""
    try:
        for left in beside.glob(f"{glob.escape(mine)}*"):
            found = re.fullmatch(re.escape(mine) + r"(\d+)\.\w+", left.name)
            if found and not is_alive(int(found[1])) and left.lstat().st_uid == os.getuid():
                shutil.rmtree(left, ignore_errors=True)
        return Path(tempfile.mkdtemp(prefix=f"{mine}{os.getpid()}.", dir=beside))
    except OSError as fault:
        raise Fault(f"{beside}: {fault.strerror}") from None


def taken(path: Path, kept: Path) -> bytes:
    """A log that has just been written. It is kept first, and then gets its symbols: so it isn't lost where the disk is full."""
    try:
        data = path.read_bytes()
        path.replace(kept)
    except OSError as fault:
        raise Fault(f"{kept}: {fault.strerror}") from None
    return data
