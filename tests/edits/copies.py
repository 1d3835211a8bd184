"""Copies of the repository's crates with what their checks kept, in which edits are tried."""

import hashlib
import os
import shutil
import subprocess
import threading
from collections.abc import Callable, Iterable
from pathlib import Path

from tests.edits.said import Said

PARTS = ("src", "specs", "proofs")


class Unready(Exception):
    """Why nothing can be tried."""


class Crates:
    """The crates of a repository, as its crates.txt lists them."""

    def __init__(self, root: Path) -> None:
        self.root = root
        self.lines: dict[str, str] = {}
        self.uses: dict[str, list[str]] = {}
        for line in (root / "crates.txt").read_text().splitlines():
            words, colon, deps = line.split("#")[0].partition(":")
            if colon:
                self.lines[words.split()[0]] = line
                self.uses[words.split()[0]] = deps.split()

    def with_below(self, names: Iterable[str]) -> list[str]:
        """These crates and those below them, each behind those that it stands on."""
        ordered: list[str] = []

        def add(name: str) -> None:
            if name in self.uses and name not in ordered:
                for dep in self.uses[name]:
                    add(dep)
                ordered.append(name)

        for name in names:
            add(name)
        return ordered

    def files(self, name: str) -> list[str]:
        """The files of a crate that a check reads."""
        folder = self.root / "crates" / name
        found = [it for part in PARTS for it in (folder / part).rglob("*") if it.is_file()]
        return sorted(str(it.relative_to(folder)) for it in found)

    def sum(self, name: str) -> str:
        """A sum of the sources of a crate and of those below it."""
        total = hashlib.sha256()
        for it in self.with_below([name]):
            total.update(self.lines[it].encode())
            for file in self.files(it):
                total.update(f"\n{it}/{file}\n".encode() + (self.root / "crates" / it / file).read_bytes())
        return total.hexdigest()


def copy_tree(source: Path, to: Path, *how: str) -> None:
    """Copies a folder, with its files' times, by which one can tell later what has changed."""
    to.parent.mkdir(parents=True, exist_ok=True)
    subprocess.run(["cp", "-a", *how, "--", source, to], check=True)


class Room:
    """A copy of crates, with those below them, in which each is checked once."""

    def __init__(self, folder: Path, crates: Crates, names: Iterable[str]) -> None:
        self.folder, self.crates = folder, crates
        self.names = crates.with_below(names)
        for name in self.names:
            for file in crates.files(name):
                (folder / "crates" / name / file).parent.mkdir(parents=True, exist_ok=True)
                shutil.copy2(crates.root / "crates" / name / file, folder / "crates" / name / file)
        write_list(folder, crates, self.names)

    def take(self, checked: Path) -> None:
        """Takes what checks of the same sources kept in another checkout, each crate with what it stands on."""
        if not (checked / "crates.txt").is_file():
            raise Unready(f"{checked} is no checkout: it has no crates.txt")
        theirs = Crates(checked)
        for name in self.names:
            if name in theirs.lines and theirs.sum(name) == self.crates.sum(name):
                kept = checked / "crates" / name / "out"
                for part in ("incremental", "rlib"):
                    if (kept / part).is_dir():
                        copy_tree(kept / part, self.folder / "crates" / name / "out" / part)

    def check(self, at_once: int, tell: Callable[[str], None]) -> None:
        """Checks the crates, so many at a time, and tells which are done. Nothing is to do where all has been taken."""
        if not any(map(self.lacks, self.names)):
            return
        words = ["rt", "all", "check", "--jobs", str(at_once)]
        ran = subprocess.Popen(words, cwd=self.folder, stdout=subprocess.PIPE, stderr=subprocess.STDOUT, text=True, errors="replace")
        line = ""
        try:
            for line in ran.stdout or ():
                name = line.removeprefix("== ").strip()
                if line.startswith("== ") and name in self.names:
                    tell(f"{name} is checked as it stands")
        except BaseException:
            ran.kill()
            raise
        if ran.wait():
            tell(f"not all crates are proved as they stand ({line.strip()})")

    def lacks(self, name: str) -> str | None:
        """Which crate keeps this one's edits from being tried, having no work of a check that could be used."""
        for below in self.crates.with_below([name])[:-1]:
            if not (self.folder / "crates" / below / "out/rlib/stamp").is_file():
                return below
        return None if (self.folder / "crates" / name / "out/incremental").is_dir() else name


def write_list(folder: Path, crates: Crates, names: Iterable[str]) -> None:
    """Writes a crates.txt of these crates."""
    folder.mkdir(parents=True, exist_ok=True)
    (folder / "crates.txt").write_text("".join(crates.lines[it] + "\n" for it in names))


class Lane:
    """A copy of one crate at a time, in which its edits are tried in turn, each over what the check of the crate as it stands kept."""

    def __init__(self, folder: Path, room: Room) -> None:
        self.folder, self.room = folder, room
        self.crate = ""
        self.running: subprocess.Popen[str] | None = None
        self.is_ended = False
        self.starting = threading.Lock()

    def enter(self, crate: str) -> None:
        """Makes the lane a copy of this crate. The libraries below it are links to their files, which no check of it writes."""
        if crate == self.crate:
            return
        shutil.rmtree(self.folder, ignore_errors=True)
        names = self.room.crates.with_below([crate])
        write_list(self.folder, self.room.crates, names)
        for name in names:
            source, to = self.room.folder / "crates" / name, self.folder / "crates" / name
            for part in PARTS:
                if (source / part).is_dir():
                    copy_tree(source / part, to / part)
            if name != crate:
                copy_tree(source / "out/rlib", to / "out/rlib", "-l")
        copy_tree(self.room.folder / "crates" / crate / "out/incremental", self.folder / "crates" / crate / "out/incremental")
        self.crate = crate

    def check(self, texts: dict[str, str]) -> Said:
        """Checks the crate with these texts in place of its own, and leaves it as it was, with what was kept of it."""
        was, here = (it / "crates" / self.crate for it in (self.room.folder, self.folder))
        for file, text in texts.items():
            (here / file).write_text(text)
        try:
            return self.run(["rt", "check", "--jobs", "1"], here)
        finally:
            for file in texts:
                shutil.copy2(was / file, here / file)
            put_back(was / "out/incremental", here / "out/incremental")

    def run(self, words: list[str], folder: Path) -> Said:
        with self.starting:
            if self.is_ended:
                return Said(2, "the run was ended")
            self.running = subprocess.Popen(
                words, cwd=folder, stdin=subprocess.DEVNULL, stdout=subprocess.PIPE, stderr=subprocess.STDOUT, text=True, errors="replace"
            )
        text, _ = self.running.communicate()
        return Said(self.running.returncode, text)

    def end(self) -> None:
        """Ends what runs here, and lets nothing begin any more."""
        with self.starting:
            self.is_ended = True
            if self.running and self.running.poll() is None:
                self.running.kill()


def put_back(was: Path, now: Path) -> None:
    """Makes a folder again what it was copied from. A file's size and time tell whether it was written since."""
    names = set(os.listdir(was))
    for it in os.scandir(now):
        if it.name not in names:
            shutil.rmtree(it.path) if it.is_dir(follow_symlinks=False) else os.remove(it.path)
    for entry in os.scandir(was):
        here = now / entry.name
        if entry.is_dir():
            here.mkdir(exist_ok=True)
            put_back(Path(entry.path), here)
        elif not here.is_file() or times(here.stat()) != times(entry.stat()):
            shutil.copy2(entry.path, here)


def times(it: os.stat_result) -> tuple[int, int]:
    return it.st_size, it.st_mtime_ns
