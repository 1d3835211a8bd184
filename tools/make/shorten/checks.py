"""The check of a crate, and of copies of its lemmas that stand behind them in a copy of the crate."""

from __future__ import annotations

import re
import shutil
import subprocess
import time
from dataclasses import dataclass
from pathlib import Path

from make import over_sources
from make.shorten.bodies import bodies
from make.shorten.inside import Cited, in_groups, in_where, inlined
from make.shorten.proofs import Proofs, within
from make.shorten.reading import Lemma, lemmas_in, whole_word
from make.shorten.tactics import Made, Means

KINDS = ("whole", "let", "field", "clause", "merge", "inner", "local", "inline")
ERROR = re.compile(r"^\./(proofs/[^:]+\.antt):(\d+):\d+: error: (.*)$", re.M)
# Files that only pass names on.
NO_LEMMAS = ("Names.antt", "ProofNames.antt", "Lemmas.antt", "Lib.antt")


class Fault(Exception):
    """Why nothing can be tried, in a sentence."""


@dataclass(frozen=True)
class Asked:
    """What the tool was asked for."""

    root: Path
    crate: str
    jobs: int
    steps: int
    files: tuple[str, ...]
    kinds: tuple[str, ...]

    @property
    def work(self) -> Path:
        return self.root / "out" / "shorter" / self.crate


@dataclass(frozen=True)
class Error:
    """An error that a check told: the file, the line, and what it is."""

    file: str
    line: int
    what: str

    @property
    def is_own(self) -> bool:
        """Whether it is of its lemma itself, and not of one that it depends on."""
        return " that depend" not in self.what

    @property
    def is_unread(self) -> bool:
        """Whether the lemma couldn't be read; those of a proof begin with what it is of."""
        return self.is_own and not self.what.startswith("`")


@dataclass(frozen=True)
class Said:
    """What a check came to."""

    status: int
    text: str
    seconds: float

    def errors(self) -> list[Error]:
        return [Error(file, int(line), what) for file, line, what in ERROR.findall(self.text)]


@dataclass(frozen=True)
class Placed:
    """Where a copy stands: its file, and its first and last line, counted from one."""

    file: str
    first: int
    last: int
    made: Made

    def has(self, error: Error) -> bool:
        return error.file == self.file and self.first <= error.line <= self.last


def check(asked: Asked, folder: Path, kept: str) -> Said:
    """Checks the crate as it stands in a folder, over the built libraries."""
    try:
        where = over_sources.kit()
        libraries = over_sources.libraries(over_sources.uses_of(), asked.crate, set(), where)
    except over_sources.Wrong as why:
        raise Fault(str(why)) from None
    (asked.work / kept).mkdir(parents=True, exist_ok=True)
    main = "src/main.rt" if (folder / "src" / "main.rt").is_file() else "src/lib.rt"
    words = [f"{where}/bin/rattle", "check", "--crate-name", asked.crate, main, *libraries]
    words += ["--antt-project", f"{where}/rattle/logic/antt-project.json", "--logic-built", f"{where}/logic_built"]
    words += ["--incremental", str(asked.work / kept), "--jobs", str(asked.jobs)]
    begun = time.monotonic()
    run = subprocess.run(words, cwd=folder, stdout=subprocess.PIPE, stderr=subprocess.STDOUT, text=True, errors="replace", check=False)
    return Said(run.returncode, run.stdout, time.monotonic() - begun)


def copies(lemma: Lemma, few: dict[str, Cited], means: Means, kinds: tuple[str, ...]) -> list[Made]:
    """All copies of a lemma."""
    found = [*bodies(lemma, means, list(kinds))]
    found += in_groups(lemma, means) if "inner" in kinds else []
    found += in_where(lemma, means) if "local" in kinds else []
    found += inlined(lemma, few, means) if "inline" in kinds else []
    return found


class Trial:
    """A check of copies behind the lemmas that they are of. What failed is in `seen`, and isn't tried again."""

    def __init__(self, asked: Asked, proofs: Proofs, seen: set[tuple[str, str]]) -> None:
        self.asked, self.proofs, self.seen = asked, proofs, seen
        self.placed: list[Placed] = []

    def passed(self) -> list[Made]:
        """The copies that passed. Where some can't be read, all is tried once more without these."""
        while True:
            said = self.once()
            if not self.leave_unread(said):
                break
        errors = said.errors()
        if said.status and not errors:
            raise Fault(f"the check tells nothing of the copies: {said.text.strip()[-300:]}")
        passed = []
        for it in self.placed:
            if any(it.has(error) for error in errors):
                self.seen.add(it.made.text)
            else:
                passed.append(it.made)
        print(f"{len(self.placed)} copies tried in {said.seconds:.0f} s, {len(passed)} passed", flush=True)
        return passed

    def once(self) -> Said:
        """Writes a copy of the crate with copies of its lemmas, and checks it."""
        there = self.asked.work / "crates" / self.asked.crate
        shutil.rmtree(there, ignore_errors=True)
        shutil.copytree(self.proofs.folder, there, ignore=shutil.ignore_patterns("out"))
        self.placed = []
        known = self.proofs.known()
        few = self.proofs.few() if "inline" in self.asked.kinds else {}
        for path, text in self.proofs.texts().items():
            if path.name in NO_LEMMAS or self.asked.files and path.stem not in self.asked.files:
                continue
            short = path.relative_to(self.proofs.folder)
            (there / short).write_text(self.with_copies(path, text, known, few), encoding="utf-8")
        said = check(self.asked, there, "kept")
        (self.asked.work / "said.txt").write_text(said.text, encoding="utf-8")
        return said

    def with_copies(self, path: Path, text: str, known: set[str], few: dict[str, Cited]) -> str:
        """The text of a file with the copies of each lemma behind it."""
        lines, lemmas, out, at = text.split("\n"), lemmas_in(path, text), [], 0
        means = Means(within(lemmas, text, known), self.asked.steps)
        file = str(path.relative_to(self.proofs.folder))
        for lemma in lemmas:
            out += lines[at : lemma.end]
            at = lemma.end
            if lemma.name == "returns" or "-requires" in lemma.name:
                continue
            for count, made in enumerate(copies(lemma, few, means, self.asked.kinds)):
                if made.text in self.seen:
                    continue
                name = whole_word(lemma.name)
                new = [name.sub(f"{lemma.name}_try{count}", line) for line in made.lines]
                self.placed.append(Placed(file, len(out) + 2, len(out) + 1 + len(new), made))
                out += ["", *lemma.laid_in([new[0].removeprefix("pub "), *new[1:]])]
        return "\n".join([*out, *lines[at:]])

    def leave_unread(self, said: Said) -> bool:
        """Leaves out the copies that can't be read; whether there were any."""
        unread = [(it, error) for error in said.errors() if error.is_unread for it in self.placed if it.has(error)]
        found = [(it, error) for it, error in unread if it.made.text not in self.seen]
        for it, error in found:
            print(f"  not read: {it.made.lemma.name}: {error.what[:100]}", flush=True)
            self.seen.add(it.made.text)
        return bool(found)
