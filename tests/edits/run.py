"""Tries the edits of this folder: the prover must refuse each. The gate tries only those of crates/*/must-fail.

An edit is a file NAME/WHAT.edit here, NAME being its crate, in the kit's format for must-fail edits.

  tests/edits/run                      the edits of all crates
  tests/edits/run NAME..               those of these crates
  tests/edits/run --look               says which edits can't be applied any more, those of must-fail/ among them, and tries none
  tests/edits/run --checked FOLDER     begins with what checks kept in another checkout, as far as its sources are the same
  tests/edits/run --lanes N            so many checks at a time, each in 1 to 2 GB of memory; else one a processor
  tests/edits/run --fresh              forgets what earlier runs were refused
  tests/edits/run --said FOLDER        writes there what each check said

The crates are checked once, lowest first, in a copy of the repository. Then each lane has a copy of one crate at a time, over
the built libraries below it, with what that check kept. There the crate is checked once more as it stands, and has to be proved.
Then its edits are written into it, and it is checked again, which proves only what they touch. Behind each check the files, and
what was kept, are put back, so that no edit's check begins with another's.

Most of such a check is what it costs before its first function. So edits that change the bodies of different functions are
tried in one check, twelve at most. A function is proved from its own body and from what the contracts of others say: a fault that
the prover finds in its proof is there whatever the other bodies are. An edit of whose function the check tells no such fault
(but, say, that it calls one which isn't proved) is tried once more with others, and then alone, and so is each that changes
anything else than a function's body. Of one that is tried alone the kit's rules for must-fail edits say what became of it
(`said.py`).

An edit with a line `types: ERROR` is one that the types of the code refuse, before the prover comes to it: what it leaves out, or does too early,
has a value that can't be dropped, or can't be made otherwise. It is refused where the compiler tells just that error of the files that it changes.

After each check a line says how far the run is. What is refused is kept in out/edits/, for the very sources and the kit that it
was tried with, so a run that was ended and begun again goes on where nothing has changed. At the end it names the edits that were
not refused, and those whose refusal says little of a contract: only a name is gone that a proof file cites, or the prover can't
read the function. The status is 0 where each edit was refused for what it says, 1 where not, and 2 where nothing could be tried.
"""

import argparse
import hashlib
import os
import resource
import shutil
import signal
import subprocess
import tempfile
import threading
import time
from pathlib import Path


from tests.edits.copies import Crates, Lane, Room, Unready
from tests.edits.edit import Edit, Unfit, applied, read
from tests.edits.said import Said, Verdict, Word, judged, judged_by_types, judged_together
from tests.edits.sharing import Share, Task

HERE = Path(__file__).resolve().parent
ROOT = HERE.parent.parent
KEPT = ROOT / "out" / "edits"


class Tried:
    """What the edits came to, and what is kept of it."""

    def __init__(self, of: int) -> None:
        self.of = of
        self.verdicts: dict[str, Verdict] = {}
        self.known = 0
        self.begun = time.monotonic()
        self.saying = threading.Lock()

    def take(self, name: str, verdict: Verdict, key: str = "") -> None:
        """Takes what became of an edit. What was refused is kept, where there is a key for it."""
        with self.saying:
            self.verdicts[name] = verdict
            if key and verdict.word in (Word.REFUSED, Word.LITTLE):
                KEPT.mkdir(parents=True, exist_ok=True)
                (KEPT / f"{key}.new").write_text(f"{verdict.word.name} {verdict.why}\n")
                os.replace(KEPT / f"{key}.new", KEPT / key)

    def recall(self, name: str, key: str) -> bool:
        """Whether an earlier run was refused this edit, which then counts as tried."""
        if not (KEPT / key).is_file():
            return False
        word, _, why = (KEPT / key).read_text().rstrip("\n").partition(" ")
        self.take(name, Verdict(Word[word], why))
        self.known += 1
        return True

    def all_of(self, *words: Word) -> list[str]:
        return sorted(name for name, it in self.verdicts.items() if it.word in words)

    def tell(self, what: str) -> None:
        """Says what was done last, and how far the run is."""
        with self.saying:
            took = time.monotonic() - self.begun
            count, refused = len(self.verdicts), len(self.all_of(Word.REFUSED, Word.LITTLE))
            left = took / max(1, count - self.known) * (self.of - count)
            about = f"; about {minutes(left)} left" if count > self.known else ""
            far = f"{count} of {self.of} edits tried, {refused} refused, {count - refused} not, after {minutes(took)}{about}"
            print(f"{what}; {far}", flush=True)


def minutes(seconds: float) -> str:
    return f"{seconds / 60:.1f} minutes"


def edits_in(*folders: Path) -> list[Path]:
    return sorted(it for folder in folders for it in folder.glob("*.edit"))


def look(names: list[str]) -> int:
    """Says which edits can't be applied."""
    bad = count = 0
    for name in names:
        crate = ROOT / "crates" / name
        for path in edits_in(HERE / name, crate / "must-fail"):
            count += 1
            try:
                read(path, crate)
            except Unfit as why:
                bad += 1
                print(f"{path.relative_to(ROOT)}: {why}")
    print(f"{count - bad} of {count} edits can be applied")
    return 1 if bad else 0


def read_all(names: list[str], tried: Tried, keys: dict[Edit, str], crates: Crates) -> list[Edit]:
    """The edits of these crates that are left to try, each with the key under which its verdict is kept."""
    kit = subprocess.run(["rt", "version"], stdout=subprocess.PIPE, check=True).stdout
    left: list[Edit] = []
    for name in names:
        sources = crates.sum(name)
        for path in edits_in(HERE / name):
            try:
                edit = read(path, ROOT / "crates" / name)
            except Unfit as why:
                tried.take(f"{name}/{path.name}", Verdict(Word.BAD, str(why)))
                continue
            keys[edit] = hashlib.sha256(kit + sources.encode() + path.read_bytes()).hexdigest()
            if not tried.recall(str(edit), keys[edit]):
                left.append(edit)
    return left


class Trial:
    """A run over lanes."""

    def __init__(self, share: Share, tried: Tried, keys: dict[Edit, str], room: Room, said: Path | None) -> None:
        self.share, self.tried, self.keys, self.room, self.said = share, tried, keys, room, said
        self.fault: OSError | subprocess.CalledProcessError | None = None

    def work(self, lane: Lane) -> None:
        """Does one task after another in a lane, until none is left."""
        try:
            while task := self.share.take(lane.crate):
                begun = time.monotonic()
                if task.edits:
                    lane.enter(task.crate)
                    what = self.try_edits(task, lane)
                else:
                    what = self.look_at(task, lane)
                if not lane.is_ended:
                    self.tried.tell(f"{task.crate}: {what}, {time.monotonic() - begun:.0f} seconds")
        except (OSError, subprocess.CalledProcessError) as fault:
            self.fault = fault
            self.share.end()

    def look_at(self, task: Task, lane: Lane) -> str:
        """Sees that a crate is proved as it stands; where not, none of its edits says anything."""
        lacking = self.room.lacks(task.crate)
        if not lacking:
            lane.enter(task.crate)
            said = lane.check({})
            if said.is_proved():
                self.share.done(task, said.proved())
                return "proved as it stands"
        if not lane.is_ended:
            for edit in self.share.drop(task.crate):
                self.tried.take(str(edit), Verdict(Word.UNTRIED, f"{lacking or task.crate} is not proved as it stands"))
        self.share.done(task, [])
        return "NOT PROVED as it stands"

    def try_edits(self, task: Task, lane: Lane) -> str:
        """Tries edits in one check. Of some of them it may not say enough: these are tried again."""
        said = lane.check(applied(task.edits, self.room.folder / "crates" / task.crate))
        if lane.is_ended:
            self.share.done(task)
            return "ended"
        self.write(task, said)
        clear = self.verdicts(task, said)
        for edit, verdict in clear.items():
            self.tried.take(str(edit), verdict, self.keys[edit])
        again = [it for it in task.edits if it not in clear]
        self.share.done(task, again=again)
        if len(task.edits) == 1:
            return f"{task.edits[0].path.stem} {clear[task.edits[0]].word.value}"
        return f"{len(task.edits)} edits in one check" + (f", {len(again)} of them once more" if again else "")

    def write(self, task: Task, said: Said) -> None:
        """Writes what a check said, where that is wanted."""
        if self.said:
            self.said.mkdir(parents=True, exist_ok=True)
            names = "".join(f"{it}\n" for it in task.edits)
            (self.said / f"{task.edits[0].crate}-{time.time_ns()}.txt").write_text(f"{names}\n{said.text}\nstatus {said.status}\n")

    def verdicts(self, task: Task, said: Said) -> dict[Edit, Verdict]:
        if len(task.edits) == 1:
            edit = task.edits[0]
            return {edit: judged_by_types(said, edit) if edit.types else judged(said, {file for file, _ in edit.lines})}
        left = self.share.left[task.crate]
        functions = {it: name for it in task.edits if (name := left.function(it))}
        return judged_together(said, functions)


def try_in_lanes(trial: Trial, count: int, folder: Path) -> None:
    """Runs the lanes to their end."""
    lanes = [Lane(folder / f"lane-{at}", trial.room) for at in range(count)]
    threads = [threading.Thread(target=trial.work, args=(it,)) for it in lanes]
    try:
        for it in threads:
            it.start()
        for it in threads:
            it.join()
    finally:
        trial.share.end()
        for lane in lanes:
            lane.end()
        for it in threads:
            it.join()
    if trial.fault:
        raise trial.fault


def report(tried: Tried) -> int:
    """Says what the run came to, and answers its status."""
    little, others = tried.all_of(Word.LITTLE), tried.all_of(Word.PROVED, Word.BAD, Word.UNTRIED)
    for name in little:
        print(f"says little: {name}: {tried.verdicts[name].why}")
    for name in others:
        print(f"not refused: {name}: {tried.verdicts[name].word.value}: {tried.verdicts[name].why}")
    took, used = time.monotonic() - tried.begun, resource.getrusage(resource.RUSAGE_CHILDREN)
    refused = len(tried.verdicts) - len(others)
    earlier = f" ({tried.known} of them by earlier runs)" if tried.known else ""
    print(
        f"{refused} of {tried.of} edits refused{earlier}, {len(little)} of them in a way that says little, in {minutes(took)}, "
        f"{minutes(used.ru_utime + used.ru_stime)} of the processors"
    )
    return 1 if others or little or refused < tried.of else 0


def try_all(names: list[str], asked: argparse.Namespace) -> int:
    """Tries the edits of these crates."""
    crates = Crates(ROOT)
    tried = Tried(sum(len(edits_in(HERE / it)) for it in names))
    keys: dict[Edit, str] = {}
    left = read_all(names, tried, keys, crates)
    if tried.verdicts:
        tried.tell("from earlier runs" if tried.known else "before any check")
    try:
        if left:
            with tempfile.TemporaryDirectory(prefix="uvt-edits-") as folder:
                room = Room(Path(folder) / "room", crates, dict.fromkeys(it.crate for it in left))
                if asked.checked:
                    room.take(asked.checked.resolve())
                room.check(asked.lanes, tried.tell)
                try_in_lanes(Trial(Share(left), tried, keys, room, asked.said), asked.lanes, Path(folder))
    except KeyboardInterrupt:
        print("the run was ended; begun again, it goes on where it was")
        report(tried)
        return 130
    return report(tried)


def try_edits() -> int:
    reader = argparse.ArgumentParser(description=__doc__, formatter_class=argparse.RawDescriptionHelpFormatter)
    reader.add_argument("crates", nargs="*", metavar="NAME", help="a crate with edits here; none: all of them")
    reader.add_argument("--look", action="store_true", help="only say which edits can't be applied")
    reader.add_argument("--checked", type=Path, metavar="FOLDER", help="another checkout, with what its checks kept")
    reader.add_argument("--lanes", type=int, metavar="N", default=len(os.sched_getaffinity(0)), help="so many checks at a time")
    reader.add_argument("--fresh", action="store_true", help="forget what earlier runs were refused")
    reader.add_argument("--said", type=Path, metavar="FOLDER", help="also write what each check said, into files there")
    asked = reader.parse_args()
    for name in asked.crates:
        if not (HERE / name).is_dir():
            print(f"there are no edits of a crate {name} here")
            return 2
    crates = Crates(ROOT)
    if asked.look:
        return look(asked.crates or crates.with_below(crates.lines))
    if shutil.which("rt") is None:
        print("the kit's command rt isn't on the PATH")
        return 2
    if asked.lanes < 1:
        print("--lanes takes a number from 1 on")
        return 2
    if asked.fresh:
        shutil.rmtree(KEPT, ignore_errors=True)
    return try_all([it for it in asked.crates or crates.with_below(crates.lines) if (HERE / it).is_dir()], asked)


def main() -> int:
    signal.signal(signal.SIGTERM, signal.default_int_handler)
    try:
        return try_edits()
    except KeyboardInterrupt:
        return 130
    except Unready as why:
        print(why)
    except (OSError, subprocess.CalledProcessError) as fault:
        print(f"the edits could not be tried: {fault}")
    return 2
