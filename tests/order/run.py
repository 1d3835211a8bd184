"""Tries wrong loops: the plain loop and its definition are changed together, and the documented order must refuse them.

  tests/order/run            all of the folder loops/, beside this file
  tests/order/run NAME..     those of these names
  tests/order/run --look     says whether each can be written into its files, and tries none

The clauses of uv_plain say that its code does what the definition of uv_model says. So a loop that is wrong in both is proved there. Whether it is a
loop that libuv's documentation allows is said by uv_order alone, which doesn't use that definition. A file of loops/ has a comment that says
what is wrong, and edits as the kit's must-fail edits have them, with files from the top of the repository; a new text has \\n for the end
of a line. Edits of uv_order's proofs are there so that the law refuses the loop, and not a lemma that names what changed.

In a copy of the repository each is written into its files. Then uv_model, uv_plain and what it edits below them have to be proved, and uv_order
must not be. The first check of
the copy takes as long as checks of these crates take, some minutes each, and each loop after that one or two. A line says what became of
each; the status is 0 where all were refused so, 1 where not, 2 where nothing could be tried."""

import argparse
import re
import shutil
import subprocess
import sys
import tempfile
from pathlib import Path

from tests.helper import ROOT, Tries

HERE = Path(__file__).resolve().parent
MODELS, ORDER = ("uv_model", "uv_plain"), "uv_order"


class Unfit(Exception):
    """Why a loop can't be tried."""


def edits_of(loop: Path) -> list[tuple[str, str, str]]:
    """The file, the old text and the new one of each pair of lines."""
    found: list[tuple[str, str, str]] = []
    file = old = ""
    for line in loop.read_text(encoding="utf-8").splitlines():
        word, _, text = line.partition(": ")
        if word == "file":
            file = text
        elif word == "old":
            old = text
        elif word == "new":
            found.append((file, old, text.replace("\\n", "\n")))
    if not found:
        raise Unfit("it has no edit")
    return found


def write_into(folder: Path, loop: Path) -> None:
    """Writes a loop into its files."""
    for file, old, new in edits_of(loop):
        path = folder / file
        text = path.read_text(encoding="utf-8")
        if text.count(old) != 1:
            raise Unfit(f"in {file} this stands {text.count(old)} times, and not once: {old}")
        path.write_text(text.replace(old, new), encoding="utf-8")


def is_proved(folder: Path, crate: str) -> tuple[bool, str]:
    """Whether a check of the crate proves it, and else its first error."""
    said = subprocess.run(
        ["rt", "check", "--jobs", "1"],
        cwd=folder / "crates" / crate,
        stdout=subprocess.PIPE,
        stderr=subprocess.STDOUT,
        text=True,
        errors="replace",
        check=False,
    )
    verdicts = re.findall(r"^logic=(\S+)", said.stdout, re.M)
    error = next((line for line in said.stdout.splitlines() if "error" in line.split(":", 4)[-1][:8] or ": error" in line), "no error is told")
    return said.returncode == 0 and bool(verdicts) and verdicts[-1] == "proved", error


def crates_of(loop: Path) -> list[str]:
    """What has to be proved: the crates below the plain loop that are edited, and the plain loop with its definitions."""
    edited = [file.split("/")[1] for file, _, _ in edits_of(loop)]
    return [*dict.fromkeys(crate for crate in edited if crate not in (*MODELS, ORDER)), *MODELS]


def try_loop(folder: Path, loop: Path) -> tuple[bool, str]:
    """Tries one, and puts the files back: whether the order refuses it, and else why that isn't shown."""
    write_into(folder, loop)
    try:
        for model in crates_of(loop):
            proved, error = is_proved(folder, model)
            if not proved:
                return False, f"{model} isn't proved, so nothing is shown: {error[:200]}"
        proved, error = is_proved(folder, ORDER)
        print(f"{loop.stem}: " + ("NOT REFUSED" if proved else f"refused: {error[:200]}"), flush=True)
        return not proved, "the order doesn't refuse it"
    finally:
        subprocess.run(["git", "checkout", "-q", "--", "crates"], cwd=folder, check=True)


def look(folder: Path, loops: list[Path]) -> int:
    """Says which of them can be written into their files, each into files of its own."""
    tries = Tries("order")
    for loop in loops:
        found = ""
        try:
            for file in {it[0] for it in edits_of(loop)}:
                (folder / file).parent.mkdir(parents=True, exist_ok=True)
                shutil.copy2(ROOT / file, folder / file)
            write_into(folder, loop)
        except (Unfit, OSError) as why:
            found = str(why)
        tries.check(f"{loop.stem} can be tried", not found, found)
    return tries.end()


def main() -> int:
    parser = argparse.ArgumentParser(description=(__doc__ or "").splitlines()[0])
    parser.add_argument("names", nargs="*", metavar="NAME", help="a file of loops/ without its ending")
    parser.add_argument("--look", action="store_true", help="say whether each can be written into its files, and try none")
    asked = parser.parse_args()
    names = asked.names
    loops = [HERE / "loops" / f"{name}.loop" for name in names] or sorted((HERE / "loops").glob("*.loop"))
    missing = [loop.stem for loop in loops if not loop.is_file()]
    if missing or not (asked.look or shutil.which("rt")):
        print("order: there is no " + (f"loop {missing[0]}" if missing else "command `rt`: the kit has it"), file=sys.stderr)
        return 2
    with tempfile.TemporaryDirectory(prefix="uvt-order-") as name:
        folder, tries = Path(name) / "copy", Tries("order")
        if asked.look:
            return look(folder, loops)
        subprocess.run(["git", "clone", "-q", str(ROOT), str(folder)], check=True)
        try:
            for loop in loops:
                tries.check(loop.stem, *try_loop(folder, loop))
        except Unfit as why:
            print(f"order: a loop can't be tried: {why}", file=sys.stderr)
            return 2
    return tries.end()
