"""What readers ask is answered in one hop: each row of the table at the head of docs/ARCHITECTURE.md leads to a place that is there.

A link leads to a heading of a page. A path in backticks is a file of the repository, where it begins with a crate's name below crates/; the
names behind it, after a colon, stand in that file. Each module of the tests is named there, and each file that a page names is there. The
recipe of an op counts its files. PROVED has bullets that can be read and the kit's version, and one place has the number of minutes of a
build.
"""

from __future__ import annotations

import re
import shutil
from pathlib import Path

from tests.helper import Check, limited

LEAST = 40
# The longest bullet of PROVED, in characters.
LONGEST = 600
LINK = re.compile(r"\[[^\]]*\]\(([^)#\s]*)(?:#([^)\s]+))?\)")
PATH = re.compile(r"`([\w./-]+/[\w.-]+|\.ci/run)(?: [A-Z]+)?`(?:: ((?:`[\w-]+`(?:, | and )?)+))?")
FILE = re.compile(r"`(?:\./)?((?:tests|tools|docs|examples|crates)/[\w./-]*[\w-])")
# Of a crate a page names a file without the folder of all crates.
OF_CRATE = re.compile(r"`((?:uvt|uvt?_\w+)/(?:src|specs|proofs)/[\w./-]*[\w-])`")
MINUTES = re.compile(r"some (\d+) minutes on four")
# Who says how long a build takes: the page that measured it, and those that cite it.
SAYS = ("docs/BENCHMARKS.md", "README.md", "tools/launch/kept.sh", "tools/launch/usage")


def anchors(text: str) -> set[str]:
    """The anchors of a page's headings, as its readers make them."""
    heads = re.findall(r"^#+ (.*)$", re.sub(r"^```.*?^```$", "", text, flags=re.DOTALL | re.MULTILINE), re.MULTILINE)
    return {re.sub(r"[^\w\- ]", "", it.lower()).replace(" ", "-") for it in heads}


def rows(text: str) -> list[tuple[str, str]]:
    """Each question of the table, and where it leads."""
    table = text[text.index("## What you look for") : text.index("## The crates")]
    return [(it[0].strip(), it[1].strip()) for it in re.findall(r"^\| (.*?) \| (.*) \|$", table, re.MULTILINE)][1:]


def wrong(docs: Path, answer: str) -> list[str]:
    """What isn't there of where a row leads; that it leads nowhere."""
    found = []
    links, paths = LINK.findall(answer), PATH.findall(answer)
    for name, anchor in links:
        page = docs / (name or "ARCHITECTURE.md")
        if not page.is_file() or anchor and anchor not in anchors(page.read_text(encoding="utf-8")):
            found.append(f"{name}#{anchor}")
    for name, words in paths:
        path = next((it for it in (docs.parent / name, docs.parent / "crates" / name) if it.exists()), None)
        text = path.read_text(encoding="utf-8") if path and path.is_file() else ""
        found += [name] if path is None else [f"{name}: {it}" for it in re.findall(r"`([\w-]+)`", words) if not re.search(rf"\b{it}\b", text)]
    return found if links or paths else ["it leads nowhere"]


def try_paths(check: Check, root: Path) -> None:
    """Each file that a page names is there. (A word in capitals stands for any; what is built is there later.)"""
    for page in (root / "README.md", *sorted((root / "docs").glob("*.md"))):
        text = page.read_text(encoding="utf-8")
        named = {it for it in FILE.findall(text) if not re.search(r"\b[A-Z]{4,}\b|/out/", it)} | {f"crates/{it}" for it in OF_CRATE.findall(text)}
        lost = sorted(it for it in named if not (root / it).exists())
        check(f"the files that {page.name} names", not lost, f"not there: {lost}")


def try_modules(check: Check, root: Path, text: str) -> None:
    """Each module of the tests has its row, and each row its module."""
    table = text[text.index("### The modules of the tests") : text.index("## The way of a step")]
    named = {Path(it) for it in re.findall(r"`(tests/[\w./-]+\.py)`", table)}
    there = {it.relative_to(root) for form in ("*.py", "*/*.py", "*/*/run.py") for it in (root / "tests").glob(form)}
    check("the modules of the tests", named == there, f"only on the page, or only there: {sorted(map(str, named ^ there))}")


def try_recipe(check: Check, text: str) -> None:
    """The recipe of an op says how many files it names."""
    recipe = re.split(r"\n### ", text[text.index("### An op\n") :])[0]
    said, named = re.search(r"name (\d+) files", recipe), set(re.findall(r"`([\w/]+\.(?:antt|rt))`", recipe))
    check("the files of a new op", said and int(said[1]) == len(named), f"they are {len(named)}")


def try_kit(check: Check, text: str) -> None:
    """PROVED has the version of the kit, where there is one here."""
    if shutil.which("rt"):
        version = limited(["rt", "version"], capture_output=True, text=True).stdout.strip()
        check("the kit's version in PROVED", version and f"\n{version}\n" in text, version)


def try_asked(check: Check, folder: str) -> None:
    docs = Path(folder) / "docs"
    architecture = (docs / "ARCHITECTURE.md").read_text(encoding="utf-8")
    try_paths(check, docs.parent)
    try_modules(check, docs.parent, architecture)
    try_recipe(check, architecture)
    asked = rows(architecture)
    for question, answer in asked:
        lost = wrong(docs, answer)
        check(f"one hop from: {question}", not lost, f"not there: {lost}")
    check("the questions of ARCHITECTURE", len(asked) >= LEAST, f"only {len(asked)}")
    text = (docs / "PROVED.md").read_text(encoding="utf-8")
    try_kit(check, text)
    long = [line for line in text.splitlines() if re.match(r" *(-|\d+\.) ", line) and len(line) > LONGEST]
    check("the bullets of PROVED", not long, f"of more than {LONGEST} characters: {[it[:60] for it in long]}")
    minutes = {name: set(MINUTES.findall((docs.parent / name).read_text(encoding="utf-8"))) for name in SAYS}
    check("the minutes of a build", all(minutes.values()) and len(set.union(*minutes.values())) == 1, minutes)
