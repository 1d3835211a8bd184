"""A crate's proofs: who cites a lemma, which lemmas a file may cite, and what nobody cites taken out."""

from __future__ import annotations

import re
from collections import Counter
from pathlib import Path

from make.shorten.inside import Cited
from make.shorten.reading import Lemma, lemmas_in

MENTION = re.compile(r"[^\s(){}\[\];,.λ]+")
BROUGHT = re.compile(r"^(?:pub )?use (\S+)\.\{([^}]*)\}", re.M)
# Lemmas of lists of the kit's libraries, which come from elsewhere than proofs.
OF_LISTS = frozenset({"append_assoc", "append-nil", "length-append", "length-drop"})


def bare(text: str) -> str:
    """A text without its comments and imports."""
    return re.sub(r"^(unfoldable )?(pub )?use .*$", "", re.sub(r"--.*", "", text), flags=re.M)


def items_of(listed: str) -> list[str]:
    """The entries of an import's brackets."""
    return [it.strip() for it in listed.split(",") if it.strip()]


def own_name(item: str) -> str:
    return item.split(" as ")[0].strip()


def name_here(item: str) -> str:
    return item.split(" as ")[-1].strip()


class Proofs:
    """The proofs of one crate of a repository."""

    def __init__(self, root: Path, crate: str) -> None:
        self.root, self.crate = root, crate
        self.folder = root / "crates" / crate

    def texts(self) -> dict[Path, str]:
        return {it: it.read_text(encoding="utf-8") for it in sorted((self.folder / "proofs").rglob("*.antt"))}

    def count(self) -> int:
        return sum(it.count("\n") for it in self.texts().values())

    def shared(self) -> dict[Path, list[Lemma]]:
        """The lemmas of the files that stand at the top of proofs/, which aren't those of one function, as far as their mentions can be counted."""
        tops = {path: text for path, text in self.texts().items() if path.parent == self.folder / "proofs"}
        return {path: [it for it in lemmas_in(path, text) if not it.room and MENTION.fullmatch(it.name)] for path, text in tops.items()}

    def outside(self) -> set[str]:
        """The names that other crates, and the code, cite of these proofs."""
        said: set[str] = set()
        named = re.compile(r"Rattle\." + re.escape(self.crate) + r"\.proofs\.[\w.]+\.\{([^}]*)\}")
        for path in (self.root / "crates").glob("*/proofs/**/*.antt"):
            if self.folder not in path.parents:
                said |= {own_name(it) for found in named.findall(path.read_text(encoding="utf-8")) for it in items_of(found)}
        for path in (self.root / "crates").glob("*/src/**/*.rt"):
            said |= set(re.findall(r"proofs::[\w:]+::(\w+)", path.read_text(encoding="utf-8")))
        return said

    def kept(self) -> set[str]:
        """The names that stay whoever cites them here: those that are cited from outside, or brought in under another name."""
        listed = [it for text in self.texts().values() for _, items in BROUGHT.findall(text) for it in items_of(items)]
        return self.outside() | {own_name(it) for it in listed if own_name(it) != name_here(it)}

    def mentions(self) -> Counter[str]:
        return Counter(word for text in self.texts().values() for word in MENTION.findall(bare(text)))

    def few(self) -> dict[str, Cited]:
        """The lemmas that one to three places cite, all of them here."""
        kept, counts, out = self.kept(), self.mentions(), {}
        for lemmas in self.shared().values():
            for it in lemmas:
                times = counts[it.name] - own_mentions(it)
                if 1 <= times <= 3 and it.name not in kept:
                    out[it.name] = Cited(it, times)
        return out

    def known(self) -> set[str]:
        """The lemmas that a body may cite: those of these proofs, and those that come from proofs of libraries."""
        known = set(OF_LISTS)
        for path, text in self.texts().items():
            known |= {it.name for it in lemmas_in(path, text)}
            for source, listed in BROUGHT.findall(text):
                if ".proofs." in source and ".proofs.Common" not in source and f".{self.crate}." not in source:
                    known |= {name_here(it) for it in items_of(listed)}
        return {it for it in known if not it[:1].isupper()}

    def drop(self) -> list[str]:
        """Takes out the lemmas that nobody cites, again and again, with their comments and where they are brought in."""
        kept = self.kept()
        gone: list[str] = []
        while True:
            counts = self.mentions()
            every = [it for lemmas in self.shared().values() for it in lemmas]
            found = [it for it in every if it.name not in kept and counts[it.name] == own_mentions(it)]
            if not found:
                return gone
            for lemma in sorted(found, key=lambda it: (it.path, -it.first)):
                gone.append(lemma.name)
                take_out(lemma)
                self.forget(lemma)

    def forget(self, lemma: Lemma) -> None:
        """Takes a lemma out of the imports from its file, and from the files that pass it on."""
        texts, there = self.texts(), {lemma.path.stem}
        while more := {it.stem for it, text in texts.items() if it.stem not in there and self.passes_on(text, there, lemma.name)}:
            there |= more
        files = "|".join(map(re.escape, sorted(there)))
        brings = re.compile(r"^((?:pub )?use Rattle\." + re.escape(self.crate) + rf"\.proofs\.(?:{files})\.)\{{([^}}]*)\}}\n", re.M)
        for path, text in texts.items():
            new = brings.sub(lambda found: without_item(found, lemma.name), text)
            if new != text:
                path.write_text(new, encoding="utf-8")

    def passes_on(self, text: str, there: set[str], name: str) -> bool:
        """Whether a file passes on a name from one of these files."""
        return any(
            line.startswith("pub ") and source in {f"Rattle.{self.crate}.proofs.{it}" for it in there} and name in map(own_name, items_of(listed))
            for line, source, listed in ((it.group(0), it.group(1), it.group(2)) for it in BROUGHT.finditer(text))
        )


def own_mentions(lemma: Lemma) -> int:
    """How often a lemma is named within itself."""
    return MENTION.findall(bare("\n".join(lemma.lines))).count(lemma.name)


def within(lemmas: list[Lemma], text: str, known: set[str]) -> set[str]:
    """Those of the known lemmas that a file declares or brings in."""
    here = {it.name for it in lemmas}
    return known & (here | {name_here(it) for _, listed in BROUGHT.findall(text) for it in items_of(listed)})


def take_out(lemma: Lemma) -> None:
    """Takes a lemma out of its file, with the comment above it."""
    lines = lemma.path.read_text(encoding="utf-8").split("\n")
    first, last = lemma.first, lemma.end
    while first > 0 and lines[first - 1].startswith("--") and not lines[first - 1].startswith("-- ----"):
        first -= 1
    if last < len(lines) and lines[last] == "" and first > 0 and lines[first - 1] == "":
        last += 1
    lemma.path.write_text("\n".join(lines[:first] + lines[last:]).rstrip("\n") + "\n", encoding="utf-8")


def without_item(found: re.Match[str], name: str) -> str:
    """An import without an entry; nothing where that was the only one."""
    items = [it for it in items_of(found.group(2)) if own_name(it) != name]
    return f"{found.group(1)}{{{', '.join(items)}}}\n" if items else ""
