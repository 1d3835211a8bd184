"""Lemmas as they stand in a file of proofs: where each begins and ends, its clauses, and what these name."""

from __future__ import annotations

import re
from collections import Counter
from collections.abc import Iterable
from dataclasses import dataclass, replace
from pathlib import Path

OPEN, CLOSE = "([{", ")]}"
WIDTH = 150
WORD = re.compile(r"[^\s(){}\[\];,]+")
NO_LEMMA = re.compile(r"(pub )?(abbrev|unfoldable|record|data|ruleset|module|mutual|pattern)\b")
BETWEEN = re.compile(r"\s(∙|in|where|≡|then|else|×|→)(\s|$)")
# Words of the language, and tactics: no lemmas that a tactic could be given.
NO_NAMES = frozenset(
    "refl sym ap subst rw simp grind search omega cc assumption let in record where absurd if then else λ _ tt ∙ ◌∙◌ arith rules elim "
    "as inl inr "
    "true false = → ≡ [] ∷ ++".split()
)


@dataclass(frozen=True)
class Lemma:
    """A lemma: where it stands, its lines, and these as its signature, its lines of `unfolding`, and its clauses.

    The lines of one that stands in a module are those without `room`, by which they are set in."""

    path: Path
    first: int
    lines: tuple[str, ...]
    name: str
    head: tuple[str, ...]
    clauses: tuple[tuple[str, ...], ...]
    room: str = ""

    def laid_in(self, lines: Iterable[str]) -> list[str]:
        """Lines as they stand where the lemma does."""
        return [self.room + it if it else it for it in lines]

    @property
    def key(self) -> tuple[Path, str]:
        return self.path, self.name

    @property
    def end(self) -> int:
        """The line behind its last one, counted as `first` is."""
        return self.first + len(self.lines)

    @property
    def body(self) -> list[str]:
        return [line for clause in self.clauses for line in clause]


@dataclass(frozen=True)
class Side:
    """A clause: its left side, and what stands behind the equals sign, with its `where`."""

    left: str
    right: str


def balance(text: str) -> int:
    """How many brackets of a text stay open."""
    return sum((it in OPEN) - (it in CLOSE) for it in text)


def indent(line: str) -> int:
    return len(line) - len(line.lstrip())


def whole_word(name: str) -> re.Pattern[str]:
    """Where a name stands alone, and isn't part of a longer one."""
    return re.compile(r"(?<![\w.\-])" + re.escape(name) + r"(?![\w\-])")


def lemma_of(path: Path, first: int, lines: list[str]) -> Lemma | None:
    """The lemma of these lines, or none where they are laid out otherwise."""
    name = lines[0].removeprefix("pub ").split(" :", 1)[0].strip()
    at = 1
    while at < len(lines) and not lines[at].startswith((f"{name} ", "unfolding ")):
        at += 1
    while at < len(lines) and lines[at].startswith("unfolding "):
        at += 1
    clauses: list[list[str]] = []
    for line in lines[at:]:
        if line.startswith(f"{name} "):
            clauses.append([line])
        elif line and not line[0].isspace() and line[0] not in CLOSE:
            return None
        elif clauses:
            clauses[-1].append(line)
    return Lemma(path, first, tuple(lines), name, tuple(lines[:at]), tuple(map(tuple, clauses))) if clauses else None


def block_end(lines: list[str], first: int) -> int:
    """Where a declaration ends: at an empty line, behind which nothing is set in."""
    end = first + 1
    while end < len(lines):
        if lines[end] == "":
            far = end
            while far < len(lines) and lines[far] == "":
                far += 1
            if far == len(lines) or not lines[far][0].isspace():
                break
        end += 1
    return end


def in_module(path: Path, first: int, lines: list[str]) -> list[Lemma]:
    """The lemmas of a module of these lines."""
    head = next((at for at, line in enumerate(lines) if line.endswith(" where")), len(lines))
    if any(line and not line.startswith("  ") for line in lines[head + 1 :]):
        return []
    inside = lemmas_among(path, [line[2:] for line in lines[head + 1 :]])
    return [replace(it, first=it.first + first + head + 1, room=f"  {it.room}") for it in inside]


def lemmas_among(path: Path, lines: list[str]) -> list[Lemma]:
    """The lemmas of these lines, those in modules among them."""
    found, at = [], 0
    while at < len(lines):
        line = lines[at]
        if not line or line[0].isspace() or line.startswith(("--", "use ", "pub use ", "mod ", "pub mod ", "}")):
            at += 1
            continue
        end = block_end(lines, at)
        if line.startswith("module _ "):
            found += in_module(path, at, lines[at:end])
        elif re.match(r"(pub )?\S+ :", line) and not NO_LEMMA.match(line):
            lemma = lemma_of(path, at, lines[at:end])
            if lemma:
                found.append(lemma)
        at = end
    return found


def lemmas_in(path: Path, text: str) -> list[Lemma]:
    """The lemmas of a file with this text, except for those in modules whose names stand there twice."""
    found = lemmas_among(path, text.split("\n"))
    times = Counter(it.name for it in found)
    return [it for it in found if not it.room or times[it.name] == 1]


def lemmas_of(path: Path) -> list[Lemma]:
    return lemmas_in(path, path.read_text(encoding="utf-8"))


def side_of(clause: tuple[str, ...]) -> Side | None:
    """The two sides of a clause, or none where it has no equals sign of its own."""
    text, depth = "\n".join(clause), 0
    for at, it in enumerate(text):
        depth += (it in OPEN) - (it in CLOSE)
        if depth == 0 and text.startswith(" =", at) and text[at + 2 : at + 3] in (" ", "\n"):
            return Side(text[:at], text[at + 2 :].lstrip(" "))
    return None


def sides_of(lemma: Lemma) -> list[Side]:
    """The sides of all clauses; none where one of them has no equals sign."""
    found = [side_of(it) for it in lemma.clauses]
    return [it for it in found if it] if all(found) else []


def patterns_of(left: str) -> list[str]:
    """The patterns of a left side, without the lemma's name."""
    out, depth, word = [], 0, ""
    for it in f"{left} ":
        if depth == 0 and it in " \n":
            out += [word] if word else []
            word = ""
            continue
        depth += (it in OPEN) - (it in CLOSE)
        word += it
    return out[1:]


def shown_patterns(left: str) -> list[str]:
    """The patterns that aren't implicit."""
    return [it for it in patterns_of(left) if not it.startswith("{")]


def words_of(text: str) -> list[str]:
    """The words of a text without its comments, each once."""
    out: dict[str, None] = {}
    for it in WORD.findall(re.sub(r"--.*", "", text)):
        word = it.rstrip(".…").removeprefix("λ")
        if word:
            out[word] = None
    return list(out)


def cited(text: str, known: set[str], name: str) -> list[str]:
    """The known lemmas that a text names, except for the one that it is of."""
    return [it for it in words_of(text) if it in known and it != name and it not in NO_NAMES]


def own_terms(name: str, text: str) -> list[str]:
    """Applications of the lemma itself in a text, each in its brackets."""
    out: list[str] = []
    for found in re.finditer(r"(?<![\w.\-])" + re.escape(name) + r"(?= )", text):
        depth, end = 0, found.start()
        while end < len(text):
            it = text[end]
            if it in CLOSE and depth == 0 or depth == 0 and (it in ";,\n" or BETWEEN.match(text[end : end + 8])):
                break
            depth += (it in OPEN) - (it in CLOSE)
            end += 1
        term = text[found.start() : end].strip()
        if "\n" not in term and f"({term})" not in out and " let " not in term and "_" not in term.split():
            out.append(f"({term})")
    return out


def arrows(text: str) -> list[str]:
    """The parts of a type between its arrows, without what it gives."""
    parts, depth, part = [], 0, ""
    for it in text:
        depth += (it in OPEN) - (it in CLOSE)
        if depth == 0 and it == "→":
            parts.append(part.strip())
            part = ""
        else:
            part += it
    return parts


def closing(text: str) -> int:
    """Where the bracket at the beginning of a text is closed."""
    depth = 0
    for at, it in enumerate(text):
        depth += (it in OPEN) - (it in CLOSE)
        if depth == 0:
            return at
    return len(text) - 1


def given_names(head: tuple[str, ...]) -> list[str | None]:
    """The names that a signature gives its explicit arguments, None for those without."""
    text = " ".join(it.strip() for it in head if not it.startswith("unfolding "))
    out: list[str | None] = []
    for part in arrows(text.split(" :", 1)[1] if " :" in text else ""):
        while part:
            end = closing(part) if part[0] in "({" else 0
            inside, behind = part[1:end], part[end + 1 :].lstrip()
            if " : " not in inside or behind and behind[0] not in "({":
                out.append(None)
                break
            if part[0] == "(":
                out += inside.split(" : ")[0].split()
            part = behind
    return out
