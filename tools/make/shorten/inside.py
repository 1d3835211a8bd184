"""Copies of a lemma with a tactic for a part within its body: a group in brackets, a function in `where`, each mention of a small lemma."""

from __future__ import annotations

import re
from collections.abc import Iterator
from dataclasses import dataclass

from make.shorten.bodies import bodies
from make.shorten.reading import WIDTH, Lemma, cited, closing, indent, lemma_of, side_of, whole_word
from make.shorten.tactics import Call, Made, Means, Without, calls, copy

FUNCTION = re.compile(r"\(λ [^.()]*(?:\([^()]*\)[^.()]*)*\. ?")
SIGNATURE = re.compile(r"^( +)([\w\-]+) : ")


def groups(text: str) -> list[tuple[int, int]]:
    """The groups in round brackets that go over more than one line: where each begins and ends, outer ones first."""
    out, begun = [], []
    for at, it in enumerate(text):
        if it == "(":
            begun.append(at)
        elif it == ")" and begun:
            first = begun.pop()
            if "\n" in text[first:at]:
                out.append((first, at + 1))
    return sorted(out)


def refilled(text: str, begun: int, end: int, put: str) -> str | None:
    """The text with something in place of a part, its line broken in front of that where it is too long; None where that is not enough."""
    first, last = text.rfind("\n", 0, begun) + 1, text.find("\n", end)
    last = len(text) if last < 0 else last
    front, behind = text[first:begun], text[end:last]
    lines = [front + put + behind]
    if len(lines[0]) > WIDTH:
        room = " " * (indent(front) if first else 4)
        lines = [front.rstrip(), room + put + behind]
        if not front.strip() or any(len(it) > WIDTH for it in lines):
            return None
    return text[:first] + "\n".join(lines) + text[last:]


def in_groups(lemma: Lemma, means: Means) -> Iterator[Made]:
    """A tactic in place of a group in brackets, or of what such a group's λ gives."""
    text = "\n".join(lemma.body)
    for begun, end in groups(text):
        group = text[begun:end]
        found = FUNCTION.match(group)
        front = f"{found.group(0).rstrip()} " if found else "("
        rest = group[len(front.rstrip()) :]
        if whole_word(lemma.name).search(rest):
            continue
        for call in calls(cited(rest, means.known, lemma.name), means.steps):
            if call.text.startswith(("cc ", "simp")):
                continue
            new = refilled(text, begun, end, f"{front}{call.text})")
            if new is not None and new.count("\n") < text.count("\n"):
                yield copy(lemma, "inner", new.split("\n"), call)


@dataclass(frozen=True)
class Local:
    """A function in `where`: the line of its signature, that of its first clause, the one behind its last, and how far it is set in."""

    first: int
    clause: int
    end: int
    room: str


def local_at(lines: list[str], first: int) -> Local | None:
    """The function whose signature stands at a line, if one does."""
    found = SIGNATURE.match(lines[first])
    if not found:
        return None
    room, begins = found.group(1), f"{found.group(1)}{found.group(2)} "
    clause = first + 1
    while clause < len(lines) and not lines[clause].startswith(begins) and indent(lines[clause]) > len(room):
        clause += 1
    if clause == len(lines) or not lines[clause].startswith(begins):
        return None
    end = clause
    inside = (begins, f"{room} ", f"{room}}}", f"{room})", f"{room}]")
    while end < len(lines) and (lines[end].startswith(inside) or lines[end] == "" and "".join(lines[end + 1 : end + 2]).startswith(f"{room} ")):
        end += 1
    return Local(first, clause, end, room)


def in_where(lemma: Lemma, means: Means) -> Iterator[Made]:
    """A tactic in place of a function in `where`, or of a part of it."""
    lines = lemma.body
    for first in range(len(lines)):
        at = local_at(lines, first)
        small = lemma_of(lemma.path, 0, [it[len(at.room) :] for it in lines[first : at.end]]) if at and at.end - at.clause > 1 else None
        if not at or not small:
            continue
        for made in bodies(small, means, ["whole", "clause", "let", "field"]):
            new = [*lines[:first], *(at.room + it if it else it for it in made.lines), *lines[at.end :]]
            if all(len(it) <= WIDTH for it in new) and len(new) < len(lines):
                yield copy(lemma, "local", new, Call(made.call, made.cost % 10))


@dataclass(frozen=True)
class Cited:
    """A lemma that is cited in a few places, and in how many."""

    lemma: Lemma
    times: int


def replaced(text: str, begun: int, end: int, listed: list[str]) -> str | None:
    """The text with a tactic in place of a lemma's application in brackets, or with other lemmas in place of an entry of a tactic's list."""
    if text[begun - 1] == "(" and text[end : end + 1] == " ":
        far = begun - 1 + closing(text[begun - 1 :])
        inside = f"(arith, {', '.join(listed)})" if listed else "arith"
        return refilled(text, begun - 1, far + 1, f"(grind {inside})")
    if text[end : end + 1] in (",", ")") and text[begun - 2 : begun] == ", ":
        return text[: begun - 2] + "".join(f", {it}" for it in listed) + text[end:]
    if text[begun - 1] == "(" and text[end : end + 2] == ", ":
        return text[:begun] + "".join(f"{it}, " for it in listed) + text[end + 2 :]
    return None


def inlined(lemma: Lemma, few: dict[str, Cited], means: Means) -> Iterator[Made]:
    """Copies in which a lemma of one clause that few places cite is cited no more."""
    text = "\n".join(lemma.body)
    for name, it in few.items():
        found = list(whole_word(name).finditer(text))
        side = side_of(it.lemma.clauses[0])
        if it.lemma.key == lemma.key or name == lemma.name or len(it.lemma.clauses) != 1 or not found or not side:
            continue
        said = cited(side.right, means.known, name)
        tried: list[list[str]] = [[], said] if said else [[]]
        for listed in tried:
            new: str | None = text
            for place in reversed(found):
                new = replaced(new, place.start(), place.end(), listed) if new is not None else None
            if new is None or any(len(line) > WIDTH for line in new.split("\n")) or new.count("\n") > text.count("\n") + 1:
                continue
            lines = new.split("\n")
            yield Made(lemma, "without", (*lemma.head, *lines), (len(lines) - 4) * 10 + len(listed), without=Without(name, len(found), it.times))
