"""Copies of a lemma with a tactic for its body, for a clause, for what follows lets, for a field, or for several clauses together."""

from __future__ import annotations

import re
from collections.abc import Iterator

from make.shorten.reading import WIDTH, Lemma, Side, balance, cited, given_names, indent, own_terms, patterns_of, shown_patterns, sides_of
from make.shorten.tactics import Made, Means, calls, copy, laid

NAME = re.compile(r"[\w'’]+")
FIELD = re.compile(r"^(\s+)([\w\-]+) = ")


def bodies(lemma: Lemma, means: Means, kinds: list[str]) -> Iterator[Made]:
    """The copies of these kinds."""
    sides = sides_of(lemma)
    if not sides:
        return
    if "whole" in kinds:
        yield from whole(lemma, sides, means)
    for at, side in enumerate(sides):
        if "clause" in kinds:
            yield from one_clause(lemma, at, side, means)
        if "let" in kinds:
            yield from behind_lets(lemma, at, side, means)
        if "field" in kinds:
            yield from fields(lemma, at, means)
    if "merge" in kinds and len(sides) >= 3:
        yield from merges(lemma, sides, means)


def shared(patterns: list[list[str]], at: int) -> str | None:
    """The name that all clauses have at a place, if they have one there."""
    here = {it[at] for it in patterns}
    only = here.pop() if len(here) == 1 else ""
    return only if NAME.fullmatch(only) and not only[0].isupper() and only != "_" else None


def whole_left(lemma: Lemma, sides: list[Side]) -> str | None:
    """The left side of one clause for all: names that the clauses share, else those of the signature, else new ones."""
    patterns = [shown_patterns(it.left) for it in sides]
    count = len(patterns[0])
    if any(len(it) != count for it in patterns) or len(sides) == 1 and patterns_of(sides[0].left) != patterns[0]:
        return None
    given, named = given_names(lemma.head), [lemma.name]
    for at in range(count):
        word = shared(patterns, at) or (given[at] if at < len(given) else None) or f"e{at}"
        while word in named[1:]:
            word += "'"
        named.append(word)
    return " ".join(named)


def whole(lemma: Lemma, sides: list[Side], means: Means) -> Iterator[Made]:
    """A tactic in place of the whole body."""
    size, left = len(lemma.body), whole_left(lemma, sides)
    if size < 2 or left is None:
        return
    every = "\n".join(it.right for it in sides)
    more = own_terms(lemma.name, every) if len(sides) == 1 else []
    for call in calls(cited(every, means.known, lemma.name), means.steps, more):
        lines = laid(left, call.text)
        if len(lines) < size:
            yield copy(lemma, "whole", lines, call)


def with_clause(lemma: Lemma, at: int, lines: list[str]) -> list[str]:
    """The body with other lines for a clause."""
    return [line for k, it in enumerate(lemma.clauses) for line in (lines if k == at else it)]


def one_clause(lemma: Lemma, at: int, side: Side, means: Means) -> Iterator[Made]:
    """A tactic in place of one clause of several."""
    size = len(lemma.clauses[at])
    if len(lemma.clauses) < 2 or size < 2:
        return
    for call in calls(cited(side.right, means.known, lemma.name), means.steps, own_terms(lemma.name, side.right)):
        lines = laid(side.left, call.text)
        if len(lines) < size:
            yield copy(lemma, "clause", with_clause(lemma, at, lines), call)


def behind_lets(lemma: Lemma, at: int, side: Side, means: Means) -> Iterator[Made]:
    """A tactic in place of what follows the lets of a clause without a `where`."""
    right, size = side.right, len(lemma.clauses[at])
    cut = right.rfind(" in\n")
    if size < 3 or cut < 0 or re.search(r"(^|\s)where\n", right) or balance(right[:cut]):
        return
    front, tail = right[: cut + 4], right[cut + 4 :]
    if "\n" not in tail:
        return
    begun = f"{side.left} =" + ("" if front.startswith("\n") else " ") + front
    for call in calls(cited(tail, means.known, lemma.name), means.steps, own_terms(lemma.name, tail)):
        lines = f"{begun}    {call.text}".split("\n")
        if len(lines[-1]) <= WIDTH and len(lines) < size:
            yield copy(lemma, "let", with_clause(lemma, at, lines), call)


def field_end(lines: tuple[str, ...], first: int) -> int:
    """The line behind a field's last one: what is set in deeper, and the bracket that closes it."""
    deep, end = indent(lines[first]), first + 1
    while end < len(lines) and (lines[end] == "" or indent(lines[end]) > deep):
        end += 1
    if end < len(lines) and indent(lines[end]) == deep and lines[end].strip() in ("};", ");"):
        end += 1
    return end


def fields(lemma: Lemma, at: int, means: Means) -> Iterator[Made]:
    """A tactic in place of a field of several lines."""
    clause = lemma.clauses[at]
    for first, line in enumerate(clause):
        found = FIELD.match(line)
        if not found or line.rstrip().endswith(";"):
            continue
        end = field_end(clause, first)
        text = "\n".join(clause[first:end])
        if not text.rstrip().endswith(";") or end - first < 2 or balance(text):
            continue
        for call in calls(cited(text, means.known, lemma.name), means.steps, own_terms(lemma.name, text)):
            put = f"{found.group(0)}{call.text};"
            if len(put) <= WIDTH:
                yield copy(lemma, "field", with_clause(lemma, at, [*clause[:first], put, *clause[end:]]), call)


def last_left(lemma: Lemma, sides: list[Side]) -> str | None:
    """The left side of a clause for all that the others leave: names where all clauses have the same, and new ones elsewhere."""
    patterns = [shown_patterns(it.left) for it in sides]
    if any(len(it) != len(patterns[0]) for it in patterns):
        return None
    named: list[str] = []
    for at in range(len(patterns[0])):
        named.append(shared(patterns, at) or ("each" if "each" not in named else f"e{at}"))
    return " ".join([lemma.name, *named])


def merges(lemma: Lemma, sides: list[Side], means: Means) -> Iterator[Made]:
    """One clause behind all others, with none of its patterns: of those that pass, several become one (`merged`)."""
    left = last_left(lemma, sides)
    if left is None:
        return
    listed = cited("\n".join(it.right for it in sides), means.known, lemma.name)
    for at, side in enumerate(sides):
        if own_terms(lemma.name, side.right):
            continue
        others = with_clause(lemma, at, [])
        for call in calls(listed, means.steps):
            if not call.text.startswith(("cc", "simp", "assumption ")):
                body = [*others, *laid(left, call.text)]
                yield Made(lemma, "merge", (*lemma.head, *body), 0, behind=at, call=call.text)


def merged(lemma: Lemma, made: list[Made]) -> Made | None:
    """A lemma whose clauses that passed become one behind the others; none where that isn't shorter."""
    sides = sides_of(lemma)
    left = last_left(lemma, sides) if sides else None
    groups: dict[str, set[int]] = {}
    for it in made:
        groups.setdefault(it.call, set()).add(it.behind)
    bodies_of = [
        [*(line for at, clause in enumerate(lemma.clauses) if at not in group for line in clause), *laid(left, call)]
        for call, group in groups.items()
        if left is not None and len(group) > 1
    ]
    best = min(bodies_of, key=len, default=lemma.body)
    return Made(lemma, "merged", (*lemma.head, *best), len(best) * 10) if len(best) < len(lemma.body) else None
