"""The page of claims: the clauses that say them (claimed.py), and the definitions that these depend on, as they are in the sources.

A definition is a top line of a file of specs/ with what belongs to it. Which others it names is read off its words and the file's `use`
lines; so is which definitions a clause names, by the `ghost use` lines of its file.

A clause speaks of values, and what a value of a type of src/ is, its `impl Model` says: so a claim that is of such a type itself, and not of
what any machine has, names it, and its view, those of the types of its fields, and the definitions that they name count as well. So do the
types that definitions are of.
"""

from __future__ import annotations

import itertools
import re
from collections.abc import Iterable
from dataclasses import dataclass, field
from pathlib import Path

from make.claimed import CLAIMS, Clause

WORD = re.compile(r"[^\W\d][\w-]*(?:\.[^\W\d][\w-]*)*")
HEAD = re.compile(r"^(?:(?:abbrev|unfoldable|pub|record|data) )*([^\W\d][\w-]*) (?:[:({]|where)")
USE = re.compile(r"^\s*(?:ghost |pub |unfoldable )*use Rattle\.([\w.]+?)(?:\.\{([^}]*)\}|\.(\w+))?(?: as (\w+))?;?$")


TYPE = re.compile(r"^(?:pub(?:\([^)]*\))? )?(?:struct|enum) (\w+)")
VIEW = re.compile(r"^impl.* Model for (\w+)")
BROUGHT = re.compile(r"^\s*(?:pub )?use (uv\w+|crate)::(?:\w+::)*(?:\{([^}]*)\}|(\w+));", re.M)
DECLARED = re.compile(r"^\s*(?:ghost |pub |unfoldable )*use Rattle\.(\w+)\.specs\.declared\.([\w.]+?)(?:\.\{([^}]*)\})?(?: as (\w+))?;?$")


class Fault(Exception):
    """Why the claims can't be told, in a sentence."""


@dataclass
class Definition:
    """A definition, in which lines it stands, and which words it uses."""

    file: str
    name: str
    first: int
    last: int
    words: set[str] = field(default_factory=set)


@dataclass
class Names:
    """What the `use` lines of a file bring in: names of definitions, and short names of files of definitions."""

    single: dict[str, tuple[str, str]] = field(default_factory=dict)
    files: dict[str, str] = field(default_factory=dict)
    # types of src/, by their crate and their name there
    types: dict[str, tuple[str, str]] = field(default_factory=dict)

    def read_type(self, line: str) -> None:
        """Takes in a line, if it brings in a type of src/, or its variants."""
        if found := DECLARED.match(line):
            crate, path, listed, alias = found.groups()
            name = next((part for part in path.split(".") if part[0].isupper() and part != "TheConstants"), None)
            if name:
                for item in (listed or alias or name).split(","):
                    first, _, other = item.strip().partition(" as ")
                    self.types[other or first] = crate, name

    def read(self, line: str) -> None:
        """Takes in a line, if it brings in definitions of this repository."""
        self.read_type(line)
        found = USE.match(line)
        if not found:
            return
        path, listed, last, alias = found.groups()
        if listed is None and last:
            path = f"{path}.{last}"
        parts = path.split(".")
        if len(parts) < 3 or parts[1] != "specs" or parts[2] in ("declared", "contracts"):
            return
        file = f"{parts[0]}/specs/{'/'.join(parts[2:])}.antt"
        if listed is None:
            self.files[alias or parts[-1]] = file
            return
        for item in filter(None, map(str.strip, listed.split(","))):
            name, _, other = item.partition(" as ")
            self.single[other or name] = (file, name)

    def meant(self, word: str, own: str | None) -> tuple[str, str] | None:
        """The definition that a word means, if it means one: of this file, or one that is brought in."""
        first, _, rest = word.partition(".")
        if rest and first in self.files:
            return self.files[first], rest.split(".")[0]
        if first in self.single:
            return self.single[first]
        return (own, first) if own else None


@dataclass
class Type:
    """A struct or an enum of src/: where it stands, which words it has, and its view, with what that brings in."""

    crate: str
    name: str
    path: Path
    lines: list[str]
    view: list[str] = field(default_factory=list)
    # the types that its file brings in, by their names there
    brought: dict[str, str] = field(default_factory=dict)


class Types:
    """The types of all crates."""

    def __init__(self, root: Path) -> None:
        self.found: dict[tuple[str, str], Type] = {}
        views: list[tuple[str, str, list[str]]] = []
        for path in sorted((root / "crates").glob("*/src/**/*.rt")):
            crate, text = path.relative_to(root / "crates").parts[0], path.read_text(encoding="utf-8")
            brought = {
                name.strip(): crate if of == "crate" else of for of, listed, one in BROUGHT.findall(text) for name in (listed or one).split(",")
            }
            lines = text.splitlines()
            for at, line in enumerate(lines):
                if head := TYPE.match(line):
                    self.found[crate, head[1]] = Type(crate, head[1], path, block(lines, at), [], brought)
                elif head := VIEW.match(line):
                    views.append((crate, head[1], block(lines, at)))
        for crate, name, lines in views:
            self.found[crate, name].view = lines

    def fields(self, its: Type) -> list[Type]:
        """The types that a type's fields name."""
        words = {word for line in its.lines[1:] for word in WORD.findall(line.split("//")[0])}
        return [self.found[at] for word in sorted(words) if (at := (its.brought.get(word, its.crate), word)) in self.found and word != its.name]

    def all_of(self, first: Iterable[tuple[str, str]]) -> list[Type]:
        """These types, and those of their fields."""
        seen: dict[tuple[str, str], Type] = {}
        todo = [self.found[at] for at in first if at in self.found]
        while todo:
            its = todo.pop()
            if (its.crate, its.name) not in seen:
                seen[its.crate, its.name] = its
                todo += self.fields(its)
        return [seen[at] for at in sorted(seen)]


def block(lines: list[str], at: int) -> list[str]:
    """The lines of an item, to the brace that ends it."""
    end = at if re.search(r"[;}]\s*$", lines[at]) else next(it for it in range(at, len(lines)) if lines[it].startswith("}"))
    return lines[at : end + 1]


class Specs:
    """The definitions of all crates."""

    def __init__(self, root: Path) -> None:
        self.root = root
        self.found: dict[tuple[str, str], Definition] = {}
        self.names: dict[str, Names] = {}
        for path in sorted((root / "crates").glob("*/specs/*.antt")):
            if path.stem != "Lib":
                self.read(path)
        for names in self.names.values():
            self.settle(names)

    def settle(self, names: Names) -> None:
        """Has each name mean the definition itself, where it is brought in by way of a module that passes it on."""
        for name, at in names.single.items():
            while at not in self.found and at[1] in self.passed(at[0]):
                at = self.passed(at[0])[at[1]]
            names.single[name] = at

    def passed(self, file: str) -> dict[str, tuple[str, str]]:
        """What a file brings in."""
        return self.names[file].single if file in self.names else {}

    def read(self, path: Path) -> None:
        """Takes in a file of definitions. Within a `module` they stand two columns in."""
        file = str(path.relative_to(self.root / "crates"))
        names, now, comment, column = Names(), None, 0, 0
        for number, line in enumerate(path.read_text(encoding="utf-8").splitlines(), 1):
            if line.lstrip().startswith("--"):
                comment = comment or number
                continue
            if "use Rattle" in line:
                names.read(line)
            elif line.startswith("module"):
                now, column = None, 2
            elif line.strip():
                column = column if line.startswith("  ") else 0
                head = HEAD.match(line[column:]) if line[:column].isspace() or not column else None
                if head and (now is None or head[1] != now.name):
                    now = Definition(file, head[1], comment or number, number)
                    self.found[file, head[1]] = now
                if now:
                    now.last = number
                    now.words.update(WORD.findall(line))
            comment = 0
        self.names[file] = names

    def needs(self, roots: list[tuple[str, str]]) -> list[Definition]:
        """These definitions and all that they depend on, each behind those."""
        ordered: list[Definition] = []
        seen: set[tuple[str, str]] = set()
        stack: list[tuple[tuple[str, str], bool]] = [(root, False) for root in reversed(roots)]
        while stack:
            at, ready = stack.pop()
            if ready:
                ordered.append(self.found[at])
            elif at not in seen and at in self.found:
                seen.add(at)
                stack.append((at, True))
                names = self.names[at[0]]
                below = {names.meant(word, at[0]) for word in self.found[at].words}
                stack += [(it, False) for it in sorted(filter(None, below), reverse=True)]
        return ordered

    def types_of(self, its: list[Definition]) -> set[tuple[str, str]]:
        """The types of src/ that definitions name."""
        return {types[first] for it in its for word in it.words if (first := word.split(".")[0]) in (types := self.names[it.file].types)}

    def viewed(self, types: list[Type]) -> list[tuple[str, str]]:
        """The definitions that the views of these types name."""
        found: list[tuple[str, str]] = []
        for its in types:
            names = Names()
            for line in [*its.path.read_text(encoding="utf-8").splitlines(), *its.view]:
                names.read(line.strip())
            self.settle(names)
            said = "\n".join(line for line in its.view if "ghost use" not in line and "ghost invariant" not in line)
            found += [it for it in (names.meant(word, None) for word in WORD.findall(said)) if it and it in self.found]
        return found

    def in_order(self, files: list[str]) -> list[str]:
        """These files, each behind those of them that it brings in."""
        ordered: list[str] = []

        def add(file: str) -> None:
            names = self.names[file]
            for below in sorted({it for it, _ in names.single.values()} | set(names.files.values())):
                if below in files and below not in ordered and below != file:
                    add(below)
            if file not in ordered:
                ordered.append(file)

        for file in files:
            add(file)
        return ordered


def clause_text(root: Path, clause: Clause) -> tuple[str, Names, int]:
    """The words of a clause, or of all clauses of its call, what the file brings in, and in which line the call stands."""
    path = root / "crates" / clause.crate / "src" / f"{clause.file}.rt"
    if not path.is_file():
        raise Fault(f"there is no file {path.relative_to(root)}")
    lines = path.read_text(encoding="utf-8").splitlines()
    names = Names()
    for line in lines:
        names.read(line.strip())
    start = next((at for at, line in enumerate(lines) if re.match(rf"\s*(?:pub )?fn {clause.call}\b", line)), None)
    if start is None:
        raise Fault(f"there is no call {clause.call} in {path.relative_to(root)}")
    end = next(at for at in range(start, len(lines)) if lines[at].strip() in ("{", "{}") or lines[at].rstrip().endswith("};"))
    text = "\n".join(lines[start : end + 1])
    parts = re.split(r"\n(?=\s*(?:ensures|requires)\b)", text)
    wanted = [part for part in parts if re.match(rf"\s*ensures\*? {clause.name or ''}", part)]
    if not wanted:
        raise Fault(f"{clause.call} in {path.relative_to(root)} has no clause {clause.name}")
    return "\n".join(wanted), names, start + 1


def page(root: Path) -> str:
    """The page of claims."""
    specs, types = Specs(root), Types(root)
    told: list[str] = []
    views: dict[tuple[str, str], Type] = {}
    shown: dict[tuple[str, str], set[int]] = {}
    order: dict[str, dict[str, Definition]] = {}
    asked: dict[str, set[int]] = {}
    for number, claim in enumerate(CLAIMS, 1):
        roots: list[tuple[str, str]] = []
        for clause in claim.clauses:
            text, names, _ = clause_text(root, clause)
            specs.settle(names)
            roots += [it for it in (names.meant(word, None) for word in WORD.findall(text)) if it and it in specs.found]
        if not roots:
            raise Fault(f"no definition stands behind the claim: {claim.sentence}")
        viewed = [it for it in types.all_of([claim.of] if claim.of else []) if it.view]
        needed = specs.needs([*roots, *specs.viewed(viewed)])
        declared = types.all_of(specs.types_of(needed))
        for it in viewed:
            views[it.crate, it.name] = it
            shown.setdefault((it.crate, it.name), set()).add(number)
        for one in needed:
            order.setdefault(one.file, {})[one.name] = one
            asked.setdefault(one.file, set()).add(number)
        where = ", ".join(f"`{it.call}` of {it.crate} (`{it.file}.rt`" + (f", clause `{it.name}`)" if it.name else ")") for it in claim.clauses)
        count = "1 definition" if len(needed) == 1 else f"{len(needed)} definitions"
        size = sum(len(it.view) for it in viewed)
        seen = f", and {'1 view' if len(viewed) == 1 else f'{len(viewed)} views'} of {size} lines" if viewed else ""
        told.append(
            f"{number}. {claim.sentence} {where}: {count}, {lines_of(needed)} lines{seen}; of {len(declared)} types, "
            f"{sum(len(it.lines) for it in declared)} lines."
        )
    order = {file: order[file] for file in specs.in_order(list(order))}
    rows = [f"| `{file}` | {len(its)} | {lines_of(its.values())} | {spans(sorted(asked[file]))} |" for file, its in order.items()]
    last = [
        f"| `{its.path.relative_to(root / 'crates')}`: `{its.name}` | {len(its.view)} | {spans(sorted(shown[at]))} |"
        for at, its in sorted(views.items())
    ]
    return HEADING + "\n".join(told) + TABLE + "\n".join(rows) + VIEWS + "\n".join(last) + "\n"


def lines_of(definitions: Iterable[Definition]) -> int:
    """In how many lines they stand."""
    return sum(it.last - it.first + 1 for it in definitions)


def spans(numbers: list[int]) -> str:
    """Numbers as few words: 1-3, 5."""
    runs = [[it for _, it in run] for _, run in itertools.groupby(enumerate(numbers), lambda it: it[1] - it[0])]
    return ", ".join(f"{it[0]}-{it[-1]}" if len(it) > 1 else f"{it[0]}" for it in runs)


HEADING = """# What to believe, in order

Each claim, the clause of a public call that says it, and on how many definitions it stands, of how many types of `src/`. \
[PROVED](PROVED.md) says more of each. This page is written by `tools/make/claims`, and a test holds it against the sources.

"""
TABLE = """

## What they depend on

The files of definitions in an order in which they can be read: each behind those that it brings in. \
Who believes a claim reads of each file the definitions that are counted here; comments are among the lines, `use` lines are not.

| File in `crates/` | Definitions | Lines | For the claims |
|---|---|---|---|
"""
VIEWS = """

## What clauses see

A clause speaks of a value as its type shows it. What that is of the value as it lies there, the block `impl Model` of the type says (its `view`). \
So "the very memory" of claim 4 is as much of the memory as these show: links, heap, free list and generations are among it. \
A view that left some of it out would have the claim say less.

| File in `crates/`, type | Lines | For the claims |
|---|---|---|
"""
