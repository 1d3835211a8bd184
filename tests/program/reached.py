"""Looks whether each function of the libraries is called by a program: code that none calls is proved for nobody.

From the `main` of uvt and uvt-find on, calls are followed by their names: a path or an import to its function, a method by the type of
what stands before it, where the text says that, and else to each method of its name. So a function may count as called that isn't,
but seldom the other way. A law (a function that takes and gives nothing, whose clause is all that it is for) needs no caller, nor does
what KEPT names, with who calls it."""
import re
from collections import defaultdict
from pathlib import Path
from typing import Dict, Iterator, List, NamedTuple, Optional, Set

ROOT = Path(__file__).resolve().parent.parent.parent
PROGRAMS = ("uvt", "uvt_find")
TESTS = ("arena_tests", "asking_tests", "bench", "examples", "live_tests", "loop_tests", "search_tests", "tries_again")
# What no program calls, and who does.
KEPT = {
    "uv_arena: Slots::next_free": "arena_tests and tries_again: the slot that the next insert takes, behind a piece",
    "uv_arena: Slots::prev": "arena_tests: a list is walked both ways",
    "uv_live: Clock::moment": "live_tests: the time of a clock that jumps",
    "uv_live: turn": "live_tests: a turn without threads",
    "uv_pool: LockedBook::wait_past": "bench and live_tests: a thread that looks on",
    "uv_pool: PoolBook::audit": "nobody: its clause says what a share of the finishes is",
    "uv_session: Session::run_to_break": "examples and loop_tests: steps up to a break, in one call",
    "uv_session: Session::taken_back": "loop_tests: how many steps may be run again",
    "uv_session: Session::trace": "live_tests: the lines of the steps, in one list",
    "uv_memory: LastStep::kept": "arena_tests: in which form a record lies, which no clause says",
    "uv_text: image_text": "loop_tests and tries_again: an image in one text",
    "uv_text: seen_text": "loop_tests: a line in one text",
    "uv_text: state_text": "examples: a state in one text",
    "uv_wake: LoopSeat::carried": "live_tests: what an absorb has carried",
    "uv_work: Job::new": "arena_tests, live_tests and bench: a job without a request",
}


class Function(NamedTuple):
    crate: str
    file: Path
    line: int
    name: str
    of: str  # the type of its impl, or its trait
    trait: str  # the trait that the impl is of, or that declares it
    signature: str
    body: str

    def title(self) -> str:
        return f"{self.crate}: {self.of + '::' if self.of else ''}{self.name}"


def blank(found: "re.Match[str]") -> str:
    return re.sub(r"[^\n]", " ", found.group(0))


def code_of(text: str) -> str:
    """The text without comments, strings, tests of its own and what only the prover reads."""
    text = re.sub(r"//[^\n]*", blank, text)
    text = re.sub(r'b?"(?:\\.|[^"\\])*"|b?\'(?:\\.|[^\'\\])\'', blank, text)
    own = re.search(r"#\[cfg\(test\)\]\s*mod \w+ \{", text)
    text = text[: own.start()] if own else text
    lines, depth = [], 0
    for line in text.split("\n"):
        word = line.strip()
        if depth > 0 or re.match(r"(ensures|requires|ghost)\b", word):
            depth = max(0, depth + word.count("{") - word.count("}"))
            line = ""
        lines.append(line)
    return "\n".join(lines)


def end_of(text: str, start: int) -> int:
    """Behind the brace that closes the one at this place."""
    depth = 0
    for at in range(start, len(text)):
        depth += {"{": 1, "}": -1}.get(text[at], 0)
        if depth == 0:
            return at + 1
    return len(text)


def type_in(text: str) -> str:
    """The name of a type: of a reference what it refers to, of a path its last part, without what stands in angles."""
    text = re.sub(r"&|'\w+|\b(mut|dyn|impl)\b", " ", text).strip()
    found = re.match(r"[\w:]+", text)
    return found.group(0).split("::")[-1] if found else ""


def imports_in(code: str) -> Dict[str, str]:
    """The names that a file brings in, each with its path."""
    found: Dict[str, str] = {}

    def take(before: str, text: str) -> None:
        text = text.strip()
        many = re.match(r"^([\w:]*?)(?:::)?\{(.*)\}$", text, re.S)
        if not many:
            path, _, name = (before + text).partition(" as ")
            found[name.strip() or path.split("::")[-1].strip()] = path.strip()
            return
        depth, part = 0, ""
        for sign in many.group(2) + ",":
            depth += {"{": 1, "}": -1}.get(sign, 0)
            if sign == "," and depth == 0:
                if part.strip():
                    take(before + (many.group(1) + "::" if many.group(1) else ""), part)
                part = ""
            else:
                part += sign

    for use in re.finditer(r"(?m)^\s*(?:pub(?:\([^)]*\))? )?use ([^;]+);", code):
        take("", use.group(1))
    return found


def functions_in(crate: str, file: Path, code: str) -> Iterator[Function]:
    blocks = []
    for head in re.finditer(r"(?m)^(?:pub )?(?:unsafe )?(impl|trait)\b([^{;]*)\{", code):
        text = re.sub(r"^\s*<(?:[^<>]|<[^<>]*>)*>", "", head.group(2))
        trait, _, of = text.rpartition(" for ") if head.group(1) == "impl" else (text, "", text)
        blocks.append((head.start(), end_of(code, head.end() - 1), type_in(of), type_in(trait)))
    for head in re.finditer(r"(?m)^([ \t]*)(?:pub(?:\([^)]*\))? )?(?:const )?(?:unsafe )?fn (\w+)", code):
        rest = code[head.end() :]
        body = re.search(r"(?m)\{[^\n]*$|;[ \t]*$", rest)
        start = head.end() + (body.start() if body else 0)
        end = end_of(code, start) if code[start] == "{" else start
        of, trait = next(((of, trait) for a, b, of, trait in blocks if a < head.start() < b), ("", ""))
        yield Function(crate, file, code.count("\n", 0, head.start()) + 1, head.group(2), of, trait, code[head.start() : start], code[start:end])


class Sources:
    def __init__(self) -> None:
        self.named: Dict[str, List[Function]] = defaultdict(list)
        self.imports: Dict[Path, Dict[str, str]] = {}
        self.fields: Dict[str, Dict[str, Set[str]]] = defaultdict(lambda: defaultdict(set))
        self.types: Set[str] = set()
        self.traits: Set[str] = set()
        for file in sorted(ROOT.glob("crates/*/src/**/*.rt")):
            crate = file.relative_to(ROOT).parts[1]
            if crate in TESTS:
                continue
            code = code_of(file.read_text())
            self.imports[file] = imports_in(code)
            self.traits.update(re.findall(r"(?m)^(?:pub(?:\([^)]*\))? )?trait (\w+)", code))
            for kind in re.finditer(r"(?m)^(?:pub(?:\([^)]*\))? )?(?:struct|enum) (\w+)[^{;]*\{", code):
                self.types.add(kind.group(1))
                inside = code[kind.end() : end_of(code, kind.end() - 1)]
                for name, of in re.findall(r"(?m)^\s*(?:pub(?:\([^)]*\))? )?(\w+): (.+?),?$", inside):
                    self.fields[kind.group(1)][name].add(type_in(of))
            for it in functions_in(crate, file, code):
                self.named[it.name].append(it)

    def all(self) -> List[Function]:
        return [it for many in self.named.values() for it in many]

    def of_type(self, name: str, of: str) -> Optional[List[Function]]:
        """The methods of this name that something of this type has; None where the type says nothing."""
        if of in self.types:
            return [it for it in self.named[name] if it.of == of or it.trait and it.of in self.traits]
        if re.fullmatch(r"[A-Z]|Self|", of) or of in self.traits:
            return None
        return [] if of in ("Vec", "Option", "Result", "String", "str", "bool", "Global") or re.fullmatch(r"[ui](8|16|32|64|size)", of) else None

    def type_of(self, within: Function, path: List[str]) -> Set[str]:
        """Of what types `a.b.c` may be, as far as the text of a function says."""
        first, found = path[0], set()
        if first == "self":
            found = {within.of}
        else:
            for of in re.findall(r"\b%s: ([^,)\n]+)" % first, within.signature):
                found.add(type_in(of))
            for of in re.findall(r"\blet (?:mut )?%s(?:: ([^=]+))? = ([\w:]+)" % first, within.body):
                made = of[0] or (of[1].split("::")[-2] if "::" in of[1] else "")
                found.add(type_in(made))
            if re.search(r"(\||\bfor |\bSome\(|\bOk\(|\(|, )%s\b(?=\)|,| in|\|| =>)" % first, within.body) and not found:
                return set()
        for field in path[1:]:
            found = {of for it in found for of in self.fields[it].get(field, {""})}
        return found

    def calls(self, within: Function) -> Iterator[Function]:
        imports, body = self.imports[within.file], within.body
        for call in re.finditer(r"(\.|::)?\b([a-z_]\w*)\b", body):
            name, before, head = call.group(2), body[: call.start()], call.group(1)
            if name not in self.named:
                continue
            if head == ".":
                if not re.match(r"\s*(\(|::<)", body[call.end() :]):
                    continue
                path = re.search(r"((?:\w+)(?:\s*\.\s*\w+)*)\s*$", before)
                types = self.type_of(within, re.split(r"\s*\.\s*", path.group(1))) if path else set()
                sets = [self.of_type(name, of) for of in types]
                if not sets or None in sets:
                    yield from (it for it in self.named[name] if it.of)
                else:
                    yield from (it for many in sets for it in many)
            elif head == "::":
                path = re.search(r"([\w:]+)(?:::<[^>]*>)?$", before)
                parts = path.group(1).split("::") if path else [""]
                whole = imports.get(parts[0], parts[0]).split("::") + parts[1:]
                for it in self.named[name]:
                    if it.of and (it.of == whole[-1] or whole[-1] == "Self" and it.of == within.of or whole[-1] not in self.types and it.trait):
                        yield it
                    elif not it.of and whole[-1] not in self.types and it.crate == (whole[0] if whole[0] in CRATES else within.crate):
                        yield it
            elif name in imports:
                whole = imports[name].split("::")
                yield from (it for it in self.named[name] if not it.of and it.crate == (whole[0] if whole[0] in CRATES else within.crate))
            else:
                yield from (it for it in self.named[name] if not it.of and it.file == within.file)


def uses_of() -> Dict[str, Set[str]]:
    """The crates of crates.txt, each with itself and all below it."""
    lines = [line.partition("#")[0].partition(":") for line in (ROOT / "crates.txt").read_text().split("\n")]
    uses = {head.split()[0]: tail.split() for head, colon, tail in lines if colon}

    def below(crate: str) -> Set[str]:
        return {crate}.union(*(below(it) for it in uses.get(crate, [])))

    return {crate: below(crate) for crate in uses}


CRATES = uses_of()


def called(sources: Sources, ahead: List[Function]) -> Set[Function]:
    """What these call, and so on."""
    known: Set[Function] = set()
    while ahead:
        it = ahead.pop()
        if it in known:
            continue
        known.add(it)
        ahead += [other for other in sources.calls(it) if other.trait or other.crate in CRATES[it.crate]]
        if it.trait and it.of == it.trait:
            # a trait's method is each impl's
            ahead += [other for other in sources.named[it.name] if other.trait == it.trait]
    return known


def wrong() -> List[str]:
    """The functions that no program calls, and the reasons that aren't needed any more."""
    sources = Sources()
    # what isn't called by a name of this repository: traits of the library
    ahead = [it for it in sources.all() if it.name == "main" and it.crate in PROGRAMS or it.trait and it.trait not in sources.traits]
    known = called(sources, list(ahead))
    law = re.compile(r"fn \w+(<.*>)?\(\s*\)\s*$")
    left = [it for it in sources.all() if it not in known and it.body and not law.search(it.signature)]
    left += [it for it in sources.all() if it not in known and not it.body and it.trait]
    helped = called(sources, [*ahead, *(it for it in left if it.title() in KEPT)])
    bad = [f"{it.file.relative_to(ROOT)}:{it.line}: no program calls {it.title()}" for it in left if it not in helped]
    return bad + [f"{name} is called, or gone: it needs no reason any more" for name in sorted(KEPT.keys() - {it.title() for it in left})]


def main() -> int:
    bad = wrong()
    print("\n".join(bad), end="\n" if bad else "")
    return 1 if bad else 0
