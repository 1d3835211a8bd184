"""Names of handles and requests: the variable of a static one, else its callback's symbol, else its kind.

Symbols are looked up once, behind the run, with `nm` and `addr2line`, and written into the log: so a stored log needs no program.
"""

from __future__ import annotations

import bisect
import functools
import hashlib
import json
import os
import re
import subprocess
from pathlib import Path
from typing import Any

from uvt.conversation import OUT
from uvt.record.log import CHAIN, Address, Log

ROOM = 26
# What C++ has among the variables.
OF_THE_COMPILER = ("guard variable ", "vtable ", "VTT ", "typeinfo ", "construction vtable ")


def listed(file: str, words: list[str]) -> list[list[str]] | None:
    """What nm lists of a file, nothing of one that it can't read; None without nm, or where that takes too long."""
    try:
        ran = subprocess.run(["nm", "--defined-only", *words, "--", file], capture_output=True, text=True, errors="replace", timeout=600)
    except (OSError, ValueError, subprocess.TimeoutExpired):
        return None
    return [line.split(" ", 3) for line in ran.stdout.splitlines()]


# Of the file itself, and of what it gives to others.
NM: tuple[list[str], ...] = ([], ["-D"])


# A file that is so large is read once, and what is known of it is kept: node has 150,000 functions, and its own take 2 s of the processor.
LARGE = 16 << 20
FORM = 1


class Symbols:
    """The functions and variables of a file."""

    def __init__(self, file: str, kept: dict[str, Any] | None = None) -> None:
        # by where it begins; and where that ends
        self.functions: dict[int, str] = {}
        self.ends: dict[int, int] = {}
        self.variables: list[tuple[int, int, str]] = []
        self.whole = True
        for words in NM if kept is None else ():
            rows = listed(file, ["-C", "-S", *words])
            self.whole &= rows is not None
            for row in rows or []:
                if len(row) == 4 and row[2] in "bBdDvV" and not row[3].startswith(OF_THE_COMPILER):
                    self.variables.append((int(row[0], 16), int(row[1], 16), plain(row[3])))
                # (its size is left out where that is 0)
                size = int(row.pop(1), 16) if len(row) == 4 and re.fullmatch("[0-9a-f]{8,16}", row[1]) else 0
                if len(row) >= 3 and row[1] in "tTwWiu" and re.fullmatch("[0-9a-f]+", row[0]):
                    self.functions.setdefault(int(row[0], 16), " ".join(row[2:]))
                    self.ends[int(row[0], 16)] = max(size + int(row[0], 16), self.ends.get(int(row[0], 16), 0))
        if kept is not None:
            self.functions = dict(zip(kept["begins"], kept["names"]))
            self.ends = dict(zip(kept["begins"], kept["ends"]))
            self.variables = [(begin, size, name) for begin, size, name in kept["variables"]]
        self.variables.sort()
        self.begins = sorted(self.functions)

    def values(self) -> dict[str, object]:
        return {"begins": list(self.functions), "names": list(self.functions.values()), "ends": list(self.ends.values()), "variables": self.variables}

    def function_around(self, offset: int) -> str:
        """The function in which that is."""
        at = bisect.bisect_right(self.begins, offset) - 1
        return self.functions[self.begins[at]] if at >= 0 and offset < self.ends[self.begins[at]] else "-"

    def name_at(self, offset: int) -> str:
        """A function that begins there, or a variable that lies there, with how far behind its start, and how large that is."""
        if offset in self.functions:
            return self.functions[offset]
        at = bisect.bisect_right(self.variables, (offset, 1 << 64, "")) - 1
        if at < 0:
            return "-"
        start, size, name = self.variables[at]
        if not start <= offset < start + size:
            return "-"
        name = re.sub(r"\.\d+$", "", name.split("@")[0])
        return f"{name}+{offset - start}/{size}"


def kept_of(file: str, what: str) -> Path:
    """Where that is kept of a large file."""
    return OUT / "symbols" / f"{hashlib.sha256(os.fsencode(file)).hexdigest()[:24]}{what}.json"


def read_kept(path: Path, key: str) -> dict[str, Any] | None:
    """What is kept there of the file as it is; None where that is nothing."""
    try:
        found = json.loads(path.read_bytes())
        return found if found["key"] == key else None
    except (OSError, ValueError, KeyError, TypeError):
        return None


def keep(path: Path, values: dict[str, object]) -> None:
    part = path.with_suffix(f".{os.getpid()}")
    try:
        path.parent.mkdir(parents=True, exist_ok=True)
        part.write_text(json.dumps(values, separators=(",", ":")))
        part.replace(path)
    except OSError:
        part.unlink(missing_ok=True)


def key_of(file: str) -> str:
    """Which state of a large file it is; `` of one that isn't large, or isn't there."""
    try:
        it = os.stat(file)
    except (OSError, ValueError):
        return ""
    return f"{FORM} {it.st_dev} {it.st_ino} {it.st_size} {it.st_mtime_ns}" if it.st_size >= LARGE else ""


@functools.lru_cache(maxsize=64)
def symbols_as_of(file: str, key: str) -> Symbols:
    """Those of a large file, as it was of that size and time: from what is kept, or else these are kept."""
    kept = kept_of(file, "")
    found = read_kept(kept, key)
    symbols = Symbols(file, found)
    if found is None and symbols.whole:
        keep(kept, {"key": key, **symbols.values()})
    return symbols


def symbols_of(file: str) -> Symbols:
    key = key_of(file)
    return symbols_as_of(file, key) if key else Symbols(file)


def plain(symbol: str) -> str:
    """A symbol of C++ without its parameters, templates and what it returns."""
    symbol = symbol.replace("(anonymous namespace)", "").replace("operator()", "call")
    while (shorter := re.sub(r"<[^<>]*>|\([^()]*\)", "", symbol)) != symbol:
        symbol = shorter
    # (a template's function has what it returns in front; a thunk what it is for behind)
    words = re.sub(r"^(?:non-)?virtual thunk to | (?:const|volatile|&&?)(?= |$)| \[clone [^\]]*\]", "", symbol).split(" ")
    named = words[-1] if "operator" not in symbol else words[0]
    return re.sub(r"\(.*|<.*|\s.*", "", named) or "-"


def addr2line(file: str, words: list[str], offsets: list[int]) -> str | None:
    """What it says of these places; None where it isn't there, or took too long."""
    try:
        words = ["addr2line", *words, "-e", file, *(f"{it:x}" for it in offsets)]
        return subprocess.run(words, capture_output=True, text=True, errors="replace", timeout=600).stdout
    except (OSError, ValueError, subprocess.TimeoutExpired):
        return None


def sources(said: str | None, offsets: list[int]) -> list[str]:
    """Of each place its source file and line, as FILE:LINE, by debug information; `` where there is none."""
    lines = [it.split(" ")[0].rsplit("/", 1)[-1] for it in (said or "").splitlines()]
    known = [it if re.fullmatch(r"[^\s?+@]+:[1-9]\d*", it) else "" for it in lines]
    return known if len(known) == len(offsets) else [""] * len(offsets)


# The headers of C++ itself.
OF_THE_LANGUAGE = re.compile(r"^/usr/(?:local/)?(?:include/(?:[\w-]+/)?c\+\+|lib/gcc)/")


def chains(said: str | None, offsets: list[int]) -> list[list[tuple[str, str]]]:
    """Of each place the function that it is in, as the compiler has it, and its FILE:LINE; and behind it those of which that is a part. What the
    headers of C++ have in it is left out where a part of the program's is there. None where there is no debug information."""
    parts = re.split(r"^0x[0-9a-f]+\n", said or "", flags=re.MULTILINE)[1:]
    if len(parts) != len(offsets):
        return [[] for _ in offsets]
    found = []
    for part in parts:
        lines = part.splitlines()
        pairs = list(zip(lines[::2], lines[1::2]))
        pairs = [it for it in pairs if not OF_THE_LANGUAGE.search(it[1])] or pairs
        rows = [(function, line.split(" ")[0].rsplit("/", 1)[-1]) for function, line in pairs]
        named = [(plain(function), line) for function, line in rows if re.fullmatch(r"[^\s?+@<]+:[1-9]\d*", line)]
        # (a lambda's body, and what calls that, are one)
        named = [("{lambda#1}" if name in ("call", "_FUN", "__invoke") else name, line) for name, line in named]
        found.append([it for at, it in enumerate(named) if "{lambda#" not in it[0] or it[1] not in [line for _, line in named[at + 1 :]]])
    return found


def name_callers(symbols: Symbols, file: str, addresses: list[Address]) -> bool:
    """Gives places that call libuv the function and the line of the call, which ends there. False where nobody could be asked for lines."""
    # (each a byte before: that is in the call still)
    offsets = [it.offset - 1 for it in addresses]
    said = addr2line(file, ["-afiC"], offsets) if offsets else ""
    for address, chain in zip(addresses, chains(said, offsets)):
        rows = [(re.sub("[+@<]", "_", name), line) for name, line in chain if name not in ("-", "??")][:CHAIN]
        address.symbol = "<".join(f"{name}@{line}" for name, line in rows)
        # (a library's function may have a version behind its name)
        address.symbol = address.symbol or re.sub("[+<]", "_", plain(symbols.function_around(address.offset - 1).split("@")[0])) or "-"
    return said is not None


def name_some(file: str, callers: list[Address], others: list[Address]) -> bool:
    """Gives addresses of a file their symbols: of callers those of the call. False where some of what is to be known of them is missing."""
    symbols, functions = symbols_of(file), []
    whole = name_callers(symbols, file, callers) and symbols.whole
    for address in others:
        found = symbols.name_at(address.offset)
        if address.offset in symbols.functions:
            address.symbol = re.sub("[+@]", "_", plain(found))
            functions.append(address)
        elif found != "-":
            address.symbol = found
    offsets = [it.offset for it in functions]
    said = addr2line(file, [], offsets) if offsets else ""
    for address, source in zip(functions, sources(said, offsets)):
        address.symbol += f"@{source}" if source else ""
    return whole and said is not None


def name_addresses(log: Log) -> None:
    """Gives the addresses of a fresh log their symbols. Of a large file each that was asked for is kept: node's own are the same in each run."""
    callers = log.callers()
    for file in sorted({it.file for it in log.addresses.values()}):
        key, path = key_of(file), kept_of(file, "-names")
        known: dict[str, Any] = (read_kept(path, key) if key else None) or {"key": key}
        rows = [(f"{it.offset}{' call' * (number in callers)}", it) for number, it in log.addresses.items() if it.file == file]
        new = {word: it for word, it in rows if word not in known}
        whole = not new or name_some(file, [it for word, it in new.items() if " " in word], [it for word, it in new.items() if " " not in word])
        known |= {word: it.symbol for word, it in new.items()}
        if new and key and whole:
            keep(path, known)
        for word, it in rows:
            it.symbol = known[word]


def named_log(data: bytes, log: Log) -> bytes:
    """The text of a log with these symbols in it."""
    lines = data.replace(b"\0", b"").split(b"\n")
    for at, line in enumerate(lines):
        if line.startswith(b"- A ") and line.count(b" ") >= 5:
            words = line.split(b" ", 5)
            address = log.addresses.get(int(words[2])) if words[2].isdigit() else None
            if address:
                words[4] = address.symbol.encode()
                lines[at] = b" ".join(words)
    return b"\n".join(lines)


def element(address: Address, size: int) -> str:
    """Which part of its variable an object of that size is: `[2]` of an array, `+64` of something else, `` if it is all of it."""
    offset, whole = address.within()
    if size and size == whole:
        return ""
    if size and whole > size and whole % size == 0 and offset % size == 0:
        return f"[{offset // size}]"
    return f"+{offset}" if offset or whole > 1024 else ""


def base_name(address: Address, size: int) -> str | None:
    """A symbol as a script's names are: lower case, without signs."""
    symbol = "_".join(address.name().split("::")[-2:])
    part = re.sub(r"\D", "", element(address, size))
    room = ROOM - len(part) - 1 if part else ROOM
    name = re.sub("[^a-z0-9]+", "_", symbol.lower()).strip("_")[:room].strip("_")
    return (f"{name}_{part}" if part else name) if name and name[0].isalpha() else None
