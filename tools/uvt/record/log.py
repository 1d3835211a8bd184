"""Logs of the recorder, line by line (docs/RECORD.md has what each line means).

A log may be cut anywhere, and any byte of it may be another one: it is read up to the first line that is none.
"""

from __future__ import annotations

import re
from collections.abc import Iterator
from dataclasses import dataclass, field

from uvt.conversation import Fault
from uvt.notes import harmless
from uvt.record.events import Events, read_event
from uvt.record.maps import Maps
from uvt.spent import in_words

# In logs of version 1 `ref` and `unref` of a watcher say whether it counts for the loop (it is active and referenced, or has a request
# under way), and nothing says that it is started or stopped; `P` has the timeout that libuv asks with, be it only to look.
HEAD = re.compile(r"uvt-log ([12]) (1\.\d{1,4}\.\d{1,4}\S*) (\d{1,9}) (\d{1,9}) (.*)")
ADDRESS = re.compile(r"- A (\d{1,9}) ([0-9a-f]{1,16}) (\S+) (.*)")
WORKERS = re.compile(r"- N (\d{1,9})")
ENDED = re.compile(r"- X (SIG[A-Z0-9]{1,12}|signal \d{1,3})")
TURNED = re.compile(r"- W ([1-9]\d{0,9})")
COPIED = re.compile(r"- D (\d{1,19})")
NOW = re.compile(r"- Y (\d{1,9}) (\d{1,19}) ([a-z_0-9]{1,32}) @((?:0|[1-9]\d{0,8})(?:<(?:0|[1-9]\d{0,8})){0,63})")
BASE = re.compile(r"- Z \d{1,19}")
LATE = re.compile(r"- T (callback|timer|poll) (\d{1,9}) (\d{1,19}) (\d{1,19}) (-1|\d{1,9})(?: (\d{1,19}))?")
UNSEEN = re.compile(r"- U (-|uv_[a-z_0-9]+) (.+)")
PLACE = re.compile(r"- J place (\d{1,9}) (.*)")
HOME = re.compile(r"- J home (.*)")
LANGUAGE = re.compile(r"- J language (Python|Lua)")
LACKS = re.compile(r"- J lacks (\w{1,200})")
STACK = re.compile(r"- J stack (\d{1,9}) (-1|\d{1,9}) (\d{1,9}) (\d{1,9})")
# So many functions are told of a place, each of which was called by the next one.
CHAIN = 2
# So many bytes of a log are made lines at a time.
AT_ONCE = 1 << 20
# Why nothing is recorded from a line on.
ENDS = {
    "- ! no room": "the disk had no room for more: the log ends at line {}",
    "- ! filter": "the program filters its calls of the system, and what was made ready before that is full: the log ends at line {}",
}
# Libraries of the system, whose functions call the program's or stand between two of these: their lines tell nothing of it.
SYSTEM = re.compile(r"(?:libc|libpthread|libm|libdl|libstdc\+\+|libgcc_s|ld-linux[\w-]*|ld-musl[\w-]*)[.-]")


@dataclass(slots=True)
class Address:
    """A place in a program's file: of a static handle, or of a callback."""

    offset: int
    # `-` where nobody knows it; `NAME+OFFSET/SIZE` within a variable, `NAME@FILE:LINE` of a function with debug information
    symbol: str
    file: str
    # where a name that is made of it comes from, in a sentence, where that isn't a function's symbol
    origin: str = ""

    def name(self) -> str:
        return re.split(r"[+@]", self.symbol)[0]

    def source(self) -> str:
        """Where a function's source stands, `` where nobody knows."""
        return self.symbol.partition("@")[2]

    def within_file(self) -> str:
        """The program or library in which it is, without its folder."""
        return self.file.rsplit("/", 1)[-1]

    def called_from(self) -> list[str]:
        """Of a place that calls, in words: `at churn.c:14, in rearm`; and where its function is a part of another one, that too."""
        told = []
        for one in self.symbol.split("<"):
            name, _, source = one.partition("@")
            function = f"in {in_words(name)}" if name != "-" else f"in a function of {self.within_file()} that has no symbol"
            told.append(f"at {source}, {function}" if source else function)
        return told

    def within(self) -> tuple[int, int]:
        """How far behind a variable's start it lies, and how large that is; (0, 0) where the log doesn't say."""
        found = re.fullmatch(r".*\+(\d+)/(\d+)", self.symbol)
        return (int(found[1]), int(found[2])) if found else (0, 0)


@dataclass
class Late:
    """Why a ring was kept apart."""

    # a callback took so long; a timer, that with this number, was called so late; or a poll ended so late
    what: str
    loop: int
    # up to when, by the clock of this loop, and how long, in ms
    clock: int
    took: int
    id: int
    # ms of that others had the processor
    others: int = 0

    def begin(self) -> int:
        return self.clock - self.took


@dataclass
class Log:
    # of the log's own form, and of libuv
    form: int
    version: str
    process: int
    workers: int
    program: str
    loops: dict[int, Events] = field(default_factory=dict)
    addresses: dict[int, Address] = field(default_factory=dict)
    # of JavaScript: a function, or where it was, and its file and line; and of a stack the one below it, the place and its line
    home: str = ""
    language: str = "JavaScript"
    places: dict[int, str] = field(default_factory=dict)
    stacks: dict[int, tuple[int, int, int]] = field(default_factory=dict)
    # names of V8's that the recorder asks for, and this node doesn't have
    lacks: list[str] = field(default_factory=list)
    maps: Maps = field(default_factory=Maps)
    lines: int = 0
    # why it ends before its program did, or hasn't all of it, in a sentence
    note: str = ""
    # of each loop but the first how much later its times begin, in ms
    later: dict[int, int] = field(default_factory=dict)
    # the signal that ended the program, `` where none did
    ended: str = ""
    # it is a ring's, whose first window isn't the program's first one
    turned: bool = False
    # of a copy of the ring of a living program: when it was made, in ms of the first loop's time
    copied: int | None = None
    # of such a copy, by the loop: when it was seen in its callback, by the first loop's time, in which call (`look`: in none), and the stack
    now: dict[int, tuple[int, str, str]] = field(default_factory=dict)
    # why the ring was kept apart, where it was
    late: Late | None = None
    # why nothing of the program's libuv can be seen, in a sentence
    blind: str = ""

    def behind(self, loop: int) -> int:
        """How much later than those of the first loop its times begin, in ms."""
        return self.later.get(loop, 0)

    def is_one_clock(self) -> bool:
        """Is that known of each loop?"""
        return len(self.later) >= len(self.loops) - 1

    def callers(self) -> set[int]:
        """The numbers of the places that call libuv, and of those that call these functions."""
        places = {it.place for events in self.loops.values() for it in events.said if it.place} | {stack for _, _, stack in self.now.values()}
        return {int(number) for place in places for number in place.split("<")}

    def place(self, place: str) -> str:
        """A place in words, with who called its function: two functions at the most."""
        told = [it for number in place.split("<") if number and (address := self.addresses.get(int(number))) for it in address.called_from()]
        return ", called ".join(told[:CHAIN])

    def waited_at(self, stack: str) -> str:
        """Where a call that waited was made, in words: of the program's functions those with a line, where there are any."""
        frames = self.callers_on(stack)
        own = [it for it in frames if it.source() and not SYSTEM.match(it.within_file())] or frames[:CHAIN]
        return ", called ".join([told for it in own for told in it.called_from()][:CHAIN]) if own else self.place(stack)

    def callers_on(self, stack: str) -> list[Address]:
        """The places of a stack, the innermost first, up to the callback of the loop: without the recorder's and libuv's."""
        frames = [self.addresses[int(it)] for it in stack.split("<") if it and int(it) in self.addresses]
        # (the recorder's own function calls the callback, and libuv that one)
        ends = [at for at, it in enumerate(frames) if is_recorder(it) and at + 1 < len(frames) and is_of_libuv(frames[at + 1])]
        return [it for it in frames[: ends[-1] if ends else len(frames)] if not is_recorder(it) and not is_of_libuv(it)]

    def frames(self, stack: str) -> list[str]:
        """The functions of a look at a stack with their lines (`rebuild_index@http.c:14`; of the system's libraries `regexec@@regexec.c:9`), the
        innermost first: without those that have no name."""
        rows = [(one, SYSTEM.match(it.within_file())) for it in self.callers_on(stack) for one in it.symbol.split("<") if not one.startswith("-")]
        return [f"{one}@" if system and "@" not in one else one.replace("@", "@@", 1) if system else one for one, system in rows]


def is_recorder(address: Address) -> bool:
    return bool(re.fullmatch(r"(?:recorder|force|sanitized)[^/]*\.so", address.within_file()))


def is_of_libuv(address: Address) -> bool:
    return "libuv.so" in address.within_file() or address.symbol.startswith("uv_")


def within(workers: int) -> int:
    return max(1, min(1024, workers))


def lines_of(data: bytes) -> Iterator[str]:
    """The lines of a log, but one that is cut: so many bytes at a time are made a text."""
    begin, end = 0, data.rfind(b"\n")
    while begin <= end:
        behind = data.find(b"\n", min(begin + AT_ONCE, end)) + 1
        # (a window of the file that wasn't filled has zeros at its end)
        yield from harmless(data[begin : behind - 1].replace(b"\0", b"").decode("utf-8", "replace")).split("\n")
        begin = behind


def read_log(data: bytes) -> Log:
    """What stands in a log, up to its first line that is none."""
    lines = lines_of(data)
    first = next(lines, "")
    head = HEAD.fullmatch(first)
    if not head and re.match(r"uvt \d", first):
        raise Fault("this is a recording, and no log: uvt-why, uvt-shell and uvt-view take it as it is")
    if not head:
        raise Fault(
            "this is no log of a program: its first line isn't `uvt-log 1` or `uvt-log 2` with libuv's version, a process, workers" " and a program"
        )
    log = Log(int(head[1]), head[2], int(head[3]), within(int(head[4])), head[5])
    for number, text in enumerate(lines, 2):
        log.lines = number
        if found := read_event(text):
            loop, said, now, clock = found
            if loop not in log.loops:
                log.loops[loop] = Events()
            log.loops[loop].add(said, now, clock, number)
            if said.type == "L":
                log.later[loop] = int(said.words)
        elif home := HOME.fullmatch(text):
            log.home = home[1]
        elif language := LANGUAGE.fullmatch(text):
            log.language = language[1]
        elif address := ADDRESS.fullmatch(text):
            log.addresses[int(address[1])] = Address(int(address[2], 16), address[3], address[4])
        elif place := PLACE.fullmatch(text):
            log.places[int(place[1])] = place[2]
        elif lacks := LACKS.fullmatch(text):
            log.lacks.append(lacks[1])
        elif stack := STACK.fullmatch(text):
            log.stacks[int(stack[1])] = int(stack[2]), int(stack[3]), int(stack[4])
        elif workers := WORKERS.fullmatch(text):
            log.workers = within(int(workers[1]))
        elif turned := TURNED.fullmatch(text):
            log.turned = int(turned[1]) > 1
        elif copied := COPIED.fullmatch(text):
            log.copied = int(copied[1])
        elif BASE.fullmatch(text):
            continue
        elif where := NOW.fullmatch(text):
            log.now[int(where[1])] = int(where[2]), where[3], where[4]
        elif late := LATE.fullmatch(text):
            log.late = Late(late[1], *(int(it or 0) for it in late.groups()[1:]))
        elif ended := ENDED.fullmatch(text):
            log.ended = ended[1]
        elif unseen := UNSEEN.fullmatch(text):
            if unseen[1] == "-":
                log.blind = log.note = f"nothing can be seen of the libuv within the program: {unseen[2]}"
            else:
                log.note = f"{unseen[1]} can't be seen ({unseen[2]}): what the program asks by it is missing"
        elif text in ENDS:
            log.note = ENDS[text].format(number)
            return log
        else:
            log.note = f"line {number} of the log is none that the recorder writes: what stands before it was taken"
            return log
    if data[data.rfind(b"\n") + 1 :].strip(b"\0"):
        log.note = f"the log is cut in its line {max(1, log.lines) + 1}: what stands before it was taken"
    return log
