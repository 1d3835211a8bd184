"""The lines of a log that say what happens on a loop: what each may say, and all of a loop's, one behind the other."""

from __future__ import annotations

import array
import functools
import re
from collections.abc import Iterable, Iterator, Sequence
from typing import NamedTuple, overload

NUMBER = r"(?:0|[1-9]\d{0,18})"
TIMER_OWN = {"timer", "idle", "prepare", "check", "async"}
WATCHERS = {"tcp", "udp", "pipe", "tty", "poll", "signal", "fs_event", "fs_poll", "process"}
NO_CLOCK = -1
TIMED = "BDEFGHJRSTq"
# Of these the place in the program stands at the end of the line, that called libuv there; behind `<` the one that called that function, and of a
# call that waited all that are on the stack.
CALLED = "DGIOSZ"
FROM = re.compile(r"(.*) @((?:0|[1-9]\d{0,8})(?:<(?:0|[1-9]\d{0,8})){0,63})")
# Of a look at a stack these are all of it, the innermost first. (Earlier logs say how often alone, and not for how many ms)
STACK_FROM = re.compile(r"(\d{1,9}(?: \d{1,9})?) @((?:0|[1-9]\d{0,8})(?:<(?:0|[1-9]\d{0,8})){0,63})")
# What a thread had of the processor: ms on it, and of later logs ms in the kernel, page faults without the disk and with it, how often it gave the
# processor away and was pushed off it, and ms that it waited for one.
USED = rf"(?: cpu {NUMBER}(?: {NUMBER}){{6}}| cpu {NUMBER})?"
CODE = r"(?:ok|E[A-Z0-9_]+)"
WORDS = {
    "O": re.compile(
        rf"init %{NUMBER} (?:{'|'.join(sorted(TIMER_OWN | WATCHERS))}) = ok"
        rf"|queue %{NUMBER} (?:work|addrinfo|nameinfo|random|fs_[a-z]+) = ok"
        rf"|start %{NUMBER}(?: \d{{1,20}} \d{{1,20}})? = {CODE}|repeat %{NUMBER} \d{{1,20}} = {CODE}"
        rf"|(?:stop|again|close|ref|unref|send|cancel) %{NUMBER} = {CODE}|(?:closeloop|stoploop|updatetime) = {CODE}"
    ),
    "D": re.compile(rf"[a-z_0-9]+ {NUMBER}(?: %{NUMBER})?(?: \^(?:%{NUMBER}|#{NUMBER}|[A-Za-z0-9_.-]{{1,31}}))?"),
    "E": re.compile(rf"{NUMBER}(?: \+)?{USED}"),
    "H": re.compile(rf"{NUMBER} {NUMBER} [01](?: {NUMBER})?"),
    "Y": re.compile(r"\d{1,9}(?: \d{1,9})?"),
    "Z": re.compile(NUMBER),
    "q": re.compile(NUMBER),
    "B": re.compile(rf"on {NUMBER} [a-z_]+(?: [A-Za-z0-9_-]+){{0,2}}(?: %{NUMBER})?|after {NUMBER} (?:ok|ECANCELED)|closed {NUMBER}"),
    "R": re.compile(r"(?:default|once|nowait)(?: \+)?"),
    "r": re.compile("[01]"),
    "P": re.compile(r"-?\d{1,10}"),
    "p": re.compile(r"-?\d{1,10}"),
    "T": re.compile(NUMBER),
    "F": re.compile(rf"{NUMBER}{USED}"),
    "G": re.compile(rf"{NUMBER} {NUMBER} (?:write|connect|shutdown|send) \d{{1,20}}"),
    "I": re.compile(rf"{NUMBER} uv_[a-z_]+"),
    "L": re.compile(r"-?\d{1,10}"),
    "S": re.compile(rf"{NUMBER} \d{{1,20}}(?: {NUMBER})?"),
    "C": re.compile(rf"{NUMBER} \d{{1,9}}(?: [a-z_]+)?"),
    "V": re.compile(rf"{NUMBER} \d{{1,9}}(?: \d{{1,9}})?"),
    "K": re.compile(rf"all|end|{NUMBER} [a-z_]+ [01] [01] [01] {NUMBER} {NUMBER} {NUMBER}"),
    "J": re.compile(
        rf"new {NUMBER} (?:timer|interval|immediate|soon|task|callback) (?:-1|{NUMBER}) (?:-1|{NUMBER}(?:<{NUMBER})*) {NUMBER}"
        rf"|was {NUMBER} (?:timer|interval|immediate|soon|task|callback) (?:-1|{NUMBER}) (?:-1|{NUMBER}(?:<{NUMBER})*) {NUMBER}"
        rf" {NUMBER}(?: {NUMBER})?|run {NUMBER}(?: {NUMBER} {NUMBER}(?: [1-7])?)?|ran {NUMBER}"
        rf"|gone {NUMBER} (?:-1|{NUMBER})|ref {NUMBER} [01] (?:-1|{NUMBER})|by {NUMBER} {NUMBER}(?:<{NUMBER})*"
        rf"|busy {NUMBER} {NUMBER} {NUMBER}(?: {NUMBER})?|gc {NUMBER} {NUMBER}|thread {NUMBER}(?: -?{NUMBER})?"
    ),
    "Q": re.compile(rf"{NUMBER} {NUMBER}"),
    "W": re.compile(rf"(?:-1|{NUMBER}) \d{{1,20}} uv_[a-z_0-9]+"),
    "M": re.compile(rf"{NUMBER} {NUMBER}(?: stack)?(?: made)?"),
}


# The loop's time, the clock, and the line of the log.
When = tuple[int, int, int]


class Event(NamedTuple):
    """A line of a loop."""

    type: str
    # the loop's time; and of a callback or work that begins or ends, and of a send the clock, or NO_CLOCK: in ms since the loop was first seen
    now: int
    clock: int
    words: str
    line: int
    # of an op, a send and a request of a stream: the place in the program that called libuv, by its number, and behind `<` the one that called that
    # function; `` where nobody knows
    place: str = ""

    def when(self) -> When:
        return self.now, self.clock, self.line


class Said(NamedTuple):
    """What a line has beside its times, and which line it is. (Most lines say what others have said.)"""

    type: str
    words: str
    place: str = ""


class Events(Sequence[Event]):
    """The lines of a loop, in little memory: what each says stands there once."""

    def __init__(self, events: Iterable[Event] = ()) -> None:
        self.said: list[Said] = []
        self.nows: list[int] = []
        self.clocks: list[int] = []
        self.lines = array.array("i")
        known: dict[Said, Said] = {}
        for it in events:
            said = Said(it.type, it.words, it.place)
            self.add(known.setdefault(said, said), it.now, it.clock, it.line)

    def add(self, said: Said, now: int, clock: int, line: int) -> None:
        self.said.append(said)
        self.nows.append(now)
        self.clocks.append(clock)
        self.lines.append(line)

    def rows(self) -> Iterator[tuple[Said, When]]:
        return zip(self.said, zip(self.nows, self.clocks, self.lines))

    def __len__(self) -> int:
        return len(self.said)

    def __iter__(self) -> Iterator[Event]:
        for (type, words, place), now, clock, line in zip(self.said, self.nows, self.clocks, self.lines):
            yield Event(type, now, clock, words, line, place)

    @overload
    def __getitem__(self, at: int) -> Event:
        ...

    @overload
    def __getitem__(self, at: slice) -> Events:
        ...

    def __getitem__(self, at: int | slice) -> Event | Events:
        if isinstance(at, int):
            type, words, place = self.said[at]
            return Event(type, self.nows[at], self.clocks[at], words, self.lines[at], place)
        part = Events()
        part.said, part.nows, part.clocks, part.lines = self.said[at], self.nows[at], self.clocks[at], self.lines[at]
        return part

    def places_of(self, types: str) -> list[int]:
        """Where lines of these types stand."""
        return [at for at, it in enumerate(self.said) if it.type in types]

    def has(self, types: str) -> bool:
        return any(it.type in types for it in self.said)


def is_number(text: str) -> bool:
    return text.isdecimal() and text.isascii() and len(text) <= 19 and (text[0] != "0" or text == "0")


@functools.lru_cache(maxsize=1 << 16)
def number_of(text: str) -> int:
    """The number that a word is; -1 where it is none. (The same words come again and again, and so do texts of lines: each is looked at once, and
    stands in memory once.)"""
    return int(text) if is_number(text) else -1


@functools.lru_cache(maxsize=1 << 16)
def read_words(type: str, words: str) -> Said | None:
    """What a line says behind its times, and the place in the program that called libuv, `` where it has none. None where no line says that."""
    if type == "Y":
        looked = STACK_FROM.fullmatch(words)
        return Said(type, looked[1], looked[2]) if looked else None
    place = ""
    if type in CALLED and (called := FROM.fullmatch(words)):
        words, place = called[1], called[2]
    return Said(type, words, place) if WORDS[type].fullmatch(words) else None


def read_event(text: str) -> tuple[int, Said, int, int] | None:
    """Of a line its loop, what it says, the loop's time and the clock; None where it is none of a loop."""
    parts = text.split(" ", 3)
    if len(parts) != 4 or parts[1] not in WORDS:
        return None
    _, type, _, words = parts
    loop, now = number_of(parts[0]), number_of(parts[2])
    if loop < 0 or now < 0:
        return None
    if type in TIMED:
        clock, _, rest = words.partition(" ")
        if (at := number_of(clock)) >= 0 and (found := read_words(type, rest)):
            return loop, found, now, at
        # (logs of earlier recorders have a clock at a callback's end alone)
        if type == "E":
            return None
    said = read_words(type, words)
    return (loop, said, now, NO_CLOCK) if said else None
