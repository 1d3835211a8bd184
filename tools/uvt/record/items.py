"""What a program did on a loop, item by item, and its script: what the lines of a log are read into.

The script says what the program asked of libuv. Nothing here knows what the loop makes of it.
"""

from __future__ import annotations

import collections
from collections.abc import Sequence
from dataclasses import dataclass, field

from uvt.javascript import JavaScript
from uvt.record.events import NO_CLOCK, TIMER_OWN, WATCHERS
from uvt.spent import Held


@dataclass(slots=True)
class Did:
    """What the program did next, in one of the ways that follow."""

    now: int
    # of a callback's beginning and end, a take, a finish and a send; NO_CLOCK where the log has none
    clock: int
    line: int


@dataclass(slots=True)
class Op(Did):
    text: str
    answer: str
    # the place in the program that asked for it, as the log has it; `` where nobody knows
    place: str = ""
    # of a request that is queued and a timer that is started the clock then, where the loop's time is an earlier one
    queued: int = NO_CLOCK


@dataclass(slots=True)
class Run(Did):
    mode: str


@dataclass(slots=True)
class End(Did):
    # what the run answers: 1 or 0
    alive: str


@dataclass(slots=True)
class Poll(Did):
    # None: one more, behind callbacks, in the same poll
    timeout: int | None


@dataclass(slots=True)
class Call(Did):
    """A callback begins."""

    name: str
    # `on`, `after` or `closed`, and which of the name's these it is, from 1
    callback: str
    number: int
    # of its handle or request; and at which item that was made
    kind: str
    made: int
    # what libuv said of it
    what: str
    # its ops (most have none)
    body: Sequence[str] = ()
    # of a callback of I/O, of an async handle or of a request: where libuv calls it; and of one of I/O what is known of what came
    section: str = ""
    known: str = ""

    def is_io(self) -> bool:
        """Is it a callback of a handle of I/O? (What comes while that closes is a part of its close callback.)"""
        return self.callback == "on" and self.kind in WATCHERS

    def is_polled(self) -> bool:
        """Does it come with the poll, of what has to be made ready for it?"""
        return self.callback != "closed" and (self.kind == "async" or is_pool(self.kind))


@dataclass(slots=True)
class Done(Did):
    # the callback that ends
    call: Call


@dataclass(slots=True)
class Take(Did):
    name: str


@dataclass(slots=True)
class Finish(Did):
    name: str


@dataclass(slots=True)
class Send(Did):
    name: str
    # which other loop's thread sends, and in which function of its callback; `` where nobody knows
    by: str = ""
    # the thread, as the log has it
    thread: str = ""


# Of a callback, an after callback or work: `on`, `after`, `closed` or `work`, its name, and the how-manieth.
Key = tuple[str, str, int]


@dataclass(slots=True)
class Request:
    """A request of a stream, or a datagram that is sent."""

    stream: str
    # write, connect, shutdown or send
    what: str
    bytes: int
    # when it was asked for, at which place, and in which callback: None in the main program
    asked: int
    place: str
    within: Key | None
    # when it was called back and what libuv said then, and the callback that this is a part of
    done: int = NO_CLOCK
    status: str = ""
    by: Key | None = None


@dataclass(slots=True)
class Nothing:
    """A call that changed nothing."""

    name: str
    function: str
    place: str
    within: Key | None


@dataclass(slots=True)
class Written:
    """A handle whose memory is something else, while libuv has it still."""

    name: str
    kind: str
    # when its memory was whole last, and when it was something else, and in which line of the log; and where it was made, `` where nobody knows
    whole: int
    seen: int
    line: int
    made: str
    # does it lie on the stack; and has another handle been made there
    on_stack: bool
    made_over: bool

    def told(self) -> str:
        """What became of it, and when."""
        when = f"at {self.seen} ms" if self.seen == self.whole else f"between {self.whole} and {self.seen} ms"
        article, where = "an" if self.kind[0] in "ai" else "a", " on the stack" if self.on_stack else ""
        what = f"{article} {self.kind}{where}{f', made {self.made}' if self.made else ''}"
        became = "another handle was made in its memory" if self.made_over else "its memory was written over"
        return f"{what}: {became}, {when}, and it was not closed; until its close callback that memory is libuv's"


Item = Op | Run | End | Poll | Call | Done | Take | Finish | Send


@dataclass
class Origin:
    """Where a name comes from."""

    name: str
    kind: str
    text: str


@dataclass
class Foreign:
    """What another thread than the loop's asked of it while it ran."""

    line: int
    function: str
    # of the handle or request, `` of the loop itself
    name: str


@dataclass
class Bound:
    """A handle or a request of the log, and its name."""

    id: int
    kind: str
    base: str
    name: str
    made: int
    stays: bool = False
    closing: bool = False
    # is it a request of the pool?
    is_pool: bool = field(init=False)

    def __post_init__(self) -> None:
        self.is_pool = is_pool(self.kind)


def is_pool(kind: str) -> bool:
    return kind not in TIMER_OWN and kind not in WATCHERS


@dataclass
class Waited:
    """A call in which a callback waited: which function, since when, how long, and where in the program, in words; of a lock, who had it."""

    function: str
    begin: int
    took: int
    place: str
    owner: str = ""


@dataclass
class Program:
    """A script, and what is to be followed."""

    names: list[str] = field(default_factory=list)
    main: list[str] = field(default_factory=list)
    # by callback and name, those of each call
    bodies: dict[tuple[str, str], list[Sequence[str]]] = field(default_factory=lambda: collections.defaultdict(list))
    items: list[Item] = field(default_factory=list)
    origins: list[Origin] = field(default_factory=list)
    # of a callback and a name the functions that were called, each with the first call from which it is that
    functions: dict[tuple[str, str], list[tuple[int, str]]] = field(default_factory=dict)
    foreign: list[Foreign] = field(default_factory=list)
    # the ops of these, by callback, name, call and place in the body, each with its function
    foreign_ops: dict[tuple[str, str, int, int], str] = field(default_factory=dict)
    # how long callbacks and works were on the processor, in ms, of those that took long enough
    processor: collections.Counter[Key] = field(default_factory=collections.Counter)
    # what these used of it else, in the log's numbers; the calls in which callbacks waited, and the stacks at which they were looked at
    used: dict[Key, tuple[int, ...]] = field(default_factory=dict)
    waits: dict[Key, list[Waited]] = field(default_factory=lambda: collections.defaultdict(list))
    # (each with how often, and for how many ms, as the log has it)
    stacks: dict[Key, list[tuple[str, str]]] = field(default_factory=lambda: collections.defaultdict(list))
    # the polls that the system ended late, and when
    held: list[tuple[int, Held]] = field(default_factory=list)
    # the processes for which the program itself has waited: the name, and where
    reaped: list[tuple[str, str]] = field(default_factory=list)
    # the requests of streams, in the order in which they were asked for
    requests: list[Request] = field(default_factory=list)
    nothings: list[Nothing] = field(default_factory=list)
    # of each place, as the log has it: where it is in the program, in words
    places: dict[str, str] = field(default_factory=dict)
    # the requests that were queued again while they were under way, with the line of the log
    again: list[tuple[int, str]] = field(default_factory=list)
    written: list[Written] = field(default_factory=list)
    notes: collections.Counter[str] = field(default_factory=collections.Counter)
    # of a name of I/O by its call: what came, in the log's words
    came: dict[str, dict[int, str]] = field(default_factory=dict)
    javascript: JavaScript = field(default_factory=JavaScript)
    has_io: bool = False
    slots: int = 0
    # of libuv, and of the log's form
    version: str = ""
    form: int = 2
    # where the items begin, if that isn't where the log does: in a sentence, and in ms of the loop's time
    began: str = ""
    begin: int = 0
    # the line of the log for which the ops stand that make what there was by then; -1 where none do
    again_line: int = -1
    # why the items end before the log does, in a sentence
    stopped: str = ""

    def callbacks(self) -> int:
        return sum(map(len, self.bodies.values()))

    def body_lines(self) -> list[str]:
        """The bodies by name. One that is the same in each call stands there once."""
        lines = []
        apart = {it[:2] for it in self.foreign_ops}
        for name in self.names:
            for kind in ("on", "after", "closed"):
                bodies = self.bodies.get((kind, name), [])
                if bodies and (kind, name) not in apart and bodies.count(bodies[0]) == len(bodies):
                    lines += [f"{kind} {name} {op}" for op in bodies[0]]
                else:
                    lines += [f"{kind} {name} @{call} {op}" for call, body in enumerate(bodies, 1) for op in body]
        return lines

    def is_before(self, minor: int) -> bool:
        """Is it a libuv before 1.MINOR?"""
        return bool(self.version) and int(self.version.split(".")[1]) < minor

    def settings(self) -> list[str]:
        """The lines of the script that say which loop it is."""
        order = ["order 1.44"] if self.is_before(45) else []
        io = ["io"] if self.has_io else []
        return order + io + (["timers heap"] if self.is_before(48) else [])

    def script(self, workers: int, wake: bool) -> list[str]:
        """The whole script. With `wake` a handle more, that stands for what woke the loop and called nobody."""
        slots = self.slots + (1 if wake else 0)
        lines = self.settings() + [f"workers {workers}"] + ([f"slots {slots}"] if slots > 1024 else [])
        lines += [f"var {name}" for name in (["wake"] if wake else []) + self.names]
        lines += ["main init wake async", "main unref wake"] if wake else []
        return lines + [f"main {op}" for op in self.main] + self.body_lines()
