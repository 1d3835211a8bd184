"""What is known of a recording of a program beside its steps: NAME.notes, which ./uvt record writes beside NAME.rec.

A line each: what a name stands for, which functions its callbacks are, which steps from outside nobody saw, which ticks are no
callback's, which ops another thread did, what came with each callback of I/O, how the polls are beside the program's, and whether the
recording is only a beginning. The first line has the recording's digest: of another one the notes say nothing.

Of handles of I/O tools ask `is_io(NAME)`, `thing(NAME)` (`a tcp`) and `came(NAME, CALL)` (`512 bytes were read`), CALL from 1 as in `@CALL`.
"""

from __future__ import annotations

import bisect
import itertools
import os
import signal
from dataclasses import dataclass, field
from pathlib import Path

from uvt.javascript import JavaScript
from uvt.node_names import InNode, in_node
from uvt.spent import Held, Spent

HEAD = "uvt-notes 1"
# What would steer a terminal: the control signs of ASCII and those of 0x80 to 0x9f, except for the line feed and the tab; and half signs, which no
# output takes.
CONTROL = {it: "?" for it in (*range(32), *range(127, 160), *range(0xD800, 0xE000)) if it not in (9, 10)}
IN_A_LINE = 20
# Handles of I/O by their kinds, in a person's words.
THINGS = {
    "tcp": "a tcp",
    "pipe": "a pipe",
    "tty": "a terminal",
    "udp": "a udp",
    "poll": "a poll",
    "signal": "a signal",
    "process": "a process",
    "fs_event": "a watched file",
    "fs_poll": "a watched file",
}
# What came with a callback of I/O by the log's word: where all is well; and what it is where it failed, or where the log says no more.
CAME = {
    "connect": "it is connected",
    "write": "a write is done",
    "send": "a datagram is sent",
    "shutdown": "the shutdown is done",
    "connection": "a connection",
    "fs_poll": "a change",
}
THAT = {
    "read": "a read",
    "receive": "a datagram",
    "connection": "a connection",
    "connect": "the connect",
    "write": "a write",
    "send": "the sending of a datagram",
    "shutdown": "the shutdown",
    "poll": "an event",
    "signal": "a signal",
    "exit": "its end",
    "fs_event": "a change",
    "fs_poll": "a look at the file",
}
FAILS = {"poll": "the poll", "fs_event": "the watch"}
# Signs of what an event of a poll, or a change of a file, was.
SIGNS = {
    "poll": {"r": "readable", "w": "writable", "d": "disconnected", "p": "readable out of band"},
    "fs_event": {"r": "renamed", "c": "changed"},
}


# How `part` begins where all callbacks that are left out are of node's own handles; and what is said of that.
NODES_ALONE = "it lacks node's own"
LEFT_OUT = "what node's own handles are called for at its end is left out, and nothing of the program's JavaScript"


# How `ended` begins of a copy: that isn't the program's end.
COPIED = "copied"


def sum_of(data: bytes) -> str:
    # (where there are no notes, nobody needs it)
    import hashlib

    return hashlib.sha256(data).hexdigest()


@dataclass
class Request:
    """A request of a stream, or a datagram that is sent."""

    stream: str
    # write, connect, shutdown or send
    what: str
    bytes: int
    # when it was asked for, behind which step, and where in the program: the number of the place, -1 where nobody knows
    asked: int
    asked_step: int
    place: int
    # when it was called back, at which step, and what libuv said then (`ok`, or an error); -1, 0 and `-` where that never came
    done: int = -1
    done_step: int = 0
    status: str = "-"

    def line(self) -> str:
        numbers = (self.bytes, self.asked, self.asked_step, self.place, self.done, self.done_step)
        return f"request {self.stream} {self.what} {' '.join(map(str, numbers))} {self.status}"


@dataclass
class Notes:
    """Empty where there are none."""

    # why the recording is only a beginning, or a part, in a sentence
    part: str = ""
    # of a name its kind in the program, and where it comes from
    names: dict[str, tuple[str, str]] = field(default_factory=dict)
    # of a list (`on`, `after`, `closed`; `work` is what a worker calls) and a name the functions that were called, each with the first
    # call from which it is that
    functions: dict[tuple[str, str], list[tuple[int, str]]] = field(default_factory=dict)
    # the steps from outside (sends, takes, finishes) that nobody saw: they are put where what came of them needs them
    guessed: set[int] = field(default_factory=set)
    # the lines of the recording, from 1, that another thread than the loop's did, each with its function
    foreign: dict[int, str] = field(default_factory=dict)
    # the ticks of time that went by when no callback was under way
    outside: set[int] = field(default_factory=set)
    # of a take, a finish or a queueing the clock, where that was another one than at its step
    times: dict[int, int] = field(default_factory=dict)
    # of a name of I/O by its call what came, in the log's words with signs between: `read:512`, and `write:ok+write:ok` where one call
    # stands for two callbacks
    what: dict[str, dict[int, str]] = field(default_factory=dict)
    # how many polls there are, and how many in the program, and whether they wait as long, in a sentence
    polls: str = ""
    # the signal that ended the program, and what the loop was at, in a sentence
    ended: str = ""
    # the sends that another loop of the program did: which loop, and in which function of its callback
    by: dict[int, str] = field(default_factory=dict)
    # of a program in node: what its JavaScript did
    javascript: JavaScript = field(default_factory=JavaScript)
    # the requests that were queued again while they were under way
    again: list[str] = field(default_factory=list)
    # the handles whose memory became something else before they were closed: of each what became of it, and when
    written: dict[str, str] = field(default_factory=dict)
    # which loop of the program it is: 0 is the first one
    loop: int = 0
    # how long a callback or work (as in `functions`, with its call) was on the processor, in ms
    processor: dict[tuple[str, str, int], int] = field(default_factory=dict)
    # what these did while they took long
    spent: dict[tuple[str, str, int], Spent] = field(default_factory=dict)
    # of a poll that the system ended late, by the clock then: by how much, how long its thread waited for a processor, and whether a signal ended it
    held: dict[int, Held] = field(default_factory=dict)
    # the processes of which the program itself took the end, so that libuv never tells it: where
    reaped: dict[str, str] = field(default_factory=dict)
    # places in the program, in words (`at churn.c:14, in rearm`); and of each step that such a place asked for, which it is
    places: list[str] = field(default_factory=list)
    asked_at: dict[int, int] = field(default_factory=dict)
    # the requests of streams, in the order in which they were asked for
    requests: list[Request] = field(default_factory=list)
    # the calls that changed nothing: of which name, the function, the step of the callback in which it was (0: of none), and its place
    nothings: list[tuple[str, str, int, int]] = field(default_factory=list)
    # why the ring of which it is was kept apart, in a sentence
    kept: str = ""
    # of a recording that begins in the middle: up to this step it has what was there by then
    before: int = 0

    def place(self, step: int) -> str:
        """Where in the program this step was asked for, `` where nobody knows."""
        at = self.asked_at.get(step, -1)
        return self.places[at] if 0 <= at < len(self.places) else ""

    def in_node(self, name: str, kind: str = "", call: int = 1) -> InNode | None:
        """What this callback of the name is in node, of which the JavaScript is known; None in any other program. Without a kind: any of its."""
        if not self.javascript or self.javascript.language != "JavaScript" or name not in self.names:
            return None
        kinds = (kind,) if kind else ("on", "after", "closed")
        function = next((found for it in kinds if (found := self.function(it, name, call))), "") or self.names[name][1]
        return in_node(self.names[name][0], name, function)

    def is_nodes_own(self, name: str) -> bool:
        """Does node have it for itself, in a program whose JavaScript is known?"""
        found = self.in_node(name)
        return found is not None and found.own

    def function(self, list: str, name: str, call: int) -> str:
        """Which function that call is, `` where nobody knows."""
        known = self.functions.get((list, name), [])
        at = bisect.bisect_right(known, (call, chr(0x10FFFF))) - 1
        return known[at][1] if at >= 0 else ""

    def kind(self, name: str) -> str:
        return self.names.get(name, ("", ""))[0]

    def is_io(self, name: str) -> bool:
        """Is it a handle of I/O?"""
        return self.kind(name) in THINGS

    def came(self, name: str, call: int) -> str:
        """What came with this call of a handle of I/O, in words: `512 bytes were read`, `the end of the stream`; `` where nobody knows."""
        return sentence(self.what.get(name, {}).get(call, ""))

    def part_told(self) -> str:
        """That it isn't all of it. (Where only node's own is left out, that is nothing that anybody can act on.)"""
        return LEFT_OUT if self.part.startswith(NODES_ALONE) else f"THE RECORDING IS A PART: {self.part}"

    def loud(self) -> list[str]:
        """What each tool says before all else: that it isn't all of it, and what another thread did."""
        lines = [self.part_told()] if self.part else []
        lines += [f"KEPT APART, SINCE {self.kept}"] if self.kept else []
        if self.ended.startswith(COPIED):
            lines.append(self.ended.replace(COPIED, "A COPY OF A PROGRAM THAT WENT ON, MADE", 1))
        elif self.ended:
            lines.append(f"THE PROGRAM WAS ENDED BY {self.ended}")
        return (
            lines
            + [
                f"WRONG THREAD: {function} was called by another thread while the loop ran, which libuv allows of uv_async_send alone: line {line}"
                for line, function in sorted(self.foreign.items())
            ]
            + [f"QUEUED AGAIN: {name} was queued while it was under way, which libuv doesn't allow" for name in self.again]
            + [f"WRITTEN OVER: {name}, {told}" for name, told in self.written.items()]
            + [
                f"WAITED FOR BY THE PROGRAM: {name}, a process, {place or 'by a call of its own'}, so libuv never calls its exit callback"
                for name, place in self.reaped.items()
            ]
        )

    def text(self, recording: bytes) -> str:
        lines = [f"{HEAD} {sum_of(recording)}"]
        lines += [f"part {self.part}"] if self.part else []
        lines += [f"polls {self.polls}"] if self.polls else []
        lines += [f"ended {self.ended}"] if self.ended else []
        lines += [f"kept {self.kept}"] if self.kept else []
        lines += [f"before {self.before}"] if self.before else []
        lines += [f"loop {self.loop}"] if self.loop else []
        for name, (kind, origin) in self.names.items():
            lines.append(f"name {name} {kind} {origin}")
            for list in ("work", "on", "after", "closed"):
                lines += [f"calls {list} {name} {call} {text}" for call, text in self.functions.get((list, name), [])]
            lines += came_lines(name, self.what.get(name, {}))
        lines += self.javascript.lines()
        lines += [f"thread {line} {function}" for line, function in sorted(self.foreign.items())]
        lines += [f"again {name}" for name in self.again]
        lines += [f"written {name} {told}" for name, told in self.written.items()]
        lines += [f"cpu {list} {name} {call} {ms}" for (list, name, call), ms in sorted(self.processor.items())]
        lines += [line for key, it in sorted(self.spent.items()) for line in it.lines(key)]
        lines += [f"held {clock} {it.late} {it.waited} {it.signalled:d} {it.before}" for clock, it in sorted(self.held.items())]
        lines += [f"reaped {name} {place}" for name, place in self.reaped.items()]
        lines += self.place_lines()
        lines += [it.line() for it in self.requests]
        lines += [f"nothing {name} {function} {step} {place}" for name, function, step, place in self.nothings]
        lines += [f"by {step} {text}" for step, text in sorted(self.by.items())]
        lines += [f"clock {step} {clock}" for step, clock in sorted(self.times.items())]
        for word, found in (("unseen", self.guessed), ("outside", self.outside)):
            steps = sorted(found)
            lines += [f"{word} " + " ".join(map(str, steps[at : at + IN_A_LINE])) for at in range(0, len(steps), IN_A_LINE)]
        return "\n".join(lines) + "\n"

    def place_lines(self) -> list[str]:
        """The places, and behind each the steps that it asked for."""
        lines = [f"place {text}" for text in self.places]
        steps: dict[int, list[int]] = {}
        for step, place in sorted(self.asked_at.items()):
            steps.setdefault(place, []).append(step)
        for place, found in sorted(steps.items()):
            lines += [f"at {place} " + " ".join(map(str, found[at : at + IN_A_LINE])) for at in range(0, len(found), IN_A_LINE)]
        return lines


def harmless(text: str) -> str:
    """A text from somewhere else, as it may be shown at a terminal."""
    return text.translate(CONTROL)


def signal_name(number: str | int) -> str:
    """`SIGTERM`, or `signal 77` where it has no name."""
    try:
        return signal.Signals(int(number)).name
    except ValueError:
        return f"signal {number}"


def times(count: int, what: str) -> str:
    """`1 call`, `2 calls`."""
    return f"{count} {what}" if count == 1 else f"{count} {what}s"


def some(names: list[str], most: int) -> str:
    """Names in one line, the first ones where there are more than so many."""
    return ", ".join(names[:most]) + (f" and {len(names) - most} more" if len(names) > most else "")


def listed(texts: list[str]) -> str:
    """`a`, `a and b`, `a, b and c`."""
    return " and ".join(filter(None, [", ".join(texts[:-1]), *texts[-1:]]))


def one_sentence(what: str, known: list[str]) -> str:
    """A thing that came, in words."""
    match what, known:
        case "read", ["EOF"]:
            return "the end of the stream"
        case "read" | "receive", ["0"]:
            return "nothing more to read" if what == "read" else "an empty datagram"
        case "receive", ["none"]:
            return "no more datagrams"
        case "read", [count] if count.isdecimal():
            return "1 byte was read" if count == "1" else f"{count} bytes were read"
        case "receive", [count] if count.isdecimal():
            return f"a datagram of {count} byte{'s' * (count != '1')}"
        case "signal", [number] if number.isdecimal():
            return signal_name(number)
        case "exit", [status, "0"]:
            return f"it ended with status {status}"
        case "exit", [_, number] if number.isdecimal():
            return f"it was ended by {signal_name(number)}"
        case _, [code] if code.startswith("E") and what in THAT:
            that = FAILS.get(what, THAT[what])
            return f"{that} was cancelled" if code == "ECANCELED" else f"{that} failed, {code}"
        case _, [signs] if what in SIGNS and signs and set(signs) <= set(SIGNS[what]):
            return f"it {'is' if what == 'poll' else 'was'} {listed([SIGNS[what][it] for it in signs])}"
        case _, ["ok"] if what in CAME:
            return CAME[what]
    return THAT.get(what, what)


def sentence(told: str) -> str:
    """What came, in words: several things where one call stands for several callbacks."""
    return listed([one_sentence(what, known) for what, *known in (it.split(":") for it in told.split("+"))]) if told else ""


def came_lines(name: str, what: dict[int, str]) -> list[str]:
    """What came, in lines of some calls each, one behind the other."""
    lines: list[str] = []
    for _, run in itertools.groupby(enumerate(sorted(what)), lambda it: it[1] - it[0]):
        calls = [call for _, call in run]
        for at in range(0, len(calls), IN_A_LINE):
            part = calls[at : at + IN_A_LINE]
            lines.append(" ".join([f"came {name} {part[0]}", *(what[it] for it in part)]))
    return lines


def path_of(descriptor: int) -> Path | None:
    """The file that an input is, if it is one."""
    try:
        path = Path(os.readlink(f"/proc/self/fd/{descriptor}"))
    except OSError:
        return None
    return path if path.is_absolute() and path.is_file() else None
