"""The ops of a program, each with the name that its handle or request has in the script."""

from __future__ import annotations

import collections
import re

from uvt.record.items import Bound, Call, Done, Finish, Foreign, Op, Origin, Program, Request, Send, Take, Waited, is_pool
from uvt.record.javascript import Reader
from uvt.record.events import TIMER_OWN, WATCHERS, Event
from uvt.record.log import Address, Log
from uvt.record.names import base_name, element
from uvt.record.where import Where
from uvt.spent import in_words

# So many handles whose names come from one callback have numbers that stay; behind that the number of one that is gone stands for another.
STAYS = 500
ID = re.compile(r"%(\d+)")
# node's function around all callbacks of requests, which tells nothing of them.
WRAPPER = "MakeLibuvRequestCallback::Wrapper"
# What libuv does by itself with a handle of I/O, about its callback: the recorder sees it behind that.
SETTLES = ("start", "stop", "ref", "unref")


class Ops:
    """What the script says: names and ops."""

    def __init__(self, log: Log, loop: int, has_polls: bool) -> None:
        self.log, self.loop = log, loop
        self.program = Program(version=log.version, form=log.form)
        self.items = self.program.items
        self.bound: dict[int, Bound] = {}
        self.first_callback: dict[int, int] = {}
        self.variable: dict[int, tuple[int, int]] = {}
        # by object and what its line says as it begins: the callback that it has now
        self.callback: dict[tuple[int, str], int] = {}
        self.functions: list[str] = []
        # of each place in the program: its function in words
        self.told_of: dict[int, str] = {}
        # of other loops that send here: where callbacks begin and end, and where their functions lie
        self.others: dict[int, tuple[list[Event], dict[tuple[int, str], int]]] = {}
        self.free: dict[str, list[str]] = collections.defaultdict(list)
        self.numbers: collections.Counter[str] = collections.Counter()
        self.taken: set[str] = {"wake"}
        # by object, -1 for the loop: the function by which another thread asks something of it
        self.by_other: dict[int, str] = {}
        # by object: the place in the program that made it
        self.made_at: dict[int, str] = {}
        # the callbacks under way: the first one, in which the others are, and how many
        self.call: Call | None = None
        self.depth = 0
        # ops outside of callbacks, each with the function by which another thread did it
        self.stray: list[tuple[Op, str]] = []
        # what was asked of the program in front of the next callback, and took long
        self.early: list[Waited] = []
        self.runs = 0
        self.under_way: dict[int, Request] = {}
        self.where = Where(has_polls, log.form > 1)
        self.javascript = Reader(log)

    # ---- names

    def base_of(self, id: int, kind: str) -> tuple[str, str, bool]:
        """What a name is made of, where that comes from, and whether that is the variable in which it lies."""
        place, size = self.variable.get(id, (-1, 0))
        address = self.log.addresses.get(place)
        if address and (base := base_name(address, size)):
            return base, f"the variable {address.name()}{element(address, size)} of {address.file}", True
        address = self.log.addresses.get(self.first_callback.get(id, -1))
        if address and address.origin and (base := base_name(address, 0)):
            return base, address.origin, False
        if address and (base := base_name(address, 0)) and not address.name().endswith(WRAPPER):
            return base, f"in memory of its own: the name is that of its function {self.told(address)}", False
        return kind, "in memory of its own, and its function has no symbol that tells more", False

    @staticmethod
    def told(address: Address) -> str:
        """A function, with its source where that is known."""
        if address.symbol == "-":
            return f"a function of {address.within_file()}"
        return f"{in_words(address.name())} ({address.source()})" if address.source() else in_words(address.name())

    def bind(self, id: int, kind: str, line: int) -> Bound:
        base, origin, is_variable = self.base_of(id, kind)
        stays = not is_variable and self.numbers[base] < STAYS
        bound = self.bound[id] = Bound(id, kind, base, self.name_for(base, stays), len(self.items), stays)
        if bound.name not in self.taken:
            self.taken.add(bound.name)
            self.program.names.append(bound.name)
            self.program.origins.append(Origin(bound.name, kind, f"{origin}, first seen in line {line} of the log"))
        self.program.slots = max(self.program.slots, len(self.bound))
        return bound

    def name_for(self, base: str, stays: bool) -> str:
        if self.free[base] and not stays:
            return self.free[base].pop()
        while True:
            self.numbers[base] += 1
            name = base if self.numbers[base] == 1 else f"{base}_{self.numbers[base]}"
            if name not in self.taken:
                return name

    def release(self, bound: Bound) -> None:
        """From the beginning of its last callback on the name may stand for another one, if it is that of a variable."""
        del self.bound[bound.id]
        if not bound.stays:
            self.free[bound.base].append(bound.name)

    # ---- ops

    def add_op(self, event: Event, text: str, answer: str, foreign: str = "", settles: bool = False) -> None:
        """An op of the callback under way, or of the main program."""
        op = Op(*event.when(), text, answer, event.place)
        if self.call:
            self.keep_op(self.call, text, foreign)
        elif self.runs and settles and not foreign and self.settle(op):
            return
        elif self.runs:
            self.stray.append((op, foreign))
            self.program.notes["ops outside of callbacks, which were put into the next one"] += not foreign
            return
        else:
            self.program.main.append(text)
        self.items.append(op)

    def settle(self, op: Op) -> bool:
        """Puts it at the end of the last callback, if the loop did nothing behind that: it was seen as the callback was over."""
        # (a run is under way, and its beginning stands there at the least)
        at = len(self.items) - 1
        while isinstance(self.items[at], (Take, Finish, Send)):
            at -= 1
        done = self.items[at]
        if not isinstance(done, Done):
            return False
        op.now = done.now
        self.add_to_body(done.call, op.text)
        self.items.insert(at, op)
        return True

    def keep_op(self, call: Call, text: str, foreign: str) -> None:
        """An op of this callback. `foreign`: by which function another thread did it."""
        if foreign:
            self.program.foreign_ops[call.callback, call.name, call.number, len(call.body)] = foreign
        self.add_to_body(call, text)

    def add_to_body(self, call: Call, text: str) -> None:
        body = self.program.bodies[call.callback, call.name][call.number - 1]
        if not isinstance(body, list):
            body = call.body = self.program.bodies[call.callback, call.name][call.number - 1] = []
        body.append(text)

    def read_foreign(self, event: Event) -> None:
        id, _, function = event.words.split(" ")
        self.by_other[int(id)] = function
        bound = self.bound.get(int(id))
        self.program.foreign.append(Foreign(event.line, function, bound.name if bound else ""))

    def foreign_of(self, id: int, name: str) -> str:
        """By which function another thread does this op; `` where the loop's does. (A handle that it makes has no name before.)"""
        function = self.by_other.pop(id, "")
        if function and not self.program.foreign[-1].name:
            self.program.foreign[-1].name = name
        return function

    def read_op(self, event: Event) -> bool:
        text, answer = event.words.rsplit(" = ", 1)
        id = ID.search(text)
        if not id:
            self.where.see_op(text, event.now)
            self.add_op(event, text, answer, self.foreign_of(-1, ""))
            return True
        number, word = int(id[1]), text.split(" ")[0]
        if word in ("init", "queue"):
            return number not in self.bound and self.read_made(event, number, text.split(" ")[2])
        bound = self.bound.get(number)
        if not bound or not self.fits(bound, text):
            return False
        bound.closing |= word == "close" and answer == "ok"
        settles = bound.kind in WATCHERS and word in SETTLES
        self.add_op(event, ID.sub(bound.name, text), answer, self.foreign_of(number, bound.name), settles)
        return True

    def read_made(self, event: Event, id: int, kind: str) -> bool:
        """A handle, or a request."""
        name = self.bind(id, kind, event.line).name
        self.made_at[id] = event.place
        foreign = self.foreign_of(id, name)
        if is_pool(kind):
            self.add_op(event, f"queue {name} 1", "id", foreign)
            return True
        self.add_op(event, f"init {name} {kind if kind in TIMER_OWN else 'io'}", "id", foreign)
        if kind in WATCHERS:
            self.program.has_io = True
            # (such a log doesn't say when it is started: it is so always, and referenced while it counts)
            for op in ("start", "unref") if self.log.form == 1 else ():
                self.add_op(event, f"{op} {name}", "ok")
        return True

    def fits(self, bound: Bound, text: str) -> bool:
        """Does the recorder write this op of this kind? A log with a changed byte may say anything."""
        word, words = text.split(" ")[0], text.count(" ")
        may_start = {"idle", "prepare", "check"} | (WATCHERS if self.log.form > 1 else set())
        if word == "cancel":
            return is_pool(bound.kind)
        if word == "start":
            return bound.kind == "timer" if words == 3 else bound.kind in may_start
        if word in ("again", "repeat"):
            return bound.kind == "timer"
        if word == "send":
            return bound.kind == "async"
        return not is_pool(bound.kind) and (word != "stop" or bound.kind == "timer" or bound.kind in may_start)
