"""The loop that uvt runs, as a small step machine with switches: each puts libuv's way in the place of one rule.

With no switch it is uvt's loop, and with all of them that of libuv. So a script whose lines differ between the two is explained by
those switches that it takes to come from the one to the other. Each switch is a difference that docs/LIBUV.md tells of.
"""

from __future__ import annotations

import bisect

from tests.libuv.programs import WAKE, Program

# What each switch is, by the headings of docs/LIBUV.md. `order` is libuv's before 1.45.
SWITCHES = {
    "heap": ["A zero timeout started in a callback waits (own)", "A due timer that waits for its call isn't active (own)"],
    "again": ["`again` stops a timer that doesn't repeat"],
    "due": ["`due` of a timer that isn't active is 0 (own)"],
    "polled": ["`timeout` doesn't ask whether the loop has polled"],
    "idle": ["`timeout` in an idle callback counts the handles still to be called"],
    "closed": ["`alive` and `timeout` in a close callback count the handles still to be called"],
    "wake": ["A send in the async section leaves no wake behind"],
    "cancel": ["A request is cancelled once (own)"],
    "made": ["An async handle made in an after callback is called in the same iteration"],
    "closing": ["`start`, `again` and `send` of a handle that closes are `EINVAL` (own)"],
    "first": ["A default run that its first timers finish does no iteration (own)"],
    "entry": ["A default run looks at the clock as it begins, and no other run does (own)"],
    "poll": ["The poll waits from `now`, and not from the moment it begins"],
    "order": ["Each iteration ends with its timers, and doesn't begin with them"],
}

WATCHERS = ("idle", "prepare", "check")
LARGEST = 2**64 - 1
LONGEST_POLL = 2147483647
ENDED, BLOCKED = "refused ended", "refused blocked"


def switches_of(version: str) -> frozenset[str]:
    """All that make the loop that of this version of libuv."""
    return frozenset(it for it in SWITCHES if it != "order" or is_before_145(version))


def is_before(version: str, minor: int) -> bool:
    return tuple(int(it) for it in version.split(".")[:2]) < (1, minor)


def is_before_145(version: str) -> bool:
    return is_before(version, 45)


class Limit(Exception):
    """As many lines are printed as were asked for."""


class Item:
    """A handle or a request."""

    __slots__ = (
        "name",
        "kind",
        "slot",
        "generation",
        "ref",
        "active",
        "closing",
        "begun",
        "due",
        "start",
        "repeat",
        "pending",
        "outcome",
        "stops",
        "told",
    )

    def __init__(self, name: str, kind: str, slot: int, generation: int) -> None:
        self.name, self.kind, self.slot, self.generation = name, kind, slot, generation
        self.ref, self.active, self.closing, self.begun, self.pending = True, False, False, False, False
        # of a handle of I/O that is active: whether libuv has told the system so, which it does as it polls
        self.told = False
        self.due = self.start = self.repeat = self.stops = 0
        self.outcome = ""

    def id(self) -> str:
        return f"{self.slot}.{self.generation}"


class Model:
    """A run of a program: its lines, and the commands by which uvt takes the same way."""

    def __init__(self, program: Program, version: str = "1.46", switches: frozenset[str] = frozenset()) -> None:
        self.program, self.version, self.on = program, version, switches
        self.lines: list[str] = []
        self.commands: list[str] = []
        self.loops = 0  # steps of the loop that no command says yet
        self.next_step = 0
        self.quiet = False
        self.clock = self.now = self.next_start = 0
        self.stop_flag = self.idled = False
        self.bound: dict[str, Item] = {}
        self.calls: dict[tuple[str, str], int] = {}
        self.generations: list[int] = []
        self.free: list[int] = []
        self.counted = self.open = 0  # active referenced handles, requests
        self.heap: list[tuple[int, int]] = []
        self.by_start: dict[int, Item] = {}
        self.ready: list[Item] = []
        self.lists: dict[str, list[Item]] = {it: [] for it in (*WATCHERS, "async", "closing", "done")}
        self.yet: dict[str, list[Item]] = {it: [] for it in self.lists}
        self.waiting: list[Item] = []
        self.running: dict[int, Item] = {}
        self.place, self.at = "main", 0
        self.mode, self.alive_at_entry, self.collecting = "", False, False
        self.body: list[list[str]] = []
        self.deadline: int | None = None
        # for whom something comes in the poll under way or the next one, and what that poll brought and didn't call yet: those before and
        # behind the after and async callbacks, each with how often it was stopped by then
        self.came: list[str] = []
        self.brought: list[tuple[Item, int]] = []
        self.brought_behind: list[tuple[Item, int]] = []
        # whether due timers are called straight from the heap
        self.from_heap = is_before(version, 48) if "heap" in switches else program.heap
        # libuv's: the wake descriptor is written to, the pool's own async handle is pending, this poll reads the descriptor
        self.wake, self.pool_pending, self.reads = False, False, True
        self.polled = False

    # ---- lines, and steps from outside

    def print(self, line: str) -> None:
        self.lines.append(line)
        if len(self.lines) >= self.program.limit:
            raise Limit
        self.do_due_steps()

    def look(self) -> None:
        self.now = self.clock

    def do_due_steps(self) -> None:
        steps = self.program.steps
        while not self.quiet and self.next_step < len(steps) and steps[self.next_step][0] <= len(self.lines):
            self.do_next_step()

    def do_next_step(self) -> bool:
        if self.next_step == len(self.program.steps):
            return False
        word, what, *more = self.program.steps[self.next_step][1]
        self.next_step += 1
        if word == "io":
            self.came += [what, *more]
            return True
        if word == "tick":
            self.tick(int(what))
        elif word == "take":
            self.take(int(what))
        elif word == "finish":
            self.finish(int(what))
        else:
            self.command(f"{word} {what}")
            self.print(f"out {word} {what} = {self.answer([word, what])}")
        return True

    def command(self, command: str) -> None:
        self.flush()
        self.commands.append(command)

    def flush(self) -> None:
        if self.loops:
            self.commands.append(f"loop {self.loops}")
        self.loops = 0

    def tick(self, ms: int) -> None:
        self.command(f"tick {ms}")
        self.clock += ms
        self.print(f"out tick {ms}")

    def take(self, worker: int) -> bool:
        if worker >= self.program.workers or worker in self.running or not self.waiting:
            return False
        item = self.running[worker] = self.waiting.pop(0)
        item.outcome = "running"
        self.command(f"take {worker}")
        self.print(f"out take {worker} {item.name} {item.id()}")
        return True

    def finish(self, worker: int) -> bool:
        if worker not in self.running:
            return False
        item = self.running.pop(worker)
        item.outcome = "done"
        self.is_done(item)
        self.command(f"finish {worker}")
        self.print(f"out finish {worker} {item.name} {item.id()}")
        return True

    def is_done(self, item: Item) -> None:
        self.lists["done"].append(item)
        if not self.pool_pending:
            self.pool_pending = self.wake = True

    def do_some_work(self, workers: list[int]) -> bool:
        return any(self.take(it) for it in workers) or any(self.finish(it) for it in workers)

    def unblock(self) -> bool:
        """Does the first thing that may end the wait in the poll."""
        workers = list(range(self.program.workers))
        for way in self.program.ways:
            if way == "jump" and self.deadline is not None:
                self.tick(self.deadline - self.clock)
                return True
            if way in ("jobs", "jobs-down") and self.do_some_work(workers if way == "jobs" else workers[::-1]):
                return True
            if way == "steps" and self.do_next_step():
                return True
        return False

    # ---- handles

    def make(self, name: str, kind: str) -> Item | None:
        if self.free:
            slot = self.free.pop()
        elif len(self.generations) < self.program.slots:
            slot = len(self.generations)
            self.generations.append(0)
        else:
            return None
        item = self.bound[name] = Item(name, kind, slot, self.generations[slot])
        return item

    def release(self, item: Item) -> None:
        if self.bound.get(item.name) is item:
            del self.bound[item.name]
        if self.generations[item.slot] != self.program.last_generation:
            self.generations[item.slot] += 1
            self.free.append(item.slot)

    def activate(self, item: Item) -> None:
        item.active = True
        self.counted += item.ref

    def deactivate(self, item: Item) -> None:
        if item.active:
            item.active = False
            self.counted -= item.ref

    def refer(self, item: Item, ref: bool) -> None:
        if item.ref != ref:
            item.ref = ref
            if item.active and not item.closing:
                self.counted += 1 if ref else -1

    def start_timer(self, item: Item, timeout: int, repeat: int) -> None:
        item.due, item.start, item.repeat, item.begun = min(self.now + timeout, LARGEST), self.next_start, repeat, True
        self.next_start += 1
        bisect.insort(self.heap, (item.due, item.start))
        self.by_start[item.start] = item
        self.activate(item)

    def off_heap(self, item: Item) -> None:
        self.heap.remove((item.due, item.start))
        del self.by_start[item.start]
        self.deactivate(item)
        if "due" not in self.on:
            item.due = 0

    def stop(self, item: Item) -> None:
        if item.kind == "timer" and item.active:
            self.off_heap(item)
        elif item in self.ready:
            self.ready.remove(item)
        elif item.kind == "io":
            item.stops += 1
            self.deactivate(item)
        elif item.kind != "timer" and item.active:
            for some in (self.lists[item.kind], self.yet[item.kind]):
                if item in some:
                    some.remove(item)
            self.deactivate(item)

    # ---- what the loop says of itself

    def counts(self, name: str) -> bool:
        """Whether somebody is on this list, of a section under way those still to be called too (which libuv doesn't count)."""
        switch = {"idle": "idle", "closing": "closed"}[name]
        return bool(self.lists[name] or (self.yet[name] and switch not in self.on))

    def is_alive(self) -> bool:
        return bool(self.counted or self.open or self.counts("closing"))

    def goes(self) -> bool:
        return self.is_alive() and not self.stop_flag

    def timeout(self) -> int | None:
        """How long a poll may wait; None is for ever."""
        if self.stop_flag or not (self.counted or self.open) or self.counts("idle") or self.counts("closing"):
            return 0
        if not self.heap:
            return None
        return min(max(self.heap[0][0] - self.now, 0), LONGEST_POLL)

    def poll_timeout(self) -> int | None:
        return 0 if self.mode == "nowait" or (self.mode == "once" and self.idled) else self.timeout()

    # ---- ops

    def answer(self, op: list[str]) -> str:
        word = op[0]
        if word in LOOP_OPS:
            return getattr(self, LOOP_OPS[word])()
        item = self.bound.get(op[1])
        if word in ("init", "queue"):
            return "EBOUND" if item else self.made(op)
        if item is None:
            return "ESTALE"
        if not fits(op, item.kind):
            return "EKIND"
        return getattr(self, ITEM_OPS[word])(item, op)

    def made(self, op: list[str]) -> str:
        item = self.make(op[1], op[2] if op[0] == "init" else "work")
        if item is None:
            return "EFULL"
        if item.kind == "work":
            item.outcome = "waiting"
            self.waiting.append(item)
            self.open += 1
        elif item.kind == "async":
            self.activate(item)
            self.lists["async"].append(item)
        return item.id()

    def ask_now(self) -> str:
        return str(self.now)

    def ask_alive(self) -> str:
        return str(int(self.is_alive()))

    def close_loop(self) -> str:
        return "EBUSY" if self.bound else "ok"

    def ask_timeout(self) -> str:
        if "polled" in self.on and not (self.polled and all(it.told for it in self.bound.values() if it.kind == "io" and it.active)):
            return "0"
        timeout = self.timeout()
        return "infinite" if timeout is None else str(timeout)

    def set_stop_flag(self) -> str:
        self.stop_flag = True
        return "ok"

    def update_time(self) -> str:
        self.look()
        return "ok"

    def start_op(self, item: Item, op: list[str]) -> str:
        if item.closing and (item.kind in ("timer", "io") or "closing" not in self.on):
            return "EINVAL"
        if item.kind == "timer":
            self.stop(item)
            self.start_timer(item, int(op[2]), int(op[3]))
        elif not item.active:
            self.activate(item)
            if item.kind == "io":
                item.told = False
            else:
                self.lists[item.kind].insert(0, item)
        return "ok"

    def stop_op(self, item: Item, _: list[str]) -> str:
        self.stop(item)
        return "ok"

    def again_op(self, item: Item, _: list[str]) -> str:
        if not item.begun or (item.closing and "closing" not in self.on):
            return "EINVAL"
        if item.repeat or "again" not in self.on:
            self.stop(item)
        if item.repeat and not item.closing:
            self.start_timer(item, item.repeat, item.repeat)
        return "ok"

    def repeat_op(self, item: Item, op: list[str]) -> str:
        item.repeat = int(op[2])
        return "ok"

    def due_op(self, item: Item, _: list[str]) -> str:
        return str(max(item.due - self.now, 0))

    def close_op(self, item: Item, _: list[str]) -> str:
        if item.closing:
            return "EINVAL"
        self.stop(item)
        item.closing = True
        # (from 1.45 on a handle that closes is left as pending, so that no later send wakes the loop)
        item.pending = "closing" in self.on and not is_before_145(self.version)
        self.lists["closing"].insert(0, item)
        return "ok"

    def ref_op(self, item: Item, op: list[str]) -> str:
        self.refer(item, op[0] == "ref")
        return "ok"

    def ask_op(self, item: Item, op: list[str]) -> str:
        return str(int({"hasref": item.ref, "active": item.active, "closing": item.closing}[op[0]]))

    def send_op(self, item: Item, _: list[str]) -> str:
        if item.closing and "closing" not in self.on:
            return "EINVAL"
        if not item.pending:
            item.pending = self.wake = True
        return "ok"

    def cancel_op(self, item: Item, _: list[str]) -> str:
        if item.outcome == "waiting":
            self.waiting.remove(item)
        elif item.outcome == "cancelled" and "cancel" in self.on:
            for some in (self.lists["done"], self.yet["done"]):
                if item in some:
                    some.remove(item)
        else:
            return "EBUSY"
        item.outcome = "cancelled"
        self.is_done(item)
        return "ok"

    # ---- callbacks

    def begin_body(self, body: str, name: str) -> None:
        call = self.calls[body, name] = self.calls.get((body, name), 0) + 1
        self.body = [op for at, op in self.program.bodies.get((body, name), ()) if at in (0, call)]

    def call(self, item: Item) -> None:
        self.begin_body("on", item.name)
        self.print(f"call {item.name} {item.id()}")

    # ---- one step of the loop

    def step(self) -> str | None:
        """Does one, or says why there is none."""
        if self.body:
            self.do_op(self.body.pop(0))
            return None
        return getattr(self, PLACES[self.place])()

    def do_op(self, op: list[str]) -> None:
        text = " ".join(op)
        answer = self.answer(op)
        self.print(f"{text} = {answer}")

    def at_main(self) -> str | None:
        if self.at == len(self.program.main):
            return ENDED
        op = self.program.main[self.at]
        if op[0] != "run":
            self.at += 1
            self.do_op(op)
            return None
        self.mode, self.alive_at_entry, self.place = op[1], self.is_alive(), "entry"
        # (a step that is due here is done behind the next line: so the loop's first look at the clock is nobody's matter)
        self.quiet = True
        self.print(" ".join(op))
        self.quiet = False
        if self.looks_at_entry():
            self.look()
        return None

    def looks_at_entry(self) -> bool:
        if "entry" not in self.on:
            return self.mode == "default"
        # (before 1.45 a run that goes on looks as its first iteration begins)
        goes_on = self.mode == "default" and not self.stop_flag and "order" not in self.on
        return goes_on or not self.is_alive()

    def at_entry(self) -> None:
        if not self.goes():
            self.end(self.is_alive())
        elif self.mode == "default" and "order" not in self.on:
            self.begin_timers("first")
        else:
            self.begin_iteration()

    def begin_iteration(self) -> None:
        if "order" in self.on:
            self.look()
            self.begin_timers("first")
        else:
            self.begin_pending()

    def begin_pending(self) -> None:
        self.idled = bool(self.lists["idle"])
        self.place = "pending"

    def begin_timers(self, place: str) -> None:
        self.place, self.collecting = place, True

    def end(self, alive: bool) -> None:
        self.stop_flag, self.place = False, "main"
        self.at += 1
        self.print(f"end {int(alive)}")

    def is_next_due(self) -> bool:
        return bool(self.heap) and self.heap[0][0] <= self.now

    def at_timers(self) -> None:
        if self.from_heap:
            if self.is_next_due():
                item = self.by_start[self.heap[0][1]]
                self.off_heap(item)
                self.fire(item)
                return
        elif self.collecting and self.is_next_due():
            item = self.by_start[self.heap[0][1]]
            self.off_heap(item)
            self.ready.append(item)
            return
        elif self.ready:
            self.collecting = False
            self.fire(self.ready.pop(0))
            return
        self.leave_timers()

    def fire(self, item: Item) -> None:
        if item.repeat:
            self.start_timer(item, item.repeat, item.repeat)
        self.call(item)

    def leave_timers(self) -> None:
        if self.place == "timers":
            if self.mode == "default" and "order" not in self.on and self.goes():
                self.begin_iteration()
            else:
                self.end(self.is_alive())
        elif "order" in self.on:
            self.begin_pending()
        elif "first" in self.on:
            if self.stop_flag:
                self.end(self.alive_at_entry)
            else:
                self.begin_iteration()
        elif self.goes():
            self.begin_iteration()
        else:
            self.end(self.is_alive())

    def begin_walk(self, place: str) -> None:
        self.place = place
        self.yet[place], self.lists[place] = self.lists[place], []

    def at_pending(self) -> None:
        self.begin_walk("idle")

    def at_watchers(self) -> None:
        kind = self.place
        if self.yet[kind]:
            item = self.yet[kind].pop(0)
            self.lists[kind].append(item)
            self.call(item)
        elif kind == "idle":
            self.begin_walk("prepare")
        elif kind == "prepare":
            self.begin_poll()
        else:
            self.begin_walk("closing")

    def begin_poll(self) -> None:
        timeout = self.poll_timeout()
        self.place, self.polled = "poll", True
        for item in self.bound.values():
            item.told = item.kind == "io"
        begins = self.clock if "poll" in self.on else self.now
        self.deadline = None if timeout is None else begins + timeout
        self.print(f"poll {'infinite' if timeout is None else timeout}")

    def is_woken(self) -> bool:
        return self.wake if "wake" in self.on else bool(self.lists["done"]) or any(it.pending for it in self.lists["async"])

    def at_poll(self) -> str | None:
        is_late = self.deadline is not None and self.clock >= self.deadline
        if not is_late and not self.is_woken():
            return BLOCKED
        self.reads = self.wake or "wake" not in self.on
        self.look()
        self.at_polled()
        return None

    def at_polled(self) -> None:
        """Behind the callbacks of I/O that left the poll: the after and async callbacks come, where somebody has woken it."""
        if self.reads:
            self.wake = False
        if self.reads and "made" in self.on:
            self.begin_walk("async")
        self.place = "done"
        if self.reads and (self.pool_pending or "wake" not in self.on):
            self.pool_pending = False
            self.begin_walk("done")

    # ---- callbacks of I/O

    def do_io(self) -> bool:
        """Calls the next one of those that the poll brought, where it may come; whether there was one."""
        if self.body:
            return False
        if self.place == "poll" and self.came:
            self.bring()
        if self.place in ("poll", "polled"):
            return self.call_io(self.brought)
        return self.place == "async" and not self.yet["async"] and self.call_io(self.brought_behind)

    def bring(self) -> None:
        """The poll finds what came for handles that are active, all of it at once."""
        at = self.came.index(WAKE) if WAKE in self.came and self.is_woken() else len(self.came)
        items = [[(item, item.stops) for it in some if (item := self.waiting_for_io(it))] for some in (self.came[:at], self.came[at:])]
        self.brought, self.brought_behind = items
        self.came = []

    def waiting_for_io(self, name: str) -> Item | None:
        item = self.bound.get(name)
        return item if item and item.kind == "io" and item.active else None

    def call_io(self, brought: list[tuple[Item, int]]) -> bool:
        while brought:
            item, stops = brought.pop(0)
            # (what came for one that was stopped since is gone, even if it was started again)
            if item.active and item.stops == stops:
                self.io(item)
                return True
        return False

    def io(self, item: Item) -> None:
        if self.place == "poll":
            self.place, self.reads = "polled", self.is_woken()
            self.look()
        self.command(f"io {item.name}")
        self.call(item)

    def at_done(self) -> None:
        if self.yet["done"]:
            item = self.yet["done"].pop(0)
            self.open -= 1
            self.release(item)
            self.begin_body("after", item.name)
            self.print(f"after {item.name} {item.id()} {'ECANCELED' if item.outcome == 'cancelled' else 'ok'}")
        elif "made" in self.on or not self.reads:
            self.place = "async"
        else:
            self.begin_walk("async")

    def at_async(self) -> None:
        if not self.yet["async"]:
            self.begin_walk("check")
            return
        item = self.yet["async"].pop(0)
        self.lists["async"].append(item)
        if item.pending:
            item.pending = False
            self.call(item)

    def at_closing(self) -> None:
        if self.yet["closing"]:
            item = self.yet["closing"].pop(0)
            self.release(item)
            self.begin_body("closed", item.name)
            self.print(f"closed {item.name} {item.id()}")
        elif "order" not in self.on or self.mode == "once":
            self.look()
            self.begin_timers("timers")
        elif self.mode == "default" and self.goes():
            self.begin_iteration()
        else:
            self.end(self.is_alive())

    def run(self) -> list[str]:
        """All lines, and behind them why there is no more."""
        try:
            end = self.run_on()
        except Limit:
            end = "limit"
        self.flush()
        return self.lines + [end]

    def run_on(self) -> str:
        self.do_due_steps()
        while True:
            if self.do_io():
                continue
            self.loops += 1
            refusal = self.step()
            if refusal == BLOCKED:
                self.loops -= 1
                if self.unblock():
                    continue
                self.loops += 1
            if refusal:
                return refusal


# The methods of ops and places, by their words.
LOOP_OPS = {
    "stoploop": "set_stop_flag",
    "updatetime": "update_time",
    "now": "ask_now",
    "alive": "ask_alive",
    "timeout": "ask_timeout",
    "closeloop": "close_loop",
}

ITEM_OPS = {
    "start": "start_op",
    "stop": "stop_op",
    "again": "again_op",
    "repeat": "repeat_op",
    "due": "due_op",
    "close": "close_op",
    "ref": "ref_op",
    "unref": "ref_op",
    "hasref": "ask_op",
    "active": "ask_op",
    "closing": "ask_op",
    "send": "send_op",
    "cancel": "cancel_op",
}

PLACES = {
    "main": "at_main",
    "entry": "at_entry",
    "first": "at_timers",
    "timers": "at_timers",
    "pending": "at_pending",
    "idle": "at_watchers",
    "prepare": "at_watchers",
    "check": "at_watchers",
    "poll": "at_poll",
    "polled": "at_polled",
    "done": "at_done",
    "async": "at_async",
    "closing": "at_closing",
}


def fits(op: list[str], kind: str) -> bool:
    """Whether there is such an op of such a handle or request."""
    match op[0]:
        case "start":
            return kind == "timer" if len(op) == 4 else kind in (*WATCHERS, "io")
        case "stop":
            return kind in ("timer", *WATCHERS, "io")
        case "again" | "repeat" | "due":
            return kind == "timer"
        case "send":
            return kind == "async"
        case "cancel":
            return kind == "work"
        case _:
            return kind != "work"
