"""How late each callback of a recording was, and how late it is at worst: one search for each name and each set of orders (`find latest`)."""

from __future__ import annotations

import re
import subprocess
import threading
import time
from concurrent.futures import FIRST_EXCEPTION, ThreadPoolExecutor, wait
from dataclasses import dataclass, field
from typing import Callable

from uvt.conversation import Fault, Script
from uvt.offered import Offered, offered

FOUND, NEVER, UNSETTLED = 0, 1, 3
# By which numbers of states a search comes to as many as are asked for: what isn't settled was followed so far at least.
FIRST_STATES, GROWTH = 1_000, 10
# How often it is looked how far the questions are, in seconds.
LOOKS = 0.25
LATEST = re.compile(r"latest (\d+) ms.*: (?:not settled within )?(\d+) states?")
KINDS = {"timer": "timer", "async": "async"}


def kinds_of(script: Script, given: Offered) -> dict[str, str]:
    """What each name is that was called: a timer, an async handle or a request. Others have no time from which they might be late."""
    made = {op[1]: KINDS[op[2]] for op in script.ops() if op[0] == "init" and len(op) > 2 and op[2] in KINDS}
    made.update({name: "request" for which, name in given.calls if which == "after"})
    called = {name for which, name in given.calls if which != "closed"}
    return {name: kind for name, kind in made.items() if name in called}


@dataclass
class Worst:
    """A callback at worst, within one set of orders."""

    # the most ms that were found, None where none was; whether no order has more
    late: int | None = None
    settled: bool = False
    session: str = ""
    states: int = 0
    seconds: float = 0
    # why it isn't settled
    why: str = ""

    def told(self) -> str:
        if self.settled:
            return "never" if self.late is None else str(self.late)
        return "?" if self.late is None else f"{self.late}+"


@dataclass
class Orders:
    """A set of orders: its words, and the lines that say what may come."""

    what: str
    lines: list[str]


@dataclass
class Budget:
    """A name, and how late it may be, in ms."""

    name: str
    ms: int

    @classmethod
    def of(cls, words: str) -> Budget:
        name, _, ms = words.strip().rpartition(" ")
        if not name or not re.fullmatch(r"\d{1,9}", ms):
            raise Fault(f"`{words}` is no budget: it is a name and a number of ms, as 'heartbeat 50'")
        return cls(name, int(ms))


@dataclass
class Asker:
    """Asks the program, so many states and seconds for each question at most."""

    script: Script
    program: str
    states: int
    seconds: float
    running: set[subprocess.Popen[bytes]] = field(default_factory=set)
    lock: threading.Lock = field(default_factory=threading.Lock)

    def latest(self, name: str, orders: Orders) -> Worst:
        """The latest call of a name."""

        def told(first: str) -> int | None:
            found = LATEST.match(first)
            return int(found[1]) if found else None

        return self.asked(f"find latest {name}", orders, told)

    def beyond(self, budget: Budget, orders: Orders) -> Worst:
        """A call of a name that is later than its budget; settled without one where no order has it."""
        late = budget.ms + 1
        return self.asked(f"find late {budget.name} {late}", orders, lambda first: late if first.startswith("found ") else None)

    def asked(self, question: str, orders: Orders, late_of: Callable[[str], int | None]) -> Worst:
        """It is asked with more and more states; what a search found that was ended is kept."""
        worst, began, states = Worst(), time.monotonic(), min(FIRST_STATES, self.states)
        while True:
            left = self.seconds - (time.monotonic() - began)
            status, first, session = self.ask([*orders.lines, f"most states {states}", question], left)
            worst.seconds = time.monotonic() - began
            if status is None:
                worst.why = f"more than {states // GROWTH} states, {self.seconds:.0f} s" if states > FIRST_STATES else f"{self.seconds:.0f} s"
                return worst
            late = late_of(first)
            if late is not None:
                worst.late, worst.session = late, session
            if status in (FOUND, NEVER):
                worst.settled = True
                worst.states = int(re.findall(r"(\d+) states?", first)[-1])
                return worst
            if status != UNSETTLED:
                raise Fault(first or f"the search ended with status {status}")
            worst.states = states
            if states >= self.states or " states" not in first or "out of memory" in first:
                worst.why = f"more than {states} states"
                return worst
            states = min(states * GROWTH, self.states)

    def ask(self, lines: list[str], seconds: float) -> tuple[int | None, str, str]:
        """The status, the first line of the answer, and the session behind it; no status where that took too long."""
        asked = "".join(f"{it}\n" for it in [*self.script.lines, "begin", *lines]).encode("ascii", "surrogateescape")
        try:
            ran = subprocess.Popen([self.program], stdin=subprocess.PIPE, stdout=subprocess.PIPE, stderr=subprocess.PIPE)
        except OSError as fault:
            raise Fault(f"{self.program} could not be started: {fault.strerror}") from None
        with self.lock:
            self.running.add(ran)
        try:
            output, errors = ran.communicate(asked, max(seconds, 0.1))
        except subprocess.TimeoutExpired:
            return None, "", ""
        finally:
            ran.kill()
            ran.wait()
            with self.lock:
                self.running.discard(ran)
        first, _, session = output.decode("ascii", "surrogateescape").partition("\n")
        return ran.returncode, first or errors.decode("ascii", "replace").strip(), session

    def stop(self) -> None:
        with self.lock:
            for it in self.running:
                it.kill()


def sets_of(given: Offered, differ: list[int]) -> list[Orders]:
    """The sets of orders: the recorded one, those with at most K steps from outside elsewhere, and every one of what came."""
    near = given.near([])
    words = {0: "in this run"}
    found = [Orders(words.get(k, f"{k} moved"), [f"may differ {k}", *near]) for k in [0, *differ]]
    return [*found, Orders("every order", given.lines([]))]


@dataclass
class Row:
    name: str
    kind: str
    calls: int
    worst: dict[str, Worst] = field(default_factory=dict)

    def best(self, columns: list[str]) -> Worst | None:
        """The latest one of all that were found, that nearest to the run where several are as late."""
        known = [self.worst[it] for it in columns if self.worst[it].late is not None]
        best = max((it.late or 0 for it in known), default=None)
        return next((it for it in known if it.late == best), None)


def known_kinds(script: Script, given: Offered, names: list[str]) -> dict[str, str]:
    """What each name is that was called; these are among them."""
    kinds = kinds_of(script, given)
    unknown = next((it for it in names if it not in kinds), None)
    if unknown:
        raise Fault(f"{unknown} is no timer, no async handle and no request that was called. These are: {', '.join(sorted(kinds)) or 'none'}")
    return kinds


def beyond_budgets(script: Script, steps: list[str], asker: Asker, budgets: list[Budget], jobs: int) -> list[Worst]:
    """Of each budget a call that is later, in any order of what came."""
    given = offered(script, steps)
    known_kinds(script, given, [it.name for it in budgets])
    orders = Orders("every order", given.lines([]))
    with ThreadPoolExecutor(jobs) as pool:
        try:
            return list(pool.map(lambda it: asker.beyond(it, orders), budgets))
        except BaseException:
            asker.stop()
            raise


def rows_of(
    script: Script, steps: list[str], asker: Asker, differ: list[int], names: list[str], jobs: int, tell: Callable[[int, int], None]
) -> tuple[list[str], list[Row]]:
    """The words of the sets of orders, and a row for each callback."""
    given = offered(script, steps)
    kinds = known_kinds(script, given, names)
    rows = [
        Row(name, kind, sum(count for (which, it), count in given.calls.items() if it == name and which != "closed"))
        for name, kind in sorted(kinds.items(), key=lambda it: (list({"timer": 0, "async": 1, "request": 2}).index(it[1]), it[0]))
        if not names or name in names
    ]
    sets = sets_of(given, differ)
    asks = [(row, orders) for orders in sets for row in rows]
    done = 0

    def one(ask: tuple[Row, Orders]) -> None:
        nonlocal done
        row, orders = ask
        row.worst[orders.what] = asker.latest(row.name, orders)
        with asker.lock:
            done += 1

    pool = ThreadPoolExecutor(jobs)
    try:
        under_way = {pool.submit(one, ask) for ask in asks}
        while under_way:
            ended, under_way = wait(under_way, timeout=LOOKS, return_when=FIRST_EXCEPTION)
            for it in ended:
                it.result()
            tell(done, len(asks))
    except BaseException:
        pool.shutdown(wait=False, cancel_futures=True)
        asker.stop()
        raise
    pool.shutdown()
    return [it.what for it in sets], rows
