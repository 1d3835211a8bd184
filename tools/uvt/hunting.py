"""The hunt for an order in which a program ends badly: its questions, what is found and forced, and what the runs teach."""

from __future__ import annotations

import itertools
import math
import subprocess
import time
import zlib
from collections.abc import Callable, Iterator
from dataclasses import dataclass, replace
from pathlib import Path

from uvt.conversation import Fault
from uvt.forcing import Order, Ran, badly, bound, first_run, limit, recording_of, remake, run
from uvt.hunt_ends import Bad, Counts, place_of
from uvt.hunt_questions import STALL, Recorded, names_in, read
from uvt.inputs import read_bytes, read_input
from uvt.judging import judged, other_output
from uvt.record.parts import Part

# How long a search may take, in seconds; and how many orders at random come before the questions, and behind them.
SEARCH, BEFORE, BEHIND = 15, 10, 100
# How often an order that was bad is forced again; and one of which nobody knows so soon whether it is bad again.
AGAIN, AGAIN_LATE = 10, 2
# Where it isn't each time, so many runs more at the least are for one that is.
MORE = 20
# What the first run is called; how often another one tells whether it was bad by itself, and how long that may take, in seconds.
BY_ITSELF, DOUBTS, LONGER = "the first run, which nobody forced", 2, 20
# So many callbacks of each run are looked at.
LOOKED = Part(most=2000)


@dataclass
class Wishes:
    """What is hunted, and how."""

    words: list[str]
    # how long, None: until nothing new is learnt
    seconds: float | None = None
    part: tuple[int, int] = (1, 1)
    seed: int = 1
    # what else is bad: another output than the first run's; what a command of the user's says of a run
    same_output: bool = False
    check: str = ""


class TimeOver(Exception):
    """No time is left, or no more runs are worth it."""


class Hunt:
    """Questions of a program's recordings, and orders at random, until one ends badly."""

    def __init__(self, wishes: Wishes, search: str, folder: Path, tell: Callable[[str], None]) -> None:
        self.wishes, self.search, self.folder, self.tell = wishes, search, folder, tell
        self.seeds = (it for it in itertools.count(wishes.seed) if self.is_mine(f"seed {it}"))
        # how long questions took that orders at random haven't had yet, in seconds
        self.owed = 0.0
        self.began = time.monotonic()
        self.until = None if wishes.seconds is None else self.began + wishes.seconds
        self.asked: set[tuple[str, str]] = set()
        self.known: dict[tuple[str, str], list[str]] = {}
        # how long the runs took, and what was made of their logs, in seconds
        self.running = self.recording = 0.0
        self.counts = Counts()
        self.first = Ran(0, 0)
        # that run's order, as text, and as it is forced; and how many steps it has
        self.text, self.order = "", Order()
        self.length = 0
        self.loop = 0
        self.runs = self.doubts = 0
        self.fault = ""
        # what was bad, and not each time again: it is said where no better one is found, within so many runs
        self.spare: Bad | None = None
        self.enough = math.inf

    # ---- runs

    def left(self) -> float:
        """How long it may go on, in seconds."""
        if self.until is None:
            return SEARCH
        left = self.until - time.monotonic()
        if left <= 0:
            raise TimeOver
        return left

    def badly(self, ran: Ran) -> str:
        """How a run ended, where that is bad: `` where it ended well. Where it is asked so, one that says something else than the first run did
        is bad, too, or one that a command of the user's calls bad."""
        if (how := badly(ran, self.first)) or ran.late:
            return how
        return self.judged(ran) or (other_output(ran.output, self.first.output) if self.wishes.same_output else "")

    def judged(self, ran: Ran) -> str:
        if ran.judged is None:
            ran.judged = judged(self.wishes.check, ran) if self.wishes.check and not ran.late else ""
        return ran.judged

    def force(self, order: Order, records: bool | Callable[[Ran], object] = True, limited: bool = True) -> Ran:
        """Forces it. One that isn't LIMITED is neither left out nor cut where no time is left."""
        if limited and self.spare and self.runs >= self.enough:
            raise TimeOver
        left, allowed = self.left() if limited else SEARCH, limit(self.first)
        self.runs += 1
        bound(order, self.first, self.length)
        cut, before = limited and self.until is not None and left < allowed, time.monotonic()

        def is_cut(ran: Ran) -> bool:
            # (that it had no end by then says nothing, and its log may have no line yet)
            return cut and ran.late and not ran.hangs

        def is_recorded(ran: Ran) -> bool:
            return not is_cut(ran) and bool(records(ran) if callable(records) else records)

        ran = run(self.wishes.words, order, str(self.folder / f"run{self.runs}"), left if cut else allowed, is_recorded, LOOKED)
        self.running += ran.seconds
        self.recording += time.monotonic() - before - ran.seconds
        if is_cut(ran):
            raise TimeOver
        return ran

    def teaches(self, ran: Ran) -> bool:
        """Is a run at random to be recorded? One that ends badly is; of the others some, so that recording takes no longer than running."""
        return self.recording <= self.running or bool(self.badly(ran))

    def recorded(self, ran: Ran) -> Recorded | None:
        path = recording_of(ran.name, self.loop)
        return read(path) if path.exists() else None

    def begin(self) -> Recorded | Bad:
        """The first run, which nobody forces. Of several loops the one that has the most callbacks is hunted."""
        self.tell("the first run")
        self.first = first_run(self.wishes.words, str(self.folder / "first"), self.until or math.inf)
        paths = {it: read(it) for it in sorted(self.folder.glob("first*.rec"))}
        if not paths:
            raise Fault(f"no recording was made of the first run: {self.first.recorded.strip() or 'it called nothing of libuv'}")
        path = max(paths, key=lambda it: len(paths[it].steps))
        self.length = len(paths[path].steps)
        script, commands = read_input(path)
        self.loop = script.notes.loop
        self.text, self.order = path.read_text(), Order(script, commands, self.loop)
        how = self.first.ended() if self.first.status < 0 or "Sanitizer" in self.first.ended() else self.judged(self.first)
        if not self.first.late and how:
            # (what ends a run badly is another end than that of a run that went well)
            return self.by_itself(Ran(0, self.first.seconds, self.first.output), how) or paths[path]
        for _ in range(DOUBTS if self.first.status and not self.first.late else 0):
            if other := self.other():
                return self.by_itself(other, self.first.ended()) or paths[path]
        return self.odd_one() or paths[path]

    def odd_one(self) -> Bad | None:
        """Of three runs that nobody forces the first one says something else than the two others, where that is bad."""
        one = self.other() if self.wishes.same_output and not self.first.ended() else None
        how = other_output(self.first.output, one.output) if one else ""
        two = self.other() if how else None
        if not one or not two or two.output != one.output:
            return None
        return self.by_itself(one, how.replace("the first run", "another run"))

    def other(self) -> Ran | None:
        """Another run that nobody forces, where that ends well."""
        self.tell("another run that nobody forces")
        ran = run(self.wishes.words, Order(), str(self.folder / "other"), min(LONGER, self.left()), False)
        return None if ran.late or ran.ended() else ran

    def by_itself(self, well: Ran, how: str, at_once: bool = False) -> Bad | None:
        """The first run was bad: from here on WELL is what a run is measured by. None where it isn't bad each time in that order, or, AT_ONCE, only
        takes long: then the hunt goes on."""
        first, self.first = self.first, well
        if first.late:
            # (that it hangs is seen only where it is known that the program has an end)
            first = self.force(self.order, False, limited=False)
            how = self.badly(first)
        if not how or (at_once and not first.is_told_at_once()):
            return None
        times = AGAIN if first.is_told_at_once() else AGAIN_LATE
        bad = self.sure(self.again(self.bad(first, how, BY_ITSELF, self.text), self.order, times), first)
        if bad and bad.bad_again == bad.again:
            return bad
        self.spare, self.enough = bad, math.inf
        return None

    def doubt(self, ran: Ran) -> Bad | None:
        """A run ended well, and the first one with another status, or not at all: on a busy machine a program loses its races by itself, where it
        is busy enough each time. (A server has no end each time: so that is another matter only where it has one by itself, or surely hangs.)"""
        if self.doubts == DOUBTS or ran.late or ran.ended() or not self.first.ended():
            return None
        self.doubts += 1
        first, spare = self.first, self.spare
        if not first.late:
            return self.by_itself(replace(ran, seconds=first.seconds), first.ended())
        if other := self.other():
            return self.by_itself(other, "")
        if bad := self.by_itself(ran, "", at_once=True):
            return bad
        self.first, self.spare = first, spare
        return None

    # ---- what is known

    def learn(self, found: Recorded) -> bool:
        """True where a callback does something that none was seen to do before."""
        new = [it for it in found.bodies if it not in self.known]
        self.known.update({it: found.bodies[it] for it in new})
        return bool(new)

    def whole(self, found: Recorded) -> Recorded:
        """With what other runs have shown of callbacks that weren't called in this one."""
        names = set(found.names())
        more = [
            line
            for key, lines in self.known.items()
            if key not in found.bodies and key[1] in names
            for line in lines
            if names.issuperset(names_in(line))
        ]
        return Recorded(found.lines + more, found.steps, called=found.called, longest=found.longest)

    def is_mine(self, text: str) -> bool:
        """Does this part ask it? Each question and each seed belongs to one of the parts."""
        mine, of = self.wishes.part
        return zlib.crc32(text.encode()) % of == mine - 1

    # ---- the hunt

    def run(self) -> Bad | None:
        try:
            return self.hunt() or self.spare
        except TimeOver:
            return self.spare

    def hunt(self) -> Bad | None:
        begun = self.begin()
        if isinstance(begun, Bad):
            return begun
        self.learn(begun)
        open = [begun]
        for count in itertools.chain([BEFORE], itertools.repeat(BEHIND)):
            for seed in itertools.islice(self.seeds, count):
                if isinstance(found := self.at_random(seed), Bad):
                    return found
                if found and self.learn(found):
                    open.append(found)
            had = bool(open)
            while open:
                if bad := self.ask_all(self.whole(open.pop(0)), open):
                    return bad
            if not had and self.until is None:
                return None
        return None

    def ask_all(self, script: Recorded, open: list[Recorded]) -> Bad | None:
        stalls: list[list[str]] = [[], [f"may tick {script.longest} 1"]]
        for stall, question in itertools.product(stalls, script.questions()):
            key = "\n".join(script.lines), " ".join([question, *stall])
            if key in self.asked or not self.is_mine(key[1]):
                continue
            self.asked.add(key)
            self.tell(key[1])
            before = time.monotonic()
            found = self.ask(script, [*stall, question], key[1])
            self.owed += time.monotonic() - before
            for it in itertools.chain([found], self.share()):
                if isinstance(it, Bad):
                    return it
                if it and self.learn(it):
                    open.append(it)
        return None

    def share(self) -> Iterator[Bad | Recorded | None]:
        """Orders at random, for as long as questions took: of a big program they are soon asked in vain."""
        while self.owed > 0:
            before = time.monotonic()
            yield self.at_random(next(self.seeds))
            self.owed -= time.monotonic() - before

    def ask(self, script: Recorded, question: list[str], text: str) -> Bad | Recorded | None:
        """Asks, and forces what is found: how that ended badly, or what was recorded of it."""
        self.counts.questions += 1
        session = self.searched([*script.lines, "begin", *script.offers(), *question])
        if not session:
            return None
        self.counts.found += 1
        asked, commands = read_bytes(session.encode(), None)
        ran = self.force(Order(asked, commands, self.loop))
        self.counts.departed += ran.departures > 0 or not (ran.done or ran.ended())
        if how := self.badly(ran):
            return self.kept(self.bad(ran, how, f"the order of `{text}`", session), ran, Order(asked, commands, self.loop))
        return self.doubt(ran) or self.recorded(ran)

    def kept(self, bad: Bad, ran: Ran, order: Order) -> Bad | None:
        """The order that ends badly again. What find has found ends with the step that was asked: what comes behind it came as it liked. The
        recording of the run has all of it, where that is worth more."""
        times = AGAIN if ran.is_told_at_once() else AGAIN_LATE
        whole = self.whole_recording(ran)
        bad = self.again(bad, order, times)
        if bad.bad_again < bad.again and whole:
            script, commands = read_input(whole)
            other = self.again(replace(bad, order=whole.read_text(), again=0, bad_again=0), Order(script, commands, self.loop), times)
            bad = other if other.bad_again > bad.bad_again else bad
        return self.steady(self.sure(bad, ran))

    def whole_recording(self, ran: Ran) -> Path | None:
        """Of all of the run, and not of the part that is looked at."""
        if Path(f"{ran.name}.log").exists():
            remake(ran.name)
        path = recording_of(ran.name, self.loop)
        return path if path.exists() else None

    def searched(self, lines: list[str]) -> str:
        """The session that is found, or ``."""
        asked = "".join(f"{it}\n" for it in lines).encode("ascii", "surrogateescape")
        try:
            ran = subprocess.run([self.search], input=asked, capture_output=True, timeout=min(SEARCH, self.left()), start_new_session=True)
        except subprocess.TimeoutExpired:
            return ""
        except OSError as fault:
            raise Fault(f"{self.search} could not be started: {fault.strerror}") from None
        first, _, session = ran.stdout.decode("ascii", "replace").partition("\n")
        self.counts.never += first.startswith("never")
        if ran.returncode not in (0, 1, 3):
            self.fault = self.fault or ran.stderr.decode("ascii", "replace").strip()
        return session if ran.returncode == 0 and first.startswith("found") else ""

    def at_random(self, seed: int) -> Bad | Recorded | None:
        self.counts.random += 1
        self.tell(f"order {seed} at random")
        stall = STALL if seed % 2 else 0
        ran = self.force(Order(seed=seed, stall=stall, loop=self.loop), self.teaches)
        if not (how := self.badly(ran)):
            return self.doubt(ran) or self.recorded(ran)
        path = self.whole_recording(ran)
        bad = self.bad(ran, how, f"order {seed} at random", path.read_text() if path else "")
        if path:
            script, commands = read_input(path)
            bad = self.again(bad, Order(script, commands, self.loop, early=ran.early), AGAIN if ran.is_told_at_once() else AGAIN_LATE)
        return self.steady(self.sure(bad, ran))

    def bad(self, ran: Ran, how: str, by: str, order: str) -> Bad:
        place, path = place_of(ran.output)
        return Bad(how, by, order, self.loop, place=place, hang=ran.hang, path=path or ran.hangs_at, early=int(ran.early))

    def again(self, bad: Bad, order: Order, times: int) -> Bad:
        """The same order, so many times more, however much time is left: what is said is said with how often it comes."""
        for number in range(1, times + 1):
            self.tell(f"{bad.by}, bad, {number} of {times} times more")
            bad.bad_again += bool(self.badly(self.force(order, False, limited=False)))
            bad.again += 1
        return bad

    def sure(self, bad: Bad, ran: Ran) -> Bad | None:
        """A run that only took too long, and didn't again, may have been the machine's matter: that is no finding."""
        if not ran.is_told_at_once() and not bad.bad_again:
            self.counts.once += 1
            return None
        return bad

    def steady(self, bad: Bad | None) -> Bad | None:
        """One whose order isn't bad each time: for as many runs as it took, and so many at the least, a better one is looked for."""
        if not bad or not bad.again or bad.bad_again == bad.again:
            return bad
        if self.enough == math.inf:
            self.enough = self.runs + max(self.runs, MORE)
        if not self.spare or bad.bad_again * self.spare.again > self.spare.bad_again * bad.again:
            self.spare = bad
        return None
