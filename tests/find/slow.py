"""A slow search through every order, breadth first, by what `uvt debug` answers. It has no loop of its own: it knows what is offered, the
bounds, and what a question asks of a step. Where moves may be held back, it also counts the places that are kept then."""
from collections import deque
from dataclasses import dataclass
from typing import Deque, Dict, Iterator, List, NamedTuple, Optional, Set, Tuple

from tests.find import alike
from tests.find import holding
from tests.find import normal
from tests.find import recording
from tests.find.asked import Asked, Offer
from tests.find.loop import TIMERS, Loop, Reply, State
from tests.find.recording import Along

CALLS = ["call", "after", "closed"]
# The callbacks that the words of a question mean.
MEANT = {"call": CALLS, "on": ["call"], "after": ["after"], "closed": ["closed"]}
# The words of `takes` don't count for the callback of a close.
TAKING = {"on": 0, "after": 1}
NAMELESS = ["stoploop", "updatetime", "now", "alive", "timeout", "closeloop"]


class Place(NamedTuple):
    """Where the search stands: the loop's state, how often each offer may still be taken, when the timer was due that is asked for, if one is,
    and how many ms the callback still takes that has ended; and of orders that differ from a recording, how far they are."""

    state: State
    left: Tuple[Optional[int], ...]
    due: Optional[int]
    owed: int
    along: Optional[Along] = None

    def key(self, calls: Optional[int]) -> Tuple[object, ...]:
        """What tells it from others: all, or, where calls are counted up to a number only, what decides what comes after."""
        if calls is None:
            return self.state.text, self.left, self.due, self.owed, self.along
        # (a due time counts from the clock; where no timer is asked for, none is kept)
        due = self.due - self.state.clock if self.due is not None else None
        return normal.formed(self.state.text, calls), self.left, due, self.owed, self.along


class Move(NamedTuple):
    """A step that leads on: which offer it is, its command and its line, and where it leads."""

    number: int
    command: str
    line: Optional[str]
    place: Place


class Settled(NamedTuple):
    """How many steps the first answer has, if there is one; and how many places there are, unless there are more than were looked at. Also how
    many of them are kept: all, or, where moves may be held back, those that a search comes to that does so."""

    steps: Optional[int]
    places: Optional[int]
    kept: Optional[int]


@dataclass
class Visit:
    """A place that is under way: the moves that weren't tried there yet, the words of those that are apart from all others, and where the last one
    led, if it is apart."""

    key: object
    steps: Tuple[str, ...]
    place: Place
    moves: Iterator[Move]
    apart: Set[str]
    behind: object = None


def every_offer(asked: Asked) -> List[Offer]:
    """The loop goes on, the idle worker of the least number takes (that first, where it takes at once), each worker may finish, and then what may
    come from outside. The number of a finish is that of the worker; where it is forgotten which of them runs which request, it says whose request
    that is: of those that are run the first one, by their slots, the second one, and so on."""
    finishes = [Offer("finish", str(worker), None) for worker in range(asked.workers)]
    first = [Offer("loop", "", None), Offer("take", "", None)]
    return (first[::-1] if holding.takes_at_once(asked) else first) + finishes + asked.offers


def beginning(asked: Asked, state: State) -> Place:
    due = 0 if asked.question[:1] == ("late",) else None
    if asked.differ is not None:
        return Place(state, (), due, 0, recording.beginning(asked.recorded, asked.differ))
    return Place(state, tuple(offer.times for offer in every_offer(asked)), due, 0)


def may_come(offer: Offer, place: Place) -> bool:
    """Whether something from outside may come here: not for what isn't made; no send between the lines `done` and `check`, nor to a handle that
    closes, nor one of a job that isn't run; and while a callback's time goes by no other time does, and no callback of I/O begins."""
    if offer.word in ("send", "cancel", "io") and offer.argument not in place.state.made:
        return False
    if offer.word == "send" and (place.state.section in ("done", "async") or offer.argument in place.state.closing):
        return False
    if offer.job is not None and offer.job not in place.state.jobs:
        return False
    return not (offer.word in ("io", "tick") and place.owed)


def command_of(asked: Asked, offer: Offer, left: Optional[int], place: Place, is_blocked: bool) -> Optional[str]:
    """What this offer is here, if it is one."""
    state = place.state
    if left == 0 or not may_come(offer, place):
        return None
    if offer.word == "loop" and place.owed:
        offer = Offer("tick", str(place.owed), None)
    if offer.word == "take":
        idle = [worker for worker in range(asked.workers) if worker not in state.busy]
        return "take %d" % idle[0] if idle else None
    if offer.word == "finish" and normal.may_forget(asked):
        rank = int(offer.argument)
        return "finish %d" % state.runners[rank] if rank < len(state.runners) else None
    ms = None
    if offer.word == "tick":
        ms = int(offer.argument)
    if offer.word == "wait" and offer.argument:
        ms = int(offer.argument)
        if not is_blocked or state.deadline is not None and state.clock + ms > state.deadline:
            return None
    elif offer.word == "wait":
        if not is_blocked or state.deadline is None:
            return None
        ms = state.deadline - state.clock
    if ms is not None:
        return "tick %d" % ms if asked.clock is None or state.clock + ms <= asked.clock else None
    return (offer.word + " " + offer.argument).strip()


def is_within(asked: Asked, state: State) -> bool:
    return all(max(state.calls[name]) <= calls for name, calls in asked.most.items())


def caller_of(before: State, line: Optional[str]) -> Optional[Tuple[str, str]]:
    """The callback of a step of the loop: the one that it begins, or whose op it does."""
    words = (line or "").split(" ")
    if words[0] in CALLS and len(words) > 1:
        return {"call": "on"}.get(words[0], words[0]), words[1]
    return before.caller


def owed_after(asked: Asked, place: Place, command: str, line: Optional[str], state: State) -> int:
    """How many ms a callback still takes behind a step: as soon as it has ended, all of its time, and none once the clock has gone on."""
    if command.startswith("tick "):
        return 0
    caller = caller_of(place.state, line) if command.split(" ")[0] in ("loop", "io") else None
    if caller is None:
        return place.owed
    if state.caller is not None or caller[0] not in TAKING:
        return 0
    call = state.calls[caller[1]][TAKING[caller[0]]]
    return asked.takes.get((caller[1], call), asked.takes.get((caller[1], None), 0))


def after(asked: Asked, place: Place, number: int, command: str, reply: Reply) -> Place:
    """Where that offer leads."""
    left = tuple(times if at != number or times is None else times - 1 for at, times in enumerate(place.left))
    return Place(reply.state, left, due_after(asked, place, reply.state), owed_after(asked, place, command, reply.line, reply.state))


def due_after(asked: Asked, place: Place, state: State) -> Optional[int]:
    """When the timer that is asked for is due. In a section of timers one that was collected is called, and so what was kept stays; elsewhere
    one that isn't active is due at no time, for which the clock stands. Of a request and an async handle since when it waits; while it doesn't,
    the clock."""
    if asked.question[:1] != ("late",):
        return None
    name = asked.question[1]
    if name in state.waiting:
        return place.due
    return state.due.get(name, place.due if state.section in TIMERS and name in state.timers else state.clock)


def moves_of_recorded(loop: Loop, asked: Asked, place: Place, blocked: List[bool]) -> Iterator[Move]:
    """The same of orders that differ from a recording."""
    steps, state = loop.steps, loop.state
    reply = loop.step("loop")
    loop.go_back(steps, state)
    blocked.append(reply.refused == "blocked")
    in_poll = blocked[0] and state.section == "poll"
    wait = None
    if any((offer.word, offer.argument) == ("wait", "") for offer in asked.offers) and blocked[0] and state.deadline is not None:
        wait = state.deadline - state.clock if asked.clock is None or state.deadline <= asked.clock else None
    for number, (command, along) in enumerate(list(recording.coming(loop, asked.recorded, place.along, in_poll, place.owed, wait))):
        ms = int(command.split()[1]) if command.startswith("tick ") else 0
        if ms and asked.clock is not None and state.clock + ms > asked.clock:
            continue
        reply = loop.step(command)
        if reply.refused is None and is_within(asked, reply.state):
            along = recording.behind_loop(asked.recorded, along, reply.line) if command == "loop" else along
            yield Move(
                number,
                command,
                reply.line,
                Place(reply.state, (), due_after(asked, place, reply.state), owed_after(asked, place, command, reply.line, reply.state), along),
            )
        loop.go_back(steps, state)


def moves(loop: Loop, asked: Asked, place: Place, blocked: List[bool]) -> Iterator[Move]:
    """The steps that lead on from where the loop is. Behind each the loop is there still; whether it is blocked is told first."""
    if asked.differ is not None:
        yield from moves_of_recorded(loop, asked, place, blocked)
        return
    steps, state = loop.steps, loop.state
    for number, offer in enumerate(every_offer(asked)):
        command = command_of(asked, offer, place.left[number], place, bool(blocked and blocked[0]))
        if command is None:
            continue
        reply: Reply = loop.step(command)
        if offer.word == "loop":
            blocked.append(reply.refused == "blocked")
        if reply.refused is None and is_within(asked, reply.state):
            yield Move(number, command, reply.line, after(asked, place, number, command, reply))
        loop.go_back(steps, state)


# ---- what is asked of a step


def named_in(line: str) -> Optional[str]:
    """The name of a line that has an answer: of an op, of a step from outside, of an after callback."""
    words = line.split(" ")
    if words[0] == "out":
        return words[2]
    return None if words[0] in NAMELESS else words[1]


def code_in(line: str) -> Optional[str]:
    """What a line answers."""
    words = line.split(" ")
    if words[0] == "after":
        return words[3]
    return words[-1] if words[-2:-1] == ["="] else None


def begins_call(line: str, name: str) -> bool:
    words = line.split(" ")
    return words[0] in CALLS and len(words) > 1 and words[1] == name


def line_answers(question: Tuple[str, ...], before: Place, line: str, then: State) -> bool:
    words = line.split(" ")
    if question[1:2] in (("before",), ("after",)) and len(question) == 3:
        return begins_call(line, question[0]) and any(before.state.calls[question[2]]) == (question[1] == "after")
    if question[0] in MEANT:
        meant = begins_call(line, question[1]) and words[0] in MEANT[question[0]]
        number = then.calls[question[1]][CALLS.index(words[0])] if meant else 0
        return number > 0 and (len(question) == 2 or number == int(question[2]))
    if question[0] == "code":
        return code_in(line) == question[1] and (len(question) == 2 or named_in(line) == question[3])
    if question[0] == "section":
        return len(words) == 1 and words[0] == question[1] or question[1] == "poll" and words[0] == "poll"
    if question[0] == "late":
        return words[0] in ("call", "after") and words[1:2] == [question[1]] and then.clock >= before.due + int(question[2])
    return False


def answers(asked: Asked, before: Place, move: Move) -> bool:
    """Whether the step's line answers the question. (`never` and `stuck` are asked of the place: `answers_here`.)"""
    if asked.question[:1] == ("never",) and len(asked.question) == 2:
        return False
    return move.line is not None and asked.question != () and line_answers(asked.question, before, move.line, move.place.state)


# ---- the search


def search(program: str, asked: Asked, cap: int) -> Settled:
    """All places, up to so many, and the least steps to an answer among them: where forms are kept, of requests that ask for the same work."""
    asked = normal.with_same_work(asked)
    loop = Loop(program, asked.script)
    try:
        first = beginning(asked, loop.state)
        settled = search_from(loop, asked, first, cap)
        if holding.holds_back(asked) or alike.pairs(asked):
            loop.go_back((), first.state)
            return settled._replace(kept=places_kept(loop, asked, first, cap))
        return settled
    finally:
        loop.close()


def answers_here(asked: Asked, place: Place, blocked: List[bool], leads: bool) -> bool:
    """Whether the place answers the question by itself."""
    if asked.question == ("stuck",):
        return blocked[:1] == [True] and not leads
    is_never = asked.question[:1] == ("never",) and len(asked.question) == 2
    return is_never and place.state.main == asked.main and not any(place.state.calls[asked.question[1]])


def search_from(loop: Loop, asked: Asked, first: Place, cap: int) -> Settled:
    calls = normal.calls_told(asked)
    seen: Set[object] = {first.key(calls)}
    waiting: Deque[Tuple[Tuple[str, ...], Place]] = deque([((), first)])
    found: Optional[int] = None
    while waiting:
        steps, place = waiting.popleft()
        loop.go_to(steps)
        blocked: List[bool] = []
        leads = False
        for move in moves(loop, asked, place, blocked):
            leads = True
            if found is None and answers(asked, place, move):
                found = len(steps) + 1
            key = move.place.key(calls)
            if key not in seen:
                if len(seen) == cap:
                    return Settled(found, None, None)
                seen.add(key)
                waiting.append((steps + (move.command,), move.place))
        if found is None and answers_here(asked, place, blocked, leads):
            found = len(steps)
    return Settled(found, len(seen), len(seen))


def places_kept(loop: Loop, asked: Asked, first: Place, cap: int) -> Optional[int]:
    """How many places a search keeps that goes deep first and holds moves back: where a move is apart and led to a place that is done, those behind
    it aren't tried. A place is done once no move is left to try there. Of two requests that are alike and run, the second one's finish isn't tried.
    None where there are more than so many."""
    calls, ops, ticks = normal.calls_told(asked), holding.Ops(asked.script), holding.may_tick(asked)
    pairs = alike.pairs(asked)
    holds, always = holding.may_hold(asked), {"take"} if holding.takes_at_once(asked) else set()
    is_done: Dict[object, bool] = {}
    way: List[Visit] = []

    def visit(steps: Tuple[str, ...], place: Place) -> None:
        key = place.key(calls)
        is_done[key] = False
        apart = always | ({"loop"} if holds and ops.is_loop_apart(ticks, place.state) else set())
        tried = (move for move in moves(loop, asked, place, []) if not alike.covered(asked, pairs, place.state, move.command))
        way.append(Visit(key, steps, place, tried, apart))

    visit((), first)
    while way:
        here = way[-1]
        # (the moves of a place go on where the last one led to, and take that back)
        is_held = is_done.get(here.behind, False)
        move = None if is_held else next(here.moves, None)
        if move is None:
            is_done[here.key] = True
            loop.go_back(here.steps, here.place.state)
            way.pop()
            continue
        key = move.place.key(calls)
        here.behind = key if move.command.split(" ")[0] in here.apart else None
        if key not in is_done:
            if len(is_done) == cap:
                return None
            visit(here.steps + (move.command,), move.place)
    return len(is_done)


def what_is_wrong(program: str, asked: Asked, steps: List[str]) -> Optional[str]:
    """Why these steps are no answer: one isn't offered or not accepted there, or the last one doesn't answer."""
    loop = Loop(program, asked.script)
    try:
        return walk(loop, asked, steps)
    finally:
        loop.close()


def walk(loop: Loop, asked: Asked, steps: List[str]) -> Optional[str]:
    # (one step may be several moves, each of which leads to a place of its own)
    places = [beginning(asked, loop.state)]
    answered = False
    for number, command in enumerate(steps, 1):
        there = [(place, move) for place in places for move in moves(loop, asked, place, []) if move.command == command]
        if not there:
            return "step %d, `%s`, is not offered there, or not accepted within the bounds" % (number, command)
        answered = any(answers(asked, place, move) for place, move in there)
        loop.go_to(tuple(steps[:number]))
        places = list({move.place.key(None): move.place for _, move in there}.values())
    for place in places:
        blocked: List[bool] = []
        leads = list(moves(loop, asked, place, blocked))
        answered = answered or answers_here(asked, place, blocked, bool(leads))
    return None if answered else "the last step does not answer"
