"""Orders that differ from a recording: what may come, and where a step leads. And recordings, made at random."""
from random import Random
from typing import Iterator, List, NamedTuple, Optional, Tuple

from tests.find.loop import Loop, Reply, State

AHEAD, HELD, COME = "ahead", "held", "come"


class Recorded(NamedTuple):
    """A step from outside, and how many polls, and steps of the loop behind the last of them, its place is away from that of the one before it."""

    polls: int
    steps: int
    command: str


class Along(NamedTuple):
    """How far an order is: how each recorded step stands, how many places are passed, how far the next one is away, and how many steps may still
    come at another place."""

    stands: Tuple[str, ...]
    passed: int
    polls: int
    steps: int
    spare: int


class Coming(NamedTuple):
    """A step that may come, and how far the order is then."""

    command: str
    along: Along


def passing(recorded: List[Recorded], along: Along, number: int) -> Along:
    """Behind the place of the recorded step of this number, and of those that are at the same one."""
    number += 1
    while number < len(recorded) and not recorded[number].polls and not recorded[number].steps:
        number += 1
    there = recorded[number] if number < len(recorded) else Recorded(0, 0, "")
    return along._replace(passed=number, polls=there.polls, steps=there.steps)


def beginning(recorded: List[Recorded], spare: int) -> Along:
    return passing(recorded, Along((AHEAD,) * len(recorded), 0, 0, 0, spare), -1)


def behind_loop(recorded: List[Recorded], along: Along, line: Optional[str]) -> Along:
    """Behind a step of the loop with this line."""
    if along.passed == len(recorded):
        return along
    polls, steps = along.polls, along.steps
    if (line or "").startswith("poll "):
        polls, steps = (polls - 1, steps) if polls else (0, 0)
    elif not polls:
        steps = max(steps - 1, 0)
    along = along._replace(polls=polls, steps=steps)
    return along if polls or steps else passing(recorded, along, along.passed)


def source(command: str) -> str:
    """Whose step it is: a name's, a worker's, or the clock's."""
    return "tick" if command.startswith(("tick ", "wait ")) else command


def may_come(recorded: List[Recorded], along: Along, number: int, state: State) -> bool:
    """Whether a recorded step may come at all: what it is for was made, and what came from its source before it has come."""
    word, argument = recorded[number].command.split(" ")
    if word in ("send", "cancel", "io") and argument not in state.made:
        return False
    return not any(stands != COME and source(one.command) == source(recorded[number].command) for one, stands in zip(recorded[:number], along.stands))


def is_seen(command: str, state: State) -> bool:
    """Whether libuv sees a send here as the loop does."""
    word, argument = command.split(" ")
    return word != "send" or state.section not in ("done", "async") and argument not in state.closing


def is_accepted(loop: Loop, command: str) -> bool:
    steps, state = loop.steps, loop.state
    reply = loop.step(command)
    loop.go_back(steps, state)
    return reply.refused is None


def is_blocked(loop: Loop) -> bool:
    steps, state = loop.steps, loop.state
    reply = loop.step("loop")
    loop.go_back(steps, state)
    return reply.refused == "blocked"


def with_stands(along: Along, numbers: List[int], stands: str) -> Along:
    return along._replace(stands=tuple(stands if at in numbers else was for at, was in enumerate(along.stands)))


def is_free(command: str, owed: int) -> bool:
    """While a callback's time goes by no other time does, and no callback of I/O begins."""
    return not (owed and command.split(" ")[0] in ("tick", "wait", "io"))


def lasts(command: str, state: State, is_blocked: bool) -> bool:
    """What was a wait goes by only where the loop is blocked in a poll, and no further than to its deadline."""
    word, argument = command.split(" ")
    return word != "wait" or is_blocked and (state.deadline is None or state.clock + int(argument) <= state.deadline)


def step_of(command: str) -> str:
    return command.replace("wait ", "tick ")


def coming(loop: Loop, recorded: List[Recorded], along: Along, is_blocked: bool, owed: int = 0, wait: Optional[int] = None) -> Iterator[Coming]:
    """What may come from where the loop is, which is blocked in a poll or isn't, where a callback still takes so many ms, and the clock may go on by
    so many to the deadline of the poll."""
    state = loop.state
    possible = [
        number
        for number in range(len(recorded))
        if along.stands[number] != COME
        and may_come(recorded, along, number, state)
        and is_free(recorded[number].command, owed)
        and lasts(recorded[number].command, state, is_blocked)
    ]
    ready = [number for number in possible if along.stands[number] == AHEAD and is_accepted(loop, step_of(recorded[number].command))]

    def past(number: int) -> Optional[Along]:
        held = [it for it in ready if it < number]
        return with_stands(along, held, HELD)._replace(spare=along.spare - len(held)) if len(held) <= along.spare else None

    on = past(along.passed)
    if on is not None and owed:
        yield Coming("tick %d" % owed, on)
    elif on is not None and wait is not None:
        # (a wait is one of the steps to the next place)
        yield Coming("tick %d" % wait, behind_loop(recorded, on, None))
    elif on is not None:
        yield Coming("loop", on)
    for number in possible:
        command = step_of(recorded[number].command)
        here = past(number) if along.stands[number] == AHEAD and (number < along.passed or is_blocked and wait is None) else None
        if here is not None:
            here = with_stands(here, [number], COME)
            yield Coming(command, here if number < along.passed else passing(recorded, here, number))
        price = int(along.stands[number] == AHEAD)
        if is_seen(command, state) and price <= along.spare:
            yield Coming(command, with_stands(along, [number], COME)._replace(spare=along.spare - price))


def recording(loop: Loop, commands: List[str], draw: Random, count: int) -> List[Recorded]:
    """What came from outside in so many steps at random, each the loop's own or one of these."""
    found: List[Recorded] = []
    polls = steps = 0
    for _ in range(count):
        command = draw.choice(["loop"] * (2 * len(commands) + 2) + commands)
        wait = command.replace("tick ", "wait ")
        is_wait = wait != command and draw.random() < 0.8 and lasts(wait, loop.state, is_blocked(loop))
        reply: Reply = loop.step(command)
        if reply.refused is not None:
            continue
        if command != "loop":
            found.append(Recorded(polls, steps, wait if is_wait else command))
            polls = steps = 0
        elif (reply.line or "").startswith("poll "):
            polls, steps = polls + 1, 0
        else:
            steps += 1
    return found
