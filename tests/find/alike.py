"""Requests that are alike: where workers run two of them, the second one's finish isn't tried.

It is written from the words of the definitions: `is_mate`, `are_alike` and `is_covered` of uv_find."""
from typing import Dict, List, Optional, Set, Tuple

from tests.find import holding
from tests.find.asked import Asked
from tests.find.loop import State

# A name, and the next one that is like it.
Pair = Tuple[str, str]


# The words before the lines of callbacks.
KINDS = ["on", "after", "closed"]


def does(asked: Asked, name: str) -> List[List[List[str]]]:
    """What a name's callbacks of each kind do, line by line."""
    lines = [line.split() for line in asked.script]
    return [[words[2:] for words in lines if words[:2] == [kind, name]] for kind in KINDS]


def is_same(asked: Asked, pair: Pair) -> bool:
    """Whether each callback does what it did where the two names change places."""
    other = {pair[0]: pair[1], pair[1]: pair[0]}
    return all(
        does(asked, other.get(name, name)) == [[[other.get(word, word) for word in words] for words in lines] for lines in does(asked, name)]
        for name in asked.names
    )


def speaks_of(asked: Asked) -> Set[str]:
    """The names that an offer, a bound or the question names."""
    return {offer.argument for offer in asked.offers} | set(asked.most) | set(asked.question)


def pairs(asked: Asked) -> Set[Pair]:
    """The names that are like the next one. None where more comes than of the pool, and where it is asked whether the loop is stuck."""
    if not holding.is_of_pool(asked) or asked.question == ("stuck",):
        return set()
    named = speaks_of(asked)
    return {pair for pair in zip(asked.names, asked.names[1:]) if not named & set(pair) and is_same(asked, pair)}


def jobs_of(state: State) -> Dict[str, Tuple[int, List[str]]]:
    """Of each name whose request a worker runs, the worker, and the words of its task."""
    jobs = {}
    for line in state.text.split("\n"):
        words = line.split()
        if words[0] == "slot" and words[2] == "work" and words[4] == "running":
            jobs[words[3]] = int(words[5]), words[6:]
    return jobs


def is_ahead(asked: Asked, state: State, names: Pair) -> bool:
    """Whether a line of the main program names one of these that is ahead of where the loop is, or that began the run under way."""
    place = state.text.split("\n")[1].split()
    lines = [line.split()[1:] for line in asked.script if line.startswith("main ")]
    return any(set(names) & set(words[1:2]) for words in lines[int(place[2]) :])


def covered(asked: Asked, alike: Set[Pair], state: State, command: str) -> Optional[Pair]:
    """The two requests, where this step would finish the second one while the first one is run."""
    words = command.split()
    if words[0] != "finish" or not alike:
        return None
    jobs = jobs_of(state)
    name = next((it for it, (worker, _) in jobs.items() if worker == int(words[1])), None)
    pair = next((it for it in alike if it[1] == name and it[0] in jobs), None)
    if pair is None or jobs[pair[0]][1] != jobs[pair[1]][1] or state.calls[pair[0]] != state.calls[pair[1]]:
        return None
    is_under_way = state.caller is not None and state.caller[1] in pair
    return None if is_under_way or is_ahead(asked, state, pair) else pair
