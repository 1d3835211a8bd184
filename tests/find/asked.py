"""What the input of a search says: a script, what may come from outside, how far it goes, and what is looked for."""
import re
from typing import Dict, List, NamedTuple, Optional, Tuple

from tests.find.recording import Recorded

DEFAULT_WORKERS = 4


class Offer(NamedTuple):
    """A step from outside: `send`, `cancel` and `io` with a name, `tick` with a number, or `wait`, with one or none."""

    word: str
    argument: str
    # how often it may be taken; none is as often as one likes
    times: Optional[int]
    # of a send, the name whose request a worker has to run then
    job: Optional[str] = None


class Asked(NamedTuple):
    script: List[str]
    names: List[str]
    # how many lines the main program has
    main: int
    workers: int
    offers: List[Offer]
    # in place of the offers, what came in a recording, and how many of it may come at another place
    differ: Optional[int]
    recorded: List[Recorded]
    # how long the callback of a name takes, each time or that one
    takes: Dict[Tuple[str, Optional[int]], int]
    clock: Optional[int]
    most: Dict[str, int]
    states: Optional[int]
    # each state is kept whole, and no move is held back
    full: bool
    # the words behind `find`
    question: Tuple[str, ...]


def read(text: str) -> Asked:
    """What such an input asks. It is one that the test itself made, or that a person gives it."""
    lines = text.split("\n")
    if "begin" not in lines:
        raise ValueError("the input has no line `begin`")
    script = lines[: lines.index("begin")]
    asked = Asked(
        script,
        [line.split()[1] for line in script if line.startswith("var ")],
        sum(line.startswith("main ") for line in script),
        DEFAULT_WORKERS,
        [],
        None,
        [],
        {},
        None,
        {},
        None,
        False,
        (),
    )
    for line in script:
        if line.startswith("workers "):
            asked = asked._replace(workers=int(line.split()[1]))
    for line in lines[len(script) + 1 :]:
        asked = read_line(asked, line)
    for name in names_in(asked):
        if name not in asked.names:
            raise ValueError("the name %s is not declared" % name)
    return asked


def names_in(asked: Asked) -> List[str]:
    """The names that the lines behind `begin` name."""
    question = asked.question
    named = list(asked.most) + [offer.argument for offer in asked.offers if offer.word in ("send", "cancel", "io")]
    named += [it.command.split()[1] for it in asked.recorded if it.command.split()[0] in ("send", "cancel", "io")]
    named += [offer.job for offer in asked.offers if offer.job is not None] + [name for name, _ in asked.takes]
    if len(question) == 3 and question[1] in ("before", "after"):
        return named + [question[0], question[2]]
    if question[:1] == ("code",):
        return named + list(question[3:])
    if question in ((), ("stuck",)) or question[0] == "section" and len(question) == 2:
        return named
    if len(question) not in {"call": (2, 3), "on": (2, 3), "after": (2, 3), "closed": (2, 3), "never": (2,), "late": (3,)}.get(question[0], ()):
        raise ValueError("this is no question: find " + " ".join(question))
    if len(question) == 3 and not re.fullmatch("[0-9]+", question[2]):
        raise ValueError("this is no number: " + question[2])
    return named + [question[1]]


def read_line(asked: Asked, line: str) -> Asked:
    words = line.split()
    if not words or line.startswith("#"):
        return asked
    if words == ["full"]:
        return asked._replace(full=True)
    if words == ["may", "wait"]:
        return asked._replace(offers=asked.offers + [Offer("wait", "", None)])
    if words[:2] == ["may", "differ"] and len(words) == 3:
        return asked._replace(differ=int(words[2]))
    if words[0] == "recorded" and len(words) == 5:
        return asked._replace(recorded=asked.recorded + [Recorded(int(words[1]), int(words[2]), " ".join(words[3:]))])
    if words[0] == "may" and len(words) == 4 and words[1] in ("send", "cancel", "io", "tick", "wait"):
        return asked._replace(offers=asked.offers + [Offer(words[1], words[2], int(words[3]))])
    if words[:2] == ["may", "send"] and len(words) == 6 and words[4] == "during":
        return asked._replace(offers=asked.offers + [Offer("send", words[2], int(words[3]), words[5])])
    if words[0] == "takes" and len(words) in (3, 4):
        call = int(words[2].lstrip("@")) if len(words) == 4 else None
        return asked._replace(takes={**asked.takes, (words[1], call): int(words[-1])})
    if words[0] == "most" and len(words) == 3 and re.fullmatch("[0-9]+", words[2]):
        if words[1] == "clock":
            return asked._replace(clock=int(words[2]))
        if words[1] == "states":
            return asked._replace(states=int(words[2]))
        return asked._replace(most={**asked.most, words[1]: int(words[2])})
    if words[0] == "find":
        return asked._replace(question=tuple(words[1:]))
    raise ValueError("this line asks nothing: " + line)
