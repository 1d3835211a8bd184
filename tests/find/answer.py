"""What the search answers, as it is read, and whether that is right."""
import re
import subprocess
from typing import List, NamedTuple, Optional

from tests.find import slow
from tests.find.asked import Asked
from tests.find.slow import Settled

FOUND = re.compile("found in ([0-9]+) steps?, ([0-9]+) states?")
NEVER = re.compile("never(?: within (.+))?: ([0-9]+) states?, every order")
UNSETTLED = re.compile("not settled within ([0-9]+) states?")


class Answer(NamedTuple):
    kind: str
    # how many steps or states it names
    number: int
    # of `never`, the bounds that it names
    within: List[str]
    # of `found`, the lines of the session behind the first one
    session: List[str]


def read(text: str) -> Optional[Answer]:
    lines = text.rstrip("\n").split("\n")
    found, never, unsettled = FOUND.fullmatch(lines[0]), NEVER.fullmatch(lines[0]), UNSETTLED.fullmatch(lines[0])
    if found:
        return Answer("found", int(found[1]), [], lines[1:])
    if len(lines) > 1:
        return None
    if never:
        return Answer("never", int(never[2]), (never[1] or "").split(", ") if never[1] else [], [])
    return Answer("not settled", int(unsettled[1]), [], []) if unsettled else None


def bounds_of(asked: Asked) -> List[str]:
    """The bounds that an answer `never` names."""
    moved = [] if asked.differ is None else ["%d moved" % asked.differ]
    clock = [] if asked.clock is None else ["clock %d" % asked.clock]
    return moved + clock + ["%d call%s of %s" % (calls, "" if calls == 1 else "s", name) for name, calls in asked.most.items()]


def recorded(program: str, script: List[str]) -> List[str]:
    """The script as `record` writes it, with each line that has a default."""
    text = "\n".join(script + ["begin", "record", ""])
    ended = subprocess.run([program, "debug"], input=text, stdout=subprocess.PIPE, stderr=subprocess.PIPE, text=True)
    return ended.stdout.split("\n")


def wrong_session(program: str, asked: Asked, answer: Answer) -> Optional[str]:
    if "begin" not in answer.session:
        return "the session has no line `begin`"
    at = answer.session.index("begin")
    steps = answer.session[at + 1 :]
    if recorded(program, answer.session[:at]) != recorded(program, asked.script):
        return "the session is of another script"
    if len(steps) != answer.number:
        return "it says %d steps, and the session has %d" % (answer.number, len(steps))
    return slow.what_is_wrong(program, asked, steps)


def wrong(program: str, asked: Asked, settled: Settled, answer: Answer) -> Optional[str]:
    """What is wrong with an answer, by the slow search's own."""
    is_over = asked.states is not None and (settled.kept is None or asked.states < settled.kept)
    if answer.kind == "found":
        if settled.steps is None and settled.places is not None:
            return "found, and there is no answer among all %d places" % settled.places
        if settled.steps is not None and answer.number != settled.steps:
            return "found in %d steps, and %d are enough" % (answer.number, settled.steps)
        return wrong_session(program, asked, answer)
    if answer.kind == "never":
        if settled.steps is not None:
            return "never, and %d steps answer" % settled.steps
        if is_over:
            return "never, and there are more places than may be kept"
        if answer.number != settled.kept:
            return "never with %d states, and there are %s" % (answer.number, settled.kept or "more than are looked at")
        said = [re.sub(r"\b1 calls\b", "1 call", bound) for bound in answer.within]
        return None if sorted(said) == sorted(bounds_of(asked)) else "it names other bounds: " + ", ".join(answer.within)
    if answer.number != asked.states:
        return "not settled within %d states, and %s may be kept" % (answer.number, asked.states)
    return None if is_over else "not settled, and there are only %s places" % settled.kept
