"""The form of a state by its names, of what `uvt debug` prints of it: what a search keeps where it may forget the rest. Times are as early as
they can be, and it is forgotten in which slots handles and requests stand, and which worker runs which request.

It is written from the words of the definitions: `tale` of uv_tale, `may_forget` and `calls_end` of uv_find."""
import re
from typing import Iterator, List, Optional, Tuple

from tests.find.asked import Asked

# So many ms are a long time.
LONG = 2**30
LAST_GENERATION = 2**32 - 1
COUNTED = ("call", "on", "after", "closed")


# ---- where a search may forget, and how far it counts then


def ops(asked: Asked) -> Iterator[Tuple[Optional[int], List[str]]]:
    """The ops of the script: the call that each is for, if it is for one, and its words."""
    for line in asked.script:
        words = line.split()
        if words[:1] == ["main"]:
            yield None, words[1:]
        elif words[:1] in (["on"], ["after"], ["closed"]):
            is_for_one = words[2].startswith("@")
            yield int(words[2][1:]) if is_for_one else None, words[2 + is_for_one :]


def times_of(op: List[str]) -> List[int]:
    """The ms that an op names."""
    return [int(word) for word in {"start": op[2:4], "repeat": op[2:3]}.get(op[0], []) if word.isdigit()]


def may_forget(asked: Asked) -> bool:
    """Whether nothing that is asked tells a state from another one of which the same is told."""
    if asked.full or asked.clock is not None or asked.differ is not None or any(offer.job is not None for offer in asked.offers):
        return False
    sizes = [line.split() for line in asked.script if line.startswith("slots ")]
    if any(int(words[2]) < LAST_GENERATION for words in sizes if len(words) > 2):
        return False
    times = [ms for _, op in ops(asked) for ms in times_of(op)] + [
        int(it.argument) for it in asked.offers if it.word in ("tick", "wait") and it.argument
    ]
    return all(ms < LONG for ms in times + list(asked.takes.values()))


def calls_told(asked: Asked) -> Optional[int]:
    """Up to which number calls are counted: behind each that the script, a bound, a line `takes` or the question names, and whether there was
    one at all. None where the search keeps whole states."""
    if not may_forget(asked):
        return None
    named = [call for call, _ in ops(asked)] + list(asked.most.values()) + [call for _, call in asked.takes]
    if len(asked.question) == 3 and asked.question[0] in COUNTED and asked.question[1] not in ("before", "after"):
        named.append(int(asked.question[2]))
    return max([1] + [call + 1 for call in named if call is not None])


def least_work(line: str) -> str:
    """The line, where a request that it queues asks for one round over no text."""
    words = line.split(" ")
    at = 1 if words[0] == "main" else 2 + words[2].startswith("@") if words[0] in ("on", "after", "closed") else len(words)
    return " ".join([*words[: at + 2], "1"]) if words[at : at + 1] == ["queue"] else line


def with_same_work(asked: Asked) -> Asked:
    """The same of the script in which each request asks for the same work, where forms are kept: no question asks what it gave."""
    return asked._replace(script=[least_work(line) for line in asked.script]) if may_forget(asked) else asked


# ---- the form


def number_behind(word: str, line: str) -> int:
    return int(re.search(rf" {word} ([0-9]+)", line)[1])


def lessened(word: str, less: int, line: str) -> str:
    """The line with the number behind this word less by so much."""
    return re.sub(rf"( {word} )([0-9]+)", lambda found: found[1] + str(int(found[2]) - less), line, count=1)


def capped(lines: List[str], calls: int) -> List[str]:
    """Calls are counted no further than to that number: those of each name, and which one the body under way belongs to."""
    out = []
    for line in lines:
        words = line.split(" ")
        if words[0] == "place" and "+" in words:
            call = words.index("+") + 3
            words[call] = str(min(int(words[call]), calls))
        if words[0] == "name":
            words[3:] = [str(min(int(count), calls)) for count in words[3:]]
        out.append(" ".join(words))
    return out


def is_active_timer(line: str) -> bool:
    words = line.split(" ")
    return words[0] == "slot" and words[2] == "timer" and words[7] == "1"


def deadline(place: str) -> List[int]:
    """When the poll is over, where the loop is in one that has an end."""
    words = place.split(" ")
    return [int(words[4])] if words[3:4] == ["poll"] and words[4] != "infinite" else []


def earliest(lines: List[str]) -> List[str]:
    """The least of all times is 0, and so is the least number of a start: of those of the active timers, and the next one."""
    numbers, place = lines[0], lines[1]
    timers = [line for line in lines if is_active_timer(line)]
    ms = min([number_behind("now", " " + numbers), number_behind("clock", numbers)] + [number_behind("due", it) for it in timers] + deadline(place))
    start = min([number_behind("next", numbers)] + [number_behind("start", it) for it in timers])
    numbers = lessened("next", start, lessened("clock", ms, lessened("now", ms, " " + numbers)))[1:]
    place = lessened("poll", ms, place) if deadline(place) else place
    return [numbers, place] + [lessened("start", start, lessened("due", ms, it)) if is_active_timer(it) else it for it in lines[2:]]


def workerless(lines: List[str]) -> List[str]:
    """Of a request that is run, no line says by which worker."""
    return [re.sub(r"^(name \S+ holds work \S+ running) [0-9]+", r"\1", line) for line in lines if line.split(" ")[0] != "running"]


def by_names(lines: List[str]) -> List[str]:
    """Each name with what its slot holds, in whichever slot that is; of what is gone, and of slots that are free, no more than that and how many
    they are."""
    slots = {line.split(" ")[1]: " ".join(line.split(" ")[2:]) for line in lines if line.startswith("slot ")}
    out = []
    for line in lines:
        words = line.split(" ")
        if words[0] == "name" and words[2] != "none":
            held = slots.get(words[2], "empty")
            words[2] = "gone" if held in ("empty", "retired") else "holds " + held
        if words[0] == "free":
            words = ["used", str(len(slots))]
        if words[0] != "slot":
            out.append(" ".join(words))
    return out


def formed(text: str, calls: int) -> str:
    """Of what `state` prints, without how many steps stand."""
    return "\n".join(workerless(by_names(earliest(capped(text.split("\n"), calls)))))
