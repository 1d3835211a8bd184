"""Where a search holds moves back: those of the thread pool, of the clock and of I/O, where the loop's next step is apart from them; and all
others, where a worker takes a request at once.

It is written from the words of the definitions: `may_hold`, `is_of_pool`, `may_take_at_once` and `is_loop_apart` of uv_find, `is_apart` and
`reads_clock` of uv_apart."""
from typing import Dict, List, Optional

from tests.find import normal
from tests.find.asked import Asked
from tests.find.loop import State

LISTS = ("on", "after", "closed")
# the stages in which a callback of I/O may begin
OF_IO = ("pending", "poll", "polled", "done", "async")


def is_plain(asked: Asked) -> bool:
    """Whether nothing is kept whole or held to a recording, no time of a callback is said, and lateness isn't asked."""
    return not (asked.full or asked.differ is not None or asked.takes) and asked.question[:1] != ("late",)


def may_hold(asked: Asked) -> bool:
    """Whether moves may be held back behind the loop's step: no time of a callback is said, and nothing comes but of the pool, of the clock and of
    I/O."""
    return is_plain(asked) and all(offer.word in ("wait", "tick", "io") for offer in asked.offers)


def is_of_pool(asked: Asked) -> bool:
    """Whether beside the pool only times, sends and callbacks of I/O come: workers are alike, and no time of a callback is said."""
    is_clear = all(offer.word in ("wait", "tick", "send", "io") and offer.job is None for offer in asked.offers)
    return is_plain(asked) and normal.may_forget(asked) and is_clear


def takes_at_once(asked: Asked) -> bool:
    """Whether a worker takes a request at once: so it is, and nobody cancels."""
    return is_of_pool(asked) and all(op[0] != "cancel" for _, op in normal.ops(asked))


def holds_back(asked: Asked) -> bool:
    """Whether moves may be held back, behind the loop's step or behind a take."""
    return may_hold(asked) or takes_at_once(asked)


def may_tick(asked: Asked) -> bool:
    """Whether the clock may go on at any step."""
    return any(offer.word == "tick" for offer in asked.offers)


class Ops:
    """The ops of a script by their places."""

    def __init__(self, script: List[str]) -> None:
        self.order = "1.45"
        self.has_io = "io" in script
        self.main: List[List[str]] = []
        self.lists: Dict[str, List[List[str]]] = {}
        for line in script:
            words = line.split()
            if words[:1] == ["order"]:
                self.order = words[1]
            if words[:1] == ["main"]:
                self.main.append(words[1:])
            if words[:1] and words[0] in LISTS:
                is_for_one = words[2].startswith("@")
                self.lists.setdefault(" ".join(words[:2]), []).append(words[2 + is_for_one :])

    def next_in_body(self, place: List[str]) -> Optional[List[str]]:
        """The op that comes next in the body under way; none where the body ends."""
        callback, name, _, number = place[place.index("+") + 1 :]
        ops = self.lists.get(callback + " " + name, [])
        return ops[int(number)] if int(number) < len(ops) else None

    def is_apart(self, place: List[str]) -> bool:
        """Whether the loop's next step is apart from what workers take and finish: none is that of a poll or of a woken one, of the op `cancel`,
        or behind the main program."""
        if place[1] == "main":
            number = int(place[2])
            return number < len(self.main) and self.main[number][0] != "cancel"
        if "+" in place:
            op = self.next_in_body(place)
            return op is None or op[0] != "cancel"
        return place[3] != "poll" and place[3:] != ["polled", "woken"]

    def reads_clock(self, place: List[str]) -> bool:
        """Whether the loop's next step may read the clock: the op `updatetime`, a default run of 1.45 that begins, a poll, and the stages behind
        which timers may begin with the time refreshed."""
        if place[1] == "main":
            op = self.main[int(place[2])] if int(place[2]) < len(self.main) else [""]
            return op[0] == "updatetime" or op == ["run", "default"] and self.order == "1.45"
        if "+" in place:
            return self.next_in_body(place) == ["updatetime"]
        return place[3] in ("closing", "poll") or place[3] == "entry" and self.order == "1.44"

    def takes_io(self, place: List[str]) -> bool:
        """Whether a callback of I/O may begin there, as far as the place tells: between callbacks, in the poll, beside the requests that are done,
        and in the async section."""
        return self.has_io and place[1] != "main" and "+" not in place and place[3] in OF_IO

    def is_loop_apart(self, ticks: bool, state: State) -> bool:
        """Whether it is apart from all that may come: also from ticks, where they may come at any step, and from I/O."""
        place = state.text.split("\n")[1].split()
        return self.is_apart(place) and not (ticks and self.reads_clock(place)) and not self.takes_io(place)
