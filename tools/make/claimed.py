"""The claims of the program, and the clauses that say them."""

from __future__ import annotations

from dataclasses import dataclass
from typing import NamedTuple


class Clause(NamedTuple):
    """A clause of a public call; `` where all of its clauses are meant."""

    crate: str
    file: str
    call: str
    name: str = ""


@dataclass(frozen=True)
class Claim:
    """What is claimed, in a sentence, and what says it: CRATE/FILE.CALL or CRATE/FILE.CALL.CLAUSE, with a space between two."""

    sentence: str
    said_by: str
    # the type whose values the clauses speak of, as its crate and its name, where they say more of it than a trait does
    of: tuple[str, str] | None = None

    @property
    def clauses(self) -> list[Clause]:
        return [Clause(*it.replace("/", ".").split(".")) for it in self.said_by.split()]


CLAIMS = (
    Claim(
        "A text is read as a script by the grammar alone: as its script, or with its first bad line.",
        "uv_script/parse.parse",
        ("uv_script", "Script"),
    ),
    Claim(
        "A step of any machine, the program's too, is the step of one definition, `next`, or is refused just where that refuses it.",
        "uv_model/machine.step",
    ),
    Claim("A step back leaves the loop as it was after the steps before.", "uv_model/machine.back"),
    Claim(
        "Going back is exact: a step adds one record, the last record gives back the very memory from before its step, and so do any in a row.",
        "uv_loop/machine.step.records uv_loop/machine.back.drops uv_memory/law.steps_unwind",
        ("uv_loop", "ArenaLoop"),
    ),
    Claim("The lines of every list of steps are in libuv's documented order of phases.", "uv_order/phase_order.documented_order"),
    Claim(
        "By the lines alone each handle closes once and is called only where it was started, and each request calls back once, with ECANCELED "
        "only if no worker took it.",
        "uv_order/once.closes_once",
    ),
    Claim(
        "Each handle is what the lines tell of it: made under its name, closing where a `close` was accepted, active where it was started and "
        "not stopped since, and a timer due as its last start says; each op answers what the lines before it tell; idle, prepare, check and "
        "closing handles are called in the turn that the lines tell; and the loop's step is refused only where the lines have led to the main "
        "program's end or to a poll that may wait, and else comes to a line; a step's line is of its very event; and a callback of I/O that "
        "may begin is taken.",
        "uv_order/told.handles_told uv_order/dues.dues_told uv_order/answers.answers_told uv_order/turns.called_in_turn "
        "uv_order/waits.goes_on_told uv_order/waits.steps_get_on uv_order/outside.events_say uv_order/outside.io_comes",
    ),
    Claim(
        "The events of the thread pool that the lines say are possible by the pool's rules, and lead to the pool of the state.",
        "uv_order/pool.pool_follows",
    ),
    Claim(
        "An accepted event is one more step of a session, and discards what was taken back; steps are taken back and run again in any number.",
        "uv_session/session.do_event uv_session/session.back.moves uv_session/session.forward",
        ("uv_session", "Session"),
    ),
    Claim(
        "What a conversation writes is settled by what it reads, byte for byte, where the bytes of its reader and its writer are known, as "
        "those over memory are.",
        "uv_engine/conversation.converse.text uv_engine/devices.memory_tells",
    ),
    Claim(
        "The verdict on a recording is that of one definition, where the bytes of its reader and its writer are known, as those over memory are.",
        "uv_engine/replaying.replay.text uv_engine/devices.memory_tells",
    ),
    Claim(
        "A live run that ends well gives a session of its script that is at its end, for which there are a book, shifts and counts of sends "
        "that agree with it.",
        "uv_run/running.live",
        ("uv_session", "Session"),
    ),
    Claim(
        "Where a search of all orders answers `never`, no list of events that may come has a step that answers the question, however long it "
        "is, or where states are forgotten of fewer than 4,278,190,077 events; and as many states were kept as it says: all that were tried, "
        "and where no move is held back all that there are.",
        "uv_find/finding.find.found",
    ),
    Claim(
        "Wherever events lead in such a search, each worker that runs a request may finish it, also where it is forgotten which of them runs "
        "which.",
        "uv_find/finding.each_finishes",
    ),
    Claim(
        "Each move of an order near a recording is an offer of every order of what came in it, where the loop stands in the same state, what "
        "came may still come, and each state is kept whole; except for a send that libuv sees otherwise than the loop does, and a take of a "
        "worker that isn't the idle one of the least number.",
        "uv_find/finding.near_is_within",
    ),
    Claim(
        "A search takes two states for one only where they are equal, or, where it may forget, the same is told of them (`tale`); and such "
        "states go on alike where they are regular (`IsRegular`), as each is that so few steps lead to.",
        "uv_state_key/laws.keys_tell uv_state_key/laws.forms_tell uv_tale/laws.others_alike uv_tale/laws.takes_alike "
        "uv_tale/laws.finishes_alike uv_find/finding.states_are_regular",
    ),
    Claim(
        "A step of the loop that doesn't read the clock and a tick, one that is no cancel and what a worker takes, and one that is apart and "
        "what a worker finishes, can be taken in both orders where each is accepted, with the same lines, to the same state; and so can what "
        "a worker takes and a tick, what another one finishes, a send, or a callback of I/O.",
        "uv_apart/laws.ticks_apart uv_apart/laws.takes_apart uv_apart/laws.finishes_apart uv_apart/laws.takes_beside",
    ),
    Claim(
        "States that are the same except for which worker runs which request go on alike, with lines that are the same except for workers' "
        "numbers; and so do states with the same pooled form, where their times fit and their slots are young (`IsTimed`, `IsYoung`).",
        "uv_workers/laws.others_alike.alike uv_workers/laws.takes_alike.alike uv_workers/laws.finishes_alike.alike "
        "uv_tale/laws.pooled_others_alike uv_tale/laws.pooled_takes_alike uv_tale/laws.pooled_finishes_alike",
    ),
    Claim(
        "What the search's program writes is the answer to what its input asks, where the bytes of its reader and its writer are known, as "
        "those over memory are.",
        "uvt_find/running.run.text uv_engine/devices.memory_tells",
    ),
)
