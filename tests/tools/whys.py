"""What `why` has to say of the examples, and that it says the same as a slow check of random recordings."""

from __future__ import annotations

import os
import random
from pathlib import Path
from typing import Iterable
from unittest.mock import patch
from typing import Callable

ROOT = Path(__file__).resolve().parent.parent.parent
from tests.helper import Check, Tries, limited
from tests.machines import sessions
from tests.tools.slow_why import Seen, SlowWhy
from uvt.arrivals import behind, came, waited
from uvt.conversation import Script
from uvt.inputs import read_text
from uvt.overview import Overview
from uvt.waits import Wait
from uvt.walk import Walk
from uvt.ways import longest_way
from uvt.why import Why, why

EXAMPLES = ROOT / "crates" / "examples" / "data"
CONVERSATIONS = ROOT / "tests" / "program" / "conversations"
WHY = str(ROOT / "tools" / "uvt" / "uvt-why")

# Of each example a name, up to which of its commands it is run (`None`: the longest of its ways), and what the answer has to
# contain: by hand, from the question at the example's head and the comments and steps below it.
WANTED: list[tuple[str, str, str | None, list[str]]] = [
    (
        "late-timer.uvt",
        "beat",
        None,
        [
            "late by 35 ms: the callback of save took 40 ms, from step 20 to 21",
            "due at 15 ms, called at 50 ms",
            "at step 6, when the loop's time was 0 ms, by line 15: main start beat 15 0",
        ],
    ),
    ("late-timer.uvt", "save", None, ["step 20, call 1: on time", "due at 10 ms, called at 10 ms"]),
    (
        "step-back.uvt",
        "late",
        None,
        ["late: a timer, never called", "step 11: no call: stopped by line 12: on early stop late", "it was due and set aside to be called"],
    ),
    (
        "never-called.uvt",
        "retry",
        None,
        [
            "never called: `start retry 1 0` at step 43 was refused, with ESTALE",
            "closed at step 20 by line 14: on timeout close retry",
            "step 29, close callback 1",
            "it is gone, since step 29",
            "by line 15: on reply start retry 1 0",
        ],
    ),
    ("two-timers.uvt", "a", None, ["step 6: no call: started again by line 16: main start a 5 0", "step 12, call 1: on time"]),
    ("two-timers.uvt", "b", None, ["step 11, call 1: on time"]),
    (
        "run-ends-early.uvt",
        "beat",
        None,
        [
            "meanwhile the run ended at step 20: nothing kept the loop alive",
            "step 37, call 1: on time",
            "for beat is unreferenced since step 4, by line 12: main unref beat",
        ],
    ),
    ("run-ends-early.uvt", "beat", "tick 5", ["the end, at 11: no call: the loop waits in the poll, since step 11 and until 5 ms", "due at 10 ms"]),
    (
        "watcher-waits.uvt",
        "late",
        None,
        [
            "an iteration later: it was started in the turn of the idle handles, which had begun at step 7",
            "started at step 9 by line 17: on starter @1 start late",
        ],
    ),
    ("watcher-waits.uvt", "soon", None, ["step 12, call 1: in the turn of the prepare handles that began at step 11"]),
    ("poll-does-not-block.uvt", "t", None, ["the poll didn't wait, at step 12: busy was an active idle handle", "due at 50 ms, called at 50 ms"]),
    (
        "poll-does-not-block.uvt",
        "t",
        "back 4",
        ["the loop waits in the poll", "until 50 ms", "the poll didn't wait, at step 12: busy was an active idle handle"],
    ),
    (
        "falls-behind.uvt",
        "beat",
        None,
        [
            "late by 25 ms: 35 ms went by in the poll",
            "fell behind: 2 repeats lost (20, 30 ms), next due at 45 ms",
            "due at 45 ms, called at 45 ms",
            "stopped by line 11: on beat @2 stop beat",
        ],
    ),
    ("who-keeps-it-alive.uvt", "wake", None, ["nobody sends to it", "it keeps the loop alive", "the poll waits since step"]),
    ("sends-are-one.uvt", "a", None, ["3 sends, and one call: those at steps 2, 3 and 4", "an async handle, 1 call"]),
    (
        "closed-handle.uvt",
        "t",
        None,
        [
            "`start t 5 0` returns EINVAL: it closes, since step 2, by line 7: main close t",
            "step 19: `start t 5 0` returns ESTALE: it is gone, since step 15",
        ],
    ),
    (
        "closed-twice.uvt",
        "t",
        None,
        ["step 4: `close t` returns EINVAL: it closes, since step 3", "step 15, close callback 1", "a timer, 1 close callback"],
    ),
    (
        "lost-send.uvt",
        "a",
        None,
        ["no call: closed by line 8: main close a", "the send at step 2 is lost", "`send a` returns EINVAL", "`send a` returns ESTALE"],
    ),
    (
        "stale-name.uvt",
        "w",
        None,
        ["step 33: `stop w` returns ESTALE: it is gone, since step 14", "its slot has n now (0.1)", "by line 16: on t stop w"],
    ),
    ("stale-name.uvt", "n", None, ["in the turn of the check handles", "started at step 16 by line 15: closed w start n"]),
    (
        "break-at-a-code.uvt",
        "t",
        None,
        ["step 33: `active t` returns ESTALE: it is gone, since step 28", "it was closed at step 21, by line 12: on i @2 close t"],
    ),
    ("what-it-waits-for.uvt", "fast", "tick 8", ["the loop waits in the poll", "until 8 ms", "due at 8 ms, and the session ends at 0 ms"]),
    ("what-it-waits-for.uvt", "slow", None, ["until 20 ms", "due at 20 ms, and the session ends at 8 ms"]),
    ("done-out-of-order.uvt", "long", None, ["behind short, queued later and done earlier", "worker 0 ran it from step 4 to 7"]),
    ("cancel-in-time.uvt", "first", None, ["`cancel first` returns EBUSY: too late: worker 0 took it at step 3"]),
    (
        "cancel-in-time.uvt",
        "second",
        None,
        ["cancelled before a worker took it", "cancelled at step 5 from outside", "it is cancelled already, since step 5"],
    ),
    ("tenth-waits.uvt", "j", None, ["it waits behind f, g, h and i", "e (worker 0), b (worker 1), c (worker 2) and d (worker 3)"]),
    ("next-job.uvt", "job", None, ["2 after callbacks", "queued at step 12 by line 9: after job @1 queue job 1 two"]),
    ("live-run-back.uvt", "p", "back 10", ["behind q, queued later and done earlier", "worker 1 ran it from step 9 to 12", "after callback 1"]),
    ("live-run-back.uvt", "q", None, ["behind p"]),
    ("loop-is-busy.uvt", "t", None, ["until then the loop had it: `closeloop` at step 3 returns EBUSY", "step 13, close callback 1"]),
    (
        "io-before-sends.uvt",
        "wake",
        None,
        [
            "step 23, call 1: an iteration later, for the send at step 11, in the same millisecond",
            "the callback of reply left the poll of step 9 at step 10, and nobody had woken it by then: so no async handle was called behind it",
            "sent to at step 11 by line 12: on reply @1 send wake",
        ],
    ),
    (
        "io-before-sends.uvt",
        "reply",
        None,
        [
            "step 10, call 1: it left the poll",
            "nobody had woken that poll, so wake waited for the next one",
            "closed by line 14: on wake close reply",
        ],
    ),
    (
        "io-behind-a-callback.uvt",
        "answer",
        None,
        [
            "step 15, call 1: something came, and it was called 40 ms behind the end of the poll, at step 12:"
            " the callback of upload took 40 ms, from step 12 to 14"
        ],
    ),
    (
        "io-behind-a-callback.uvt",
        "upload",
        None,
        ["it left the poll: something came while the loop waited in the poll, 7 ms went by there, from step 10"],
    ),
    ("image-heap.uvt", "b", None, ["no call: stopped by line", "not due yet"]),
    ("sent-session.rec", "job", None, ["`cancel job` returns EBUSY: it is done already, since step 9", "by line 13: on early cancel job"]),
]


# The same of conversations with I/O (tests/program/conversations); without a name, what stands out.
WANTED_OF_IO: list[tuple[str, str, list[str]]] = [
    (
        "two-callbacks-of-i-o-in-one-poll-of-which-the-first-sets-the-time",
        "s",
        [
            "s: a handle of I/O, 2 calls, made at step 1",
            "step 12, call 1: it left the poll: something came while the loop waited in the poll, 3 ms went by there, from step 10",
            "step 14, call 2: something came, and it was called in the same millisecond as its last call, at step 12",
            "step 15: no further call: stopped by line 9: on s @2 stop s",
        ],
    ),
    (
        "what-comes-behind-a-callback-of-i-o-that-left-the-poll-is-for-the-next-one",
        "a",
        [
            "step 28, call 1: an iteration later, for the send at step 14, in the same millisecond",
            "the callback of r left the poll of step 10 at step 12, and nobody had woken it by then: so no async handle was called behind it",
        ],
    ),
    (
        "what-comes-behind-a-callback-of-i-o-that-left-the-poll-is-for-the-next-one",
        "w",
        ["after callback 1: done at step 13", "nobody had woken it by then: so no after callback was called behind it"],
    ),
    (
        "what-comes-behind-a-callback-of-i-o-that-left-the-poll-is-for-the-next-one",
        "r",
        ["nobody had woken that poll, so w and a waited for the next one", "step 26: no further call: closed by line 12: after w close r"],
    ),
    (
        "what-comes-behind-a-callback-of-i-o-that-left-the-poll-is-for-the-next-one",
        "",
        ["who waited for the next poll\n    w and a: the callback of r left the poll of step 10 at step 12, and nobody had woken it by then\n"],
    ),
    (
        "callbacks-of-i-o-before-and-behind-the-others-of-a-poll-that-was-woken",
        "a",
        ["step 22, call 1: for the send at step 17, in the same millisecond"],
    ),
    (
        "a-callback-of-i-o-in-pending-and-none-within-a-callback-of-who-closes-or-out-of-a-run",
        "q",
        ["step 7, call 1: something came, and it was called in `pending`, before any poll"],
    ),
    (
        "what-the-ops-answer-of-a-handle-of-i-o",
        "r",
        [
            "step 1: `start r` returns ESTALE: no step had made r yet",
            "step 4: `start r 1 0` returns EKIND: r is a handle of I/O",
            "step 11: no call: closed by line 13: main close r",
            "step 12: `start r` returns EINVAL: it closes, since step 11",
        ],
    ),
    (
        "where-a-callback-of-i-o-may-come-and-where-none-may",
        "r",
        [
            "step 13, call 1: it left the poll: something came, and when nobody knows",
            "steps 15 to 22, calls 2 to 4: each as something came",
            "at steps 15, 17 and 22",
            "the end, at 22: no further call: nothing came for it, and the session ends",
            "(the loop is at the callbacks that it had put off)",
            "it keeps the loop alive: it is active from its start on",
        ],
    ),
]
# A callback that comes behind another one of the same poll, and one in `pending`. By hand: steps 1 to 12 lead to the poll, 13 is the tick, 14
# the callback of `slow`, 15 its op, 16 the tick in it, 17 the callback of `fast`, 18 its op, 20 that of `slow`, and 29 that of `fast` in `pending`.
BEHIND = """io
var slow
var fast
var c
main init slow io
main init fast io
main init c check
main start slow
main start fast
main start c
main run default
on slow @1 now
on fast @1 now
begin
loop 12
tick 4
io slow
loop
tick 30
io fast
loop
tick 2
io slow
loop 3
loop
tick 7
loop 3
io fast
loop 2
"""
# A timer that doesn't repeat, and isn't active: `again` does nothing. By hand: steps 1 and 2 make and start it, 3 is `again`, which stops it, 4 does
# nothing.
NOTHING = "var t\nmain init t timer\nmain start t 5 0\nmain again t\nmain again t\nbegin\nloop 4\n"
WANTED_NOTHING = [
    (
        "t",
        [
            "step 3: no call: stopped by line 4: main again t",
            "step 4: `again t` did nothing: it has no repeat, and wasn't active\n    by line 5: main again t",
        ],
    )
]
WANTED_BEHIND = [
    (
        "fast",
        [
            "step 17, call 1: something came, and it was called 30 ms behind the end of the poll, at step 14: the callback of slow took 30 ms,"
            " from step 14 to 16",
            "step 29, call 2: something came, in `pending`, and it was called 9 ms behind its last call, at step 17: the callback of fast took"
            " 2 ms, from step 17 to 19; the callback of c took 7 ms, from step 24 to 25",
        ],
    ),
    (
        "",
        [
            "I/O\n    slow, step 20, call 2: something came, and it was called 32 ms behind its last call, at step 14: ",
            "\n    fast, step 17, call 1: something came, and it was called 30 ms behind the end of the poll, at step 14: ",
            "the longest callbacks\n    30 ms: the callback of slow, from step 14 to 16, at 4 ms",
        ],
    ),
    (
        "slow",
        [
            "step 14, call 1: it left the poll: something came while the loop waited in the poll, 4 ms went by there, from step 12",
            "step 20, call 2: something came, and it was called 32 ms behind its last call, at step 14: the callback of slow took 30 ms",
        ],
    ),
]


def cut(path: Path, until: str | None) -> str:
    text = path.read_text()
    return text if until is None else text[: text.index(f"\n{until}\n") + 1]


def try_examples(check: Check) -> None:
    """The question at an example's head, answered."""
    for file, name, until, wanted in WANTED:
        script, commands = read_text(cut(EXAMPLES / file, until))
        with Walk(script, longest_way(script, commands)) as walk:
            out = "\n".join(why(walk, name))
        missing = [it for it in wanted if it not in out]
        check(f"why {name} of {file}", not missing, f"{missing} isn't in\n{out}")


def try_io(check: Check) -> None:
    rows = [((CONVERSATIONS / f"{file}.uvt").read_text(), file, name, wanted) for file, name, wanted in WANTED_OF_IO]
    rows += [(BEHIND, "one behind another", name, wanted) for name, wanted in WANTED_BEHIND]
    rows += [(NOTHING, "a timer that doesn't repeat", name, wanted) for name, wanted in WANTED_NOTHING]
    for text, what, name, wanted in rows:
        script, commands = read_text(text)
        with Walk(script, longest_way(script, commands)) as walk:
            out = "\n".join(why(walk, name) if name else Overview(walk).answer("why NAME"))
        missing = [it for it in wanted if it not in out]
        check(f"why {name} of {what}", not missing, f"{missing} isn't in\n{out}")


def try_command(check: Check) -> None:
    def ran(name: str, text: str) -> tuple[int, str, str]:
        ended = limited([WHY, name], input=text, capture_output=True, text=True, env=os.environ)
        return ended.returncode, ended.stdout, ended.stderr

    late = (EXAMPLES / "late-timer.uvt").read_text()
    status, out, told = ran("beat", late)
    check("uvt-why", status == 0 and "late by 35 ms: the callback of save took 40 ms" in out and not told, f"{status} {out} {told}")
    status, out, told = ran("baet", late)
    check("uvt-why, a name that is none", (status, out, told) == (1, "", "uvt-why: no name `baet`: did you mean `beat`?\n"), f"{status} {out} {told}")
    status, out, told = ran("a", "var a\nmain strat a 1 0\nbegin\n")
    check("uvt-why, a script that is none", (status, told) == (1, "uvt-why: uvt: bad script line 2: main strat a 1 0\n"), f"{status} {out} {told}")
    sent = (EXAMPLES / "sent-session.rec").read_text()
    status, out, told = ran("job", sent.replace("finish 0", "finish 3"))
    wanted = "uvt-why: step 9 of the recording is `finish 3`, and the program answers `refused idleworker`\n"
    check("uvt-why, a recording with a step that is refused", (status, out, told) == (1, "", wanted), told)
    # (the line's number is that of the recording)
    status, out, told = ran("job", sent.replace("main run default", "main run defaulk"))
    check("uvt-why, a bad line of a recording", (status, told) == (1, "uvt-why: uvt: bad script line 12: main run defaulk\n"), told)
    status, out, told = ran("a", "uvt 1\nvar a\nbegin\nloop\n")
    check("uvt-why, a recording that is none", status == 1 and "this is no recording" in told and "Traceback" not in told, told)


# ---- beside the slow check


def key_of(it: Wait | Seen) -> tuple:
    return (it.asked, it.what, it.id, it.due, tuple(it.more), it.taken, it.finished, it.cancelled, it.how, it.ended, it.call)


WHERE = {"the main program": "main", "the poll": "poll"}


def where_of(what: str) -> str:
    """The word of the slow check for where the clock went on."""
    for kind, words in {"on": "the callback of ", "after": "the after callback of ", "closed": "the close callback of "}.items():
        if what.startswith(words):
            return f"{kind} {what.removeprefix(words)}"
    return WHERE.get(what, "run")


def differences(slow: SlowWhy, answers: Why, name: str) -> list[str]:
    """Where the two say something else of a name."""
    found = []
    ours = sorted(answers.history.waits, key=key_of_order)
    theirs = sorted(slow.waits(name), key=key_of_order)
    if [key_of(it) for it in ours] != [key_of(it) for it in theirs]:
        return [f"{name}: {ours} and {theirs}"]
    for wait, seen in zip(ours, theirs):
        if wait.how == "open" and (a := answers.reason(wait)) != (b := slow.reason(seen)):
            found.append(f"{name}, asked at {wait.asked}: {a} and {b}")
        if wait.how == "called":
            begin, end = slow.looks[seen.asked].clock if seen.due is None else seen.due, slow.looks[seen.ended].clock
            causes = {(where_of(it.what), it.first): it.between(begin, end) for it in answers.walk.causes(begin, end)}
            if causes != slow.causes(begin, end):
                found.append(f"{name}, called at {wait.ended}: {causes} and {slow.causes(begin, end)}")
        for at in (it for it in range(wait.asked + 1, len(slow.looks)) if slow.lines[it].startswith("end ")):
            if (a := answers.ended_by(at)) != (b := slow.ended_by(name, at)):
                found.append(f"{name}, end at {at}: {a} and {b}")
    return found + io_differences(slow, answers, name)


def io_differences(slow: SlowWhy, answers: Why, name: str) -> list[str]:
    """The same of where callbacks of I/O came, and how long behind the end of their poll."""
    ours = {it.ended: (came(answers.walk, it).where, behind(answers.walk, it)) for it in answers.history.waits if it.what == "io" and it.call}
    theirs = slow.io_calls(name)
    return [] if ours == theirs else [f"{name}, I/O: {ours} and {theirs}"]


def left_differences(slow: SlowWhy, walk: Walk) -> list[str]:
    """And of the polls that these left: whether they were woken, and who waited where not."""
    ours = [(it.call, it.woken, waited(walk, it)) for it in walk.left_by_io]
    theirs = [(it.step, it.woken, it.waited) for it in slow.left_by_io()]
    return [] if ours == theirs else [f"{ours} and {theirs}"]


def key_of_order(it: Wait | Seen) -> tuple:
    return it.asked, it.what, it.id


IO_NAMES = {"r": "io", "s": "io", "a": "async", "b": "async", "t": "timer", "c": "check", "w": "work"}
IO_OPS = ["send a", "send b", "send a", "now", "stop s", "start s", "close s", "cancel w", "queue w 1", "start t 3 0", "unref r", "close b"]

ORDERS: list[list[str]] = [[], ["order 1.44"]]
TIMERS: list[list[str]] = [[], ["timers heap"]]


def io_session(draw: random.Random) -> tuple[list[str], list[str]]:
    """A session in which I/O comes again and again, some of it behind other callbacks, and with sends about it."""
    lines = [*draw.choice(ORDERS), "io", *draw.choice(TIMERS), "workers 2", *(f"var {it}" for it in IO_NAMES)]
    for name, kind in IO_NAMES.items():
        lines.append(f"main queue {name} 1" if kind == "work" else f"main init {name} {kind}")
        if kind in ("io", "check"):
            lines.append(f"main start {name}")
    lines += ["main start t 5 4", *[f"main run {draw.choice(['default', 'once', 'nowait'])}"] * draw.randint(1, 3)]
    for name in draw.choices("rsatcw", k=draw.randint(4, 12)):
        lines.append(f"{'after' if name == 'w' else 'on'} {name} @{draw.randint(1, 4)} {draw.choice(IO_OPS)}")
    steps = [*["io r", "io s"] * 3, "send a", "send b", "take 0", "finish 0", "cancel w", "tick 2", "tick 9", *["loop"] * 5, "loop 4", "loop 20"]
    return lines, ["loop 30", *draw.choices(steps, k=draw.randint(40, 120))]


def unblocking_differences(slow: SlowWhy, walk: Walk) -> list[str]:
    """And of who was an active idle handle, or closed, at each poll."""
    found = []
    for step in walk.steps_of("poll"):
        for word, spans in walk.unblocked.spans.items():
            ours = {name for begin, end, name in spans if begin <= step < end}
            if ours != (theirs := set(slow.looks[step].rows[word])):
                found.append(f"poll at {step}, {word}: {ours} and {theirs}")
    return found


def try_random(check: Check, session: Callable[[random.Random], tuple[list[str], list[str]]], first: int, count: int) -> tuple[int, int, int]:
    """Recordings of random sessions, each name of each: how many callbacks that were asked for were compared, how many of I/O that were called,
    and behind how many polls somebody waited since nobody had woken them."""
    compared = called = late = 0
    for seed in range(first, first + count):
        lines, asked = session(random.Random(seed))
        script = Script(lines)
        steps = longest_way(script, asked)
        slow = SlowWhy(os.environ.get("UVT", str(ROOT / "uvt")), lines, steps)
        with Walk(script, steps) as walk:
            for name in script.names():
                answers = Why(walk, name)
                wrong = differences(slow, answers, name)
                told = answers.answer()
                compared += len(answers.history.waits)
                called += sum(it.what == "io" and it.call > 0 for it in answers.history.waits)
                check(f"why {name} of random session {seed}", not wrong and told, wrong)
            check(f"polls that I/O left, of random session {seed}", not (wrong := left_differences(slow, walk)), wrong)
            check(f"polls that didn't wait, of random session {seed}", not (wrong := unblocking_differences(slow, walk)), wrong)
            late += sum(bool(it.waited) for it in slow.left_by_io())
    return compared, called, late


# ---- many names

MANY_TIMERS = 400
FEWEST = 30


def many_timers() -> Script:
    """Timers that are due from 1 to 40 ms and close themselves, one of which takes 25 ms; and one that repeats."""
    names = [f"t{at}" for at in range(MANY_TIMERS)]
    lines = [*(f"var {it}" for it in [*names, "beat"]), *(f"main init {it} timer" for it in [*names, "beat"])]
    lines += [f"main start {it} {1 + at % 40} 0" for at, it in enumerate(names)] + ["main start beat 10 10", "main run default"]
    return Script(lines + [f"on {it} close {it}" for it in names] + ["on beat @4 close beat"])


def noted(asked: list[int], rows: Iterable[int]) -> list[int]:
    """The rows, which are counted."""
    found = list(rows)
    asked += found
    return found


def try_many(check: Check) -> None:
    """What is asked of many names takes few states."""
    script = many_timers()
    with Walk(script, longest_way(script, ["loop 1300", *["tick 1", "loop 200"] * 10, "tick 25", *["loop 1000", "tick 1"] * 60])) as walk:
        asked: list[int] = []
        state_at, states_at, times_at = walk.talk.state_at, walk.talk.states_at, walk.talk.times_at
        one = patch.object(walk.talk, "state_at", side_effect=lambda it: state_at(noted(asked, [it])[0]))
        many = patch.object(walk.talk, "states_at", side_effect=lambda rows: states_at(noted(asked, rows)))
        times = patch.object(walk.talk, "times_at", side_effect=lambda rows: times_at(noted(asked, rows)))
        for it in (one, many, times):
            it.start()
        told = "\n".join(Overview(walk).answer("why NAME"))
        check("many timers, how many states are asked for", len(asked) < FEWEST, len(asked))
        check("many timers, what stands out", f"{2 * MANY_TIMERS + 5} callbacks, " in told and "late by 2" in told, told)
        # (10 ms by the first ticks, and then 25 in the poll: t14 is due at 15, `beat` at 20 for the second time)
        rows = why(walk, "t14")
        check("many timers, one of them", any("late by 20 ms: 25 ms went by in the poll" in it for it in rows), rows)
        check("many timers, who closed meanwhile in one line", sum("the poll didn't wait" in it for it in rows) == 1, rows)
        beat = why(walk, "beat")
        wanted = ("late by 15 ms: 25 ms went by in the poll", "fell behind: 1 repeat lost (30 ms), next due at 45 ms")
        check("many timers, one that repeats", all(any(text in it for it in beat) for text in wanted), beat)


def try_whys(tries: Tries) -> None:
    try_examples(tries.check)
    try_io(tries.check)
    try_command(tries.check)
    try_many(tries.check)
    compared, _, _ = try_random(tries.check, sessions.session, 1, 50)
    tries.check("the random sessions ask for callbacks", compared > 200, compared)
    _, called, late = try_random(tries.check, io_session, 1, 40)
    tries.check("the random sessions with I/O have some, and it leaves polls that nobody woke", called > 100 and late > 10, (called, late))
