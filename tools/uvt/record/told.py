"""What is said of recordings as they are made, in sentences."""

from __future__ import annotations

import itertools
import re
from pathlib import Path

from uvt.conversation import INSTALLED
from uvt.notes import LEFT_OUT, NODES_ALONE, Notes
from uvt.record.differences import PAGE, heading_of, says
from uvt.record.items import Call, Done, End, Program
from uvt.record.events import NO_CLOCK
from uvt.record.log import Late, Log
from uvt.record.made import Made
from uvt.record.script import program_of
from uvt.spent import LOOKED, UNKNOWN, Spent

# The threads that node has for itself, by words in the functions of their loops; and those with JavaScript.
OWN = {"DelayedTaskScheduler": "node's own, for V8's tasks that are due later", "tracing::Agent": "node's own, for its tracing"}
WITH_JAVASCRIPT = "node::Environment::"
# So many loops in a row of which the same is said are told together.
ALIKE = 4


def where_it_stops(made: Made) -> str:
    """What the program did where the recording stops, and what the loop would do, in a sentence; `` where it goes all the way."""
    if not made.outcome.why:
        return made.program.stopped
    item = made.outcome.stops_at()
    if over := next((it for it in made.program.written if it.line < item.line), None):
        return f"{says(item)}, and the loop {made.outcome.why}. {over.name}, {over.told()}; what libuv does with it then no script has"
    return f"{says(item)}, and the loop {made.outcome.why}: {PAGE}, `{heading_of(made.program, made.outcome)}`"


def is_nodes_alone(made: Made) -> bool:
    """Are all callbacks that the recording lacks of node's own handles, and is none of JavaScript called in them? (libuv 1.45 to 1.48 may go through
    one more iteration at a program's end.)"""
    program, known = made.program, False
    if not made.outcome.why or not program.javascript or program.stopped:
        return False
    notes = Notes(names={it.name: (it.kind, it.text) for it in program.origins}, functions=program.functions, javascript=program.javascript)
    rest: set[tuple[str, str, int]] = set()
    for it in program.items:
        known |= it is made.outcome.item
        if known and isinstance(it, Call):
            rest.add((it.callback, it.name, it.number))
    called = {it.call for it in program.javascript.spans}
    return bool(rest) and not rest & called and all((node := notes.in_node(name, kind, call)) is not None and node.own for kind, name, call in rest)


def part_of(made: Made, note: str) -> str:
    """Why a recording is only a beginning, or a part of its program, in a sentence; `` where it is all of it."""
    outcome, stops = made.outcome, where_it_stops(made)
    if is_nodes_alone(made):
        return (
            f"{NODES_ALONE}: {outcome.of - outcome.callbacks} callbacks at its end, from line {outcome.stops_at().line} of the log on; there {stops}"
        )
    if outcome.why:
        return f"it has the first {outcome.callbacks} of {outcome.of} callbacks, up to line {outcome.stops_at().line} of the log; there {stops}"
    return "; ".join(it for it in (made.program.began, stops or note) if it)


def where_it_ended(made: Made, log: Log, loop: int) -> str:
    """What the loop was at as a signal ended the program, or its ring was copied, in a sentence; `` where neither was, or the recording doesn't
    go so far."""
    if not (log.ended or log.copied is not None) or not made.is_whole() or not made.program.callbacks():
        return ""
    at = max(0, log.copied - log.behind(loop)) if log.copied is not None else 0
    by = log.ended or f"copied at {at} ms of its time"
    last = next(it for it in reversed(made.program.items) if isinstance(it, (Call, Done, End)))
    if isinstance(last, End):
        return f"{by}: this loop was in no run"
    call = last.call if isinstance(last, Done) else last
    function = Notes(functions=made.program.functions).function(call.callback, call.name, call.number)
    kind = {"on": "callback", "after": "after callback", "closed": "close callback"}[call.callback]
    inside = isinstance(last, Call)
    events = log.loops[loop]
    since = max((clock for it, clock in zip(events.said, events.clocks) if it.type in "BE" and clock != NO_CLOCK), default=NO_CLOCK)
    long = f", for {at - since} ms" if inside else f", which ended {at - since} ms before"
    if log.copied is None or since == NO_CLOCK:
        long = ""
    where = f"in the {kind}" if inside else f"in no callback, behind the {kind}"
    within = in_javascript(made.program, last) or (in_callback(log, loop, at, since) if inside and long else "")
    return f"{by}: this loop was {where} of {call.name}{f', {function}' if function else ''}{long}{within}"


def in_callback(log: Log, loop: int, at: int, since: int) -> str:
    """Where in a callback of C or C++ that doesn't end it was seen, or in which call it waits; `` where that is of an earlier one."""
    clock, what, stack = log.now.get(loop, (0, "", ""))
    clock -= log.behind(loop)
    if not what or clock < since:
        return ""
    if what != "look":
        return f": {at - clock} ms in {what}, {log.waited_at(stack)}" if log.waited_at(stack) else f": {at - clock} ms in {what}"
    spent = Spent()
    spent.look(" ".join(log.frames(stack)), f"1 {LOOKED}")
    most = spent.on_processor(at - since, UNKNOWN)
    return f": {most[-1].replace('it was found', f'{at - clock} ms before it was found')}" if most else ""


def late_call(made: Made, log: Log, late: Late) -> Call | None:
    """The callback that took long by this clock, or that of the timer that was late."""
    kind, words = ("E", "") if late.what == "callback" else ("B", f"on {late.id} ")
    line = next((it.line for it in log.loops[late.loop] if it.type == kind and it.clock >= late.clock and it.words.startswith(words)), 0)
    found = next((it for it in made.program.items if isinstance(it, (Call, Done)) and it.line == line), None)
    return found.call if isinstance(found, Done) else found


def why_kept(made: Made, log: Log, loop: int) -> str:
    """Why its ring was kept apart, in a sentence; `` of any other log. Times are those of the recording."""
    late = log.late
    if not late:
        return ""
    if late.loop != loop:
        return f"something took {late.took} ms in loop {late.loop}"
    at = late.clock - made.program.begin
    others = f" ({late.others} ms of that others had the processor)" if late.others else ""
    if late.what == "poll":
        return f"a poll ended {late.took} ms late{others}, at {at} ms"
    call = late_call(made, log, late)
    function = Notes(functions=made.program.functions).function(call.callback, call.name, call.number) if call else ""
    who = f"{call.name}{f', {function},' if function else ''}" if call else f"a {late.what}"
    if late.what == "callback":
        return f"{who} took {late.took} ms{others}, up to {at} ms"
    return f"{who} was called {late.took} ms late{others}, at {at} ms"


def in_javascript(program: Program, last: Call | Done) -> str:
    """What JavaScript was at, as far as that was seen; `` where nothing was."""
    begin, seen = last.clock, program.javascript.seen()
    told = program.javascript.told(begin, seen) if isinstance(last, Call) and NO_CLOCK < begin < seen else []
    return f"; {'; '.join(told)} by then, and went on" if told else ""


def by_other_threads(program: Program) -> list[str]:
    """Loud: what libuv forbids. (Of one function and name a line.)"""
    found: dict[tuple[str, str], list[int]] = {}
    for it in program.foreign:
        found.setdefault((it.function, it.name), []).append(it.line)
    return [
        f"WRONG THREAD: {function} of {name or 'the loop'} by another thread while the loop runs"
        + f" (line {lines[0]} of the log{f', and {len(lines) - 1} times more' if len(lines) > 1 else ''}):"
        + " libuv allows other threads uv_async_send alone"
        for (function, name), lines in found.items()
    ]


def queued_again(program: Program) -> list[str]:
    """The same of requests."""
    return [
        f"QUEUED AGAIN: {name}, while it was under way (line {line} of the log), which libuv doesn't allow: one request has two after callbacks then"
        for line, name in program.again
    ]


def written_over(program: Program) -> list[str]:
    """The same of handles whose memory became something else."""
    return [f"WRITTEN OVER: {it.name}, {it.told()}" for it in program.written]


def functions_of(program: Program) -> str:
    return " ".join([*(it.text for it in program.origins), *(it for rows in program.functions.values() for _, it in rows)])


def loop_of_javascript(made: list[tuple[int, Made]]) -> int | None:
    """Of the loops of node the one that has the program's JavaScript, and not that of a worker; None where there is none, or nobody knows."""
    first = [loop for loop, it in made if it.program.javascript.thread == 0]
    known = [loop for loop, it in made if it.program.javascript] or [loop for loop, it in made if WITH_JAVASCRIPT in functions_of(it.program)]
    return first[0] if first else known[0] if len(known) == 1 else None


def whose(program: Program, is_node: bool) -> str:
    """Which of node's loops it is, in a few words; `` of another program's."""
    functions = functions_of(program)
    if not is_node:
        return ""
    if program.javascript.thread:
        return f"the JavaScript of worker {program.javascript.thread}"
    if program.javascript or WITH_JAVASCRIPT in functions:
        return f"the program's {program.javascript.language}"
    return next((said for word, said in OWN.items() if word in functions), "node's own: it has no JavaScript")


def told(made: Made, loop: int, path: Path, note: str, whose: str = "", copied: str = "") -> list[str]:
    """What is said of a loop: how far its recording goes, and the command that opens it."""
    outcome, program = made.outcome, made.program
    head = f"loop {loop}: {outcome.callbacks} of {outcome.of} callbacks, {outcome.steps} steps: "
    if made.verdict != "same" or not made.agrees:
        return [head + f"uvt replay says `{made.verdict}`" + ("" if made.agrees else ", and its callbacks aren't those of the log")]
    if outcome.why:
        lines = [head + f"same up to line {outcome.stops_at().line} of the log", f"    there {where_it_stops(made)}"]
        lines += [f"    {LEFT_OUT}"] if is_nodes_alone(made) else []
    else:
        lines = [head + "same"]
    loud = [*by_other_threads(program), *queued_again(program), *written_over(program)]
    said = (whose, program.began, program.stopped, note, copied, *loud, made.polls.said())
    lines += [f"    {it}" for it in said if it]
    if outcome.answers:
        lines.append(f"    {len(outcome.answers)} answers differ, first: {outcome.answers[0]}")
    if outcome.ends:
        lines.append(f"    {outcome.ends} runs end with another answer")
    if outcome.wakes:
        lines.append(f"    {outcome.wakes} times something woke the loop that called nobody: the handle `wake` stands for it")
    lines += [f"    {count} {text}" for text, count in program.notes.items()]
    return lines + [f"    {'uvt shell' if INSTALLED else './uvt shell'} {path}"]


def folded(rows: list[tuple[int, list[str]]]) -> list[str]:
    """What is said of each loop; once of those in a row that are alike, as a program has them that makes a loop for each of its tasks."""

    def of_any(row: tuple[int, list[str]]) -> str:
        loop, lines = row
        text = re.sub(rf"^loop {loop}: (.*), \d+ steps:", r"loop K: \1:", "\n".join(lines))
        return re.sub(rf"\.{loop}\.(lift\.)?rec$", r".K.\1rec", text, flags=re.MULTILINE)

    found: list[str] = []
    for text, some in itertools.groupby(rows, of_any):
        those = list(some)
        if len(those) < ALIKE:
            found += [line for _, lines in those for line in lines]
        else:
            found.append(f"loops {those[0][0]} to {those[-1][0]}, K in what follows, are alike:")
            found += [f"    {line}" for line in text.split("\n")]
    return found


def of_main_alone(log: Log, loop: int) -> list[str]:
    """What is told of a loop with JavaScript that called nothing: all that the program did it did before. Nothing of any other."""
    events = log.loops[loop]
    if events.has("B") or not events.has("J"):
        return []
    javascript = program_of(log, events, loop).javascript
    told = javascript.told(0, javascript.seen() + 1)
    return [f"loop {loop}: it called nothing, so there is no recording: the program ended before its loop began"] + [f"    {it}" for it in told]
