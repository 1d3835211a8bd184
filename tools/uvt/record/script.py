"""The script of a loop: of all its lines, or of as many as a script has room for."""

from __future__ import annotations

from uvt.record.events import Event, Events
from uvt.record.items import Op, Program
from uvt.record.log import Log
from uvt.record.maker import Maker

SCRIPT_LINES = 1048575
NAMES = 65535
FULL = ": docs/LIBUV.md, `More than a script holds`"


def without_looks(events: Events) -> Events:
    """Without the polls that libuv's idle-time metrics put before each poll: they only look, and don't wait. (Later logs say so.)"""
    said = events.said
    looks = {at for at, it in enumerate(said[:-1]) if it.type == "P" and it.words == "0" and said[at + 1].type == "P"}
    return Events(it for at, it in enumerate(events) if at not in looks)


def read_all(maker: Maker, events: Events) -> None:
    """Reads these lines, up to the first that a script can't say."""
    program = maker.program
    for said, when in events.rows():
        if said.type == "B":
            well = maker.read_begin(said.words, when)
        elif said.type == "E":
            well = maker.read_end(said.words, when)
        elif said.type == "R" and (maker.depth or maker.runs):
            program.stopped = (
                f"at line {when[2]} of the log the program calls uv_run in a callback, and a script has its runs in the main program only:"
                " docs/LIBUV.md, `A run in a callback`"
            )
            return
        else:
            well = maker.read(Event(said.type, when[0], when[1], said.words, when[2], said.place))
        if not well:
            program.stopped = f"line {when[2]} of the log is `{said.type} {said.words}`, and no program does that there"
            return
        if len(program.names) > NAMES:
            program.stopped = f"at line {when[2]} of the log the program has more than {NAMES} handles and requests at a time{FULL}"
            return


def make_program(log: Log, events: Events, loop: int = 0) -> Program:
    """The script of a loop's events, up to the first that a script can't say."""
    maker = Maker(log, loop, events.has("P"))
    for at in events.places_of("CV"):
        maker.read_place(events[at])
    read_all(maker, without_looks(events) if log.form == 1 else events)
    maker.name_last()
    program = maker.program
    asked = {it.place for it in maker.items if isinstance(it, Op)} | {it.place for it in program.requests} | {it.place for it in program.nothings}
    program.places = {place: told for place in sorted(asked) if (told := log.place(place))}
    program.javascript = maker.javascript.done(maker.called() if maker.javascript.raw else [])
    for it in maker.ended() if program.javascript else ():
        program.javascript.note_most((it.call.callback, it.call.name, it.call.number), it.call.clock, it.clock)
    return program


def program_of(log: Log, events: Events, loop: int = 0) -> Program:
    """The same, of as many events as a script has room for."""
    program = make_program(log, events, loop)
    count = len(events)
    while (size := len(program.script(1, True))) > SCRIPT_LINES:
        count = min(count - 1, count * SCRIPT_LINES // size)
        line = events.lines[count]
        program = make_program(log, events[:count], loop)
        program.stopped = f"a script has at most {SCRIPT_LINES} lines, and those of this program are full at line {line} of the log{FULL}"
    if len(program.names) > NAMES - 1:
        program.stopped = program.stopped or f"there is no name left{FULL}"
    return program
