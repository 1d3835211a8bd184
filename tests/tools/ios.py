"""Callbacks of I/O in recordings of programs: where libuv calls them, and what is said of what came. By logs of a few lines each, by hand.
"""

from __future__ import annotations

from pathlib import Path

ROOT = Path(__file__).resolve().parent.parent.parent
from tests.helper import Check
from uvt.notes import THINGS, Notes, sentence
from uvt.notes_read import read_notes
from uvt.record.differences import IO
from uvt.record.log import read_log
from uvt.record.made import Made, make
from uvt.record.noted import notes_of
from uvt.record.told import where_it_stops

# A tcp, an async handle and a check handle; the tcp is started, and the others don't count.
MADE = [
    "O 0 init %1 tcp = ok",
    "O 0 init %2 async = ok",
    "O 0 init %3 check = ok",
    "O 0 start %1 = ok",
    "O 0 start %3 = ok",
    "O 0 unref %2 = ok",
    "O 0 unref %3 = ok",
]
CHECK = ["B 0 0 on 3 check", "E 0 0 3"]
ASYNC = ["B 0 0 on 2 async", "E 0 0 2"]


def log_of(lines: list[str], form: int = 2, version: str = "1.44.2") -> bytes:
    return "\n".join([f"uvt-log {form} {version} 7 4 /home/user/io", *(f"0 {it}" for it in lines), ""]).encode()


def came(what: str, put_off: bool = False) -> list[str]:
    """A callback of the tcp."""
    return [f"B 0 0 on 1 {what}", "E 0 0 1" + " +" * put_off]


def made(lines: list[str], form: int = 2, version: str = "1.44.2") -> Made:
    found = make(read_log(log_of(lines, form, version)), 0)
    assert found
    return found


def run(*parts: list[str], first: str = "R 0 default") -> list[str]:
    return [*MADE, first, *(line for part in parts for line in part)]


# By what it is: what the loop does, and whether it is followed to the end.
PLACES = {
    "a read in a poll": (run(["P 0 -1"], came("read 5")), True),
    "a read before the first poll": (run(came("read 5"), ["P 0 -1"], came("read 5")), False),
    "a read in a log without polls": (run(came("read 5"), CHECK), True),
    "a read behind the section of its poll": (run(["P 0 -1"], came("read 5"), CHECK, came("read 5")), False),
    "a write that was put off in the main program": (run(came("write ok"), ["P 0 0"], CHECK, first="R 0 default +"), True),
    "a write that wasn't put off": (run(came("write ok"), ["P 0 0"], CHECK), False),
    "a write behind the section check, that was put off": (run(["P 0 -1"], came("read 5", True), CHECK[:1], ["E 0 0 3 +"], came("write ok")), True),
    "one that wasn't": (run(["P 0 -1"], came("read 5", True), CHECK, came("write ok")), False),
    "a second one that was put off": (
        run(["P 0 -1"], came("read 5"), CHECK[:1], ["E 0 0 3 +"], came("write ok"), came("write ok"), came("shutdown ok")),
        True,
    ),
    "a read among those": (run(["P 0 -1"], came("read 5"), CHECK[:1], ["E 0 0 3 +"], came("write ok"), came("read 5")), False),
    "an async handle in a poll, before I/O": (run(["P 0 -1"], ASYNC, came("read 5"), CHECK), True),
    "an async handle in a poll, behind I/O": (run(["P 0 -1"], came("read 5"), ASYNC, came("read 5"), CHECK), True),
    "an async handle in no poll": (run(["P 0 -1"], came("read 5"), CHECK, ASYNC), False),
    "a read twice in a row": (run(["P 0 -1"], came("read 5"), came("read EOF"), CHECK), True),
    "a handle that was stopped": (run(["P 0 -1"], ["B 0 0 on 1 read 5", "O 0 stop %1 = ok", "E 0 0 1"], came("read 5")), False),
    "one that libuv stops before its last callback": (
        run(["P 0 -1"], ["B 0 0 on 1 read EOF", "O 0 stop %1 = ok", "E 0 0 1"], CHECK, ["r 0 0"]),
        True,
    ),
}


def try_places(check: Check) -> None:
    for what, (lines, whole) in PLACES.items():
        it = made(lines)
        check(f"I/O, {what}", it.is_whole() == whole and it.verdict == "same" and it.agrees, (it.outcome.why, it.outcome.recording))
        if not whole:
            said = where_it_stops(it)
            check(f"I/O, {what}: it is said", f"`{IO}`" in said and ("callback of async," in said or "callback of tcp (a tcp: " in said), said)
        recording = it.outcome.recording
        check(f"I/O, {what}: its version", recording[:4] == ["uvt 3", "order 1.44", "io", "timers heap"], recording[:4])
        check(f"I/O, {what}: its steps", recording.count("io tcp") == sum(line.startswith("call tcp ") for line in recording), recording)


def try_settings(check: Check) -> None:
    """Which lines a script begins with, by libuv's version and by whether there is I/O."""
    lines = ["O 0 init %1 timer = ok", "O 0 start %1 0 0 = ok", "R 0 default", "B 0 0 on 1 timer", "E 0 0 1", "r 0 0"]
    for version, wanted in (
        ("1.44.2", ["uvt 3", "order 1.44", "timers heap"]),
        ("1.45.0", ["uvt 3", "order 1.45", "timers heap"]),
        ("1.47.1", ["uvt 3", "order 1.45", "timers heap"]),
        ("1.48.0", ["uvt 2", "order 1.45"]),
    ):
        recording = made(lines, version=version).outcome.recording
        check(f"I/O, a script of {version}", recording[: recording.index("workers 4")] == wanted, recording)
    recording = made(run(["P 0 -1"], came("read 5")), version="1.50.0").outcome.recording
    check("I/O, a script of 1.50.0 with I/O", recording[: recording.index("workers 4")] == ["uvt 3", "order 1.45", "io"], recording)


def try_old(check: Check) -> None:
    """Logs of the earlier form: `ref` and `unref` say whether a handle of I/O counts, and it may always be called."""
    old = ["O 0 init %1 tcp = ok", "O 0 ref %1 = ok", "R 0 default", "P 0 -1", "B 0 0 on 1 read", "E 0 0 1", "O 0 unref %1 = ok", "r 0 0"]
    it = made(old, 1)
    wanted = ["main init tcp io", "main start tcp", "main unref tcp", "main ref tcp", "main run default", "on tcp unref tcp"]
    check("I/O, a log of form 1", it.is_whole(), (it.outcome.why, it.outcome.recording))
    check("I/O, its script", [line for line in it.outcome.recording if line.startswith(("main", "on"))] == wanted, it.outcome.recording)
    check("I/O, no start is in such a log", not made([*old[:-1], "O 0 start %1 = ok", old[-1]], 1).is_whole())


def try_ops(check: Check) -> None:
    """What libuv does by itself about a callback stands in it, be there a send of another thread between."""
    lines = run(["P 0 -1"], came("read EOF"), ["S 0 0 2 77", "O 0 stop %1 = ok", "O 0 unref %1 = ok", "P 0 -1"], ASYNC)
    it = made(lines)
    check("I/O, what libuv stops behind a callback", {"on tcp stop tcp", "on tcp unref tcp"} <= set(it.outcome.recording), it)
    closed, end = ["O 0 close %1 = ok", "E 0 0 1"], ["B 0 0 closed 1", "E 0 0 1"]
    late = made(run(["P 0 -1", "B 0 0 on 1 write ok"], closed, came("write ECANCELED"), CHECK, end))
    check("I/O, what is called of one that its callback has closed", late.is_whole() and late.outcome.callbacks == 3, late)
    check("I/O, what came of it", late.program.came == {"tcp": {1: "write:ok+write:ECANCELED"}}, late.program.came)
    early = made(run(["P 0 -1", "B 0 0 on 1 read 5"], closed, CHECK, came("write ECANCELED"), end))
    check("I/O, what is called as it closes", early.is_whole() and early.outcome.callbacks == 3, early)


# What comes from other threads between the end of a poll and its callbacks, and what is sent to behind the place of async handles: all of
# it is for the next poll, and a check handle is called before.
QUEUED = ["O 0 queue %5 work = ok", "O 0 queue %6 work = ok"]
TAKEN, THROUGH = ["T 0 0 5", "T 0 0 6"], ["F 0 0 5", "F 0 0 6"]
AFTER = [["B 0 0 after 5 ok", "E 0 0 5"], ["B 0 0 after 6 ok", "E 0 0 6"]]
LATE = {
    "a send": run(["P 0 -1", "S 0 0 2 77"], came("read 5"), CHECK, ["P 0 -1"], ASYNC, CHECK),
    "a send, and a request that is cancelled": run(
        ["P 0 -1", "S 0 0 2 77", "B 0 0 on 1 read 5"],
        QUEUED[:1],
        ["O 0 cancel %5 = ok", "E 0 0 1"],
        CHECK,
        ["P 0 -1", "B 0 0 after 5 ECANCELED", "E 0 0 5"],
        ASYNC,
        CHECK,
    ),
    "two requests": [*MADE, *QUEUED, "R 0 default", *TAKEN, "P 0 -1", *THROUGH, *came("read 5"), *CHECK, "P 0 -1", *AFTER[0], *AFTER[1], *CHECK],
    "a send by I/O behind an after callback": [
        *MADE,
        *QUEUED[:1],
        "R 0 default",
        *TAKEN[:1],
        "P 0 -1",
        *THROUGH[:1],
        *AFTER[0],
        "B 0 0 on 1 read 5",
        "O 0 send %2 = ok",
        "E 0 0 1",
        *CHECK,
        "P 0 -1",
        *ASYNC,
        *CHECK,
    ],
    "a request that is cancelled behind a file that is through": [
        *MADE,
        "O 0 queue %5 fs_stat = ok",
        "R 0 default",
        "P 0 -1",
        "B 0 0 on 1 read 5",
        QUEUED[1],
        "O 0 cancel %6 = ok",
        "E 0 0 1",
        *CHECK,
        "P 0 -1",
        *AFTER[0],
        "B 0 0 after 6 ECANCELED",
        "E 0 0 6",
        *CHECK,
    ],
}


def try_late(check: Check) -> None:
    for what, lines in LATE.items():
        it = made(lines)
        check(f"I/O, {what} for the next poll", it.is_whole(), (where_it_stops(it), it.outcome.recording))
        check(f"I/O, {what} for the next poll: both polls", it.polls.said().startswith("2 polls, as in the program"), it.polls.said())


# By what it is: what the loop does, and what is said of its polls.
POLLS = {
    "one that waits": (run(["P 0 -1"], came("read 5")), "1 poll, as in the program; the timeouts are the same"),
    "one that was interrupted": (run(["P 0 -1", "p 0 -1"], came("read 5")), "1 poll, as in the program; the timeouts are the same"),
    "one with more events than libuv takes at once": (
        ["O 0 init %1 tcp = ok", "O 0 start %1 = ok", "R 0 default", "P 0 -1", *came("read 5"), "p 0 0", *came("read 5")],
        "2 polls, and 1 in the program; the timeouts are the same in the 1 that can be compared",
    ),
    "such a one, where a check handle comes behind it": (
        run(["P 0 -1"], came("read 5"), ["p 0 0"], came("read 5"), CHECK),
        "1 poll, as in the program; the timeouts are the same",
    ),
    "one that calls nobody": (run(["P 0 -1", "P 0 -1"], came("read 5")), "1 poll, and 2 in the program"),
    "one that doesn't wait for what was put off": (
        run(["P 0 0"], came("write ok"), first="R 0 default +"),
        "1 poll, as in the program; 1 of 1 timeouts are others, first: infinite at step 13, and 0 in the program (line 10 of the log)",
    ),
    "one that only looks, in a run once": (
        run(["P 0 0", "P 0 -1"], came("read 5"), first="R 0 once"),
        "1 poll, as in the program; the timeouts are the same",
    ),
}


def try_polls(check: Check) -> None:
    for what, (lines, wanted) in POLLS.items():
        it = made(lines)
        check(f"polls, {what}", it.is_whole() and it.polls.said() == wanted, (it.polls.said(), it.outcome.why))
        check(f"polls, {what}: the notes", notes_of(it, "").polls == it.polls.said())


# What came, in the log's words and in a person's.
WORDS = {
    "read:512": "512 bytes were read",
    "read:1": "1 byte was read",
    "read:EOF": "the end of the stream",
    "read": "a read",
    "read:ECONNRESET": "a read failed, ECONNRESET",
    "write:ok": "a write is done",
    "write:ECANCELED": "a write was cancelled",
    "write": "a write",
    "connect:ok": "it is connected",
    "connect:ECONNREFUSED": "the connect failed, ECONNREFUSED",
    "connection:ok": "a connection",
    "shutdown:ok": "the shutdown is done",
    "send:ok": "a datagram is sent",
    "receive:30": "a datagram of 30 bytes",
    "receive:none": "no more datagrams",
    "poll:rw": "it is readable and writable",
    "poll:EBADF": "the poll failed, EBADF",
    "signal:15": "SIGTERM",
    "signal:99": "signal 99",
    "exit:3:0": "it ended with status 3",
    "exit:0:9": "it was ended by SIGKILL",
    "fs_event:rc": "it was renamed and changed",
    "fs_poll:ok": "a change",
    "fs_poll:ENOENT": "a look at the file failed, ENOENT",
    "write:ok+write:ECANCELED": "a write is done and a write was cancelled",
    "": "",
    "other:word": "other",
}


def try_words(check: Check, folder: str) -> None:
    """What came, and what tools ask of it."""
    for told, wanted in WORDS.items():
        check(f"what came, {told}", sentence(told) == wanted, sentence(told))
    what = {"a": {it: f"read:{it}" for it in range(1, 50)}, "b": {2: "write:ok", 7: "read:EOF", 8: "exit:0:0"}}
    kinds = {"a": ("tcp", "of the heap"), "b": ("fs_poll", "of the heap"), "c": ("timer", "of the heap")}
    notes = Notes(names=kinds, what=what, polls="2 polls, as in the program")
    path = Path(folder) / "what.rec"
    path.with_suffix(".notes").write_text(notes.text(b"of it"))
    read = read_notes(path, b"of it")
    check("what came, in the notes", read == notes, read)
    check(
        "what came, of a call",
        (read.came("a", 49), read.came("b", 7), read.came("b", 3), read.came("c", 1)) == ("49 bytes were read", "the end of the stream", "", ""),
        read,
    )
    check(
        "what it is",
        [(read.is_io(it), THINGS.get(read.kind(it), "")) for it in "abcd"] == [(True, "a tcp"), (True, "a watched file"), (False, ""), (False, "")],
    )


def try_io(check: Check, folder: str) -> None:
    try_places(check)
    try_settings(check)
    try_old(check)
    try_ops(check)
    try_late(check)
    try_polls(check)
    try_words(check, folder)
