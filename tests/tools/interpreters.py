"""What `why` says of programs in Python on uvloop and in Lua on luv whose causes are known: python/ and lua/ have their sources, and of each the log
that was recorded, with what the program said of itself. Each question has by hand which function and line are at fault, read off the source;
javascripts.py holds the answers against that and against what the program printed, as of node's programs.
"""

from __future__ import annotations

import os
import re
import tempfile
from pathlib import Path
from typing import Any

from tests.helper import Tries, log_at
from tests.tools.javascripts import ALLOWED, answer, made, try_asked, unfolded
from uvt.inputs import read_input
from uvt.notes_read import read_notes
from uvt.overview import Overview
from uvt.record.log import read_log
from uvt.record.run import from_data
from uvt.view import Page
from uvt.walk import Walk

FOLDER = Path(__file__).resolve().parent
# Looks at Python are written when they have found the same for a tenth of a second, in ms, and it may wait for the next one.
WRITTEN = 110
# Of each program whom somebody asks about, whom of the loop he would have to ask about without the hook, what is to be said, what the program
# itself calls that timer, where it is another name, and how many times of the answer the program has printed, at the least.
PYTHON = {
    "digest": (
        "remind",
        "timer_2",
        r"late by \d+ ms: digest_all \(digest\.py:12\) took \d+ ms, nearly all of it at line 16: `data = hashlib\.sha256.*"
        r"digest_all \(digest\.py:12\): a timer of 20 ms, started at digest\.py:26",
        "",
        2,
    ),
    "locked": (
        "remind",
        "timer_2",
        r"late by \d+ ms: take_stock \(locked\.py:21\) took \d+ ms, nearly all of it at line 23: `with lock:`",
        "",
        2,
    ),
    "fetch": ("remind", "timer_2", r"late by \d+ ms: fetch \(fetch\.py:22\) took \d+ ms, nearly all of it at line 25: `peer\.recv\(10\)`", "", 2),
    "timer": (
        "beat",
        "timer_3",
        r"call 2: late by \d+ ms: load \(timer\.py:13\) took \d+ ms, (?:nearly all|most) of it in loads, which it calls"
        r".*load \(timer\.py:13\): a timer of 33 ms, started at timer\.py:34",
        "",
        2,
    ),
    "coroutine": (
        "coroutine.py:25",
        "timer_3",
        r"beat \(coroutine\.py:20\): a timer of 20 ms.*late by \d+ ms: import_all \(coroutine\.py:13\) took \d+ ms, nearly all of it in"
        r" score \(coroutine\.py:9\), at line 10: `return sum\(.*import_all \(coroutine\.py:13\): a step of a task",
        "beat",
        2,
    ),
    "sleep": (
        "remind",
        "timer",
        r"late by \d+ ms: refresh \(sleep\.py:15\) took \d+ ms, nearly all of it in fetch \(sleep\.py:10\), at line 11: `time\.sleep\(0\.06\)`"
        r".*refresh \(sleep\.py:15\): a step of a task, started at sleep\.py:29",
        "",
        2,
    ),
    "server": (
        "timeout",
        "timer",
        r"late by \d+ ms: Pages\.data_received \(server\.py:17\), from an event, took about \d+ ms,"
        r" nearly all of it in render \(server\.py:9\), at line 10",
        "",
        2,
    ),
    "soon": (
        "save",
        "timer",
        r"late by \d+ ms: flush \(soon\.py:11\) took \d+ ms, nearly all of it at line 14"
        r".*flush \(soon\.py:11\): a call_soon, started at soon\.py:30",
        "",
        2,
    ),
    "cancelled": ("remind", "timer", r"never called: cancelled at cancelled\.py:15, in answered, at \d+ ms", "", 0),
    "thread": (
        "through",
        "async",
        r"a call_soon, started at thread\.py:24, in work.*late by \d+ ms: index \(thread\.py:16\) took \d+ ms, .*at line 18: `sorted\(rows"
        r".*index \(thread\.py:16\): a timer of 30 ms, started at thread\.py:31",
        "",
        2,
    ),
}
LUA = {
    "render": (
        "remind",
        "timer",
        r"late by \d+ ms: render \(render\.lua:6\) took \d+ ms.*render \(render\.lua:6\): a timer of 20 ms, started at render\.lua:18",
        "",
        2,
    ),
    "execute": (
        "remind",
        "timer",
        r"late by \d+ ms: deploy \(execute\.lua:6\) took \d+ ms, 133 ms of that in system"
        r".*deploy \(execute\.lua:6\): a timer of 20 ms, started at execute\.lua:18",
        "",
        2,
    ),
    "timer": (
        "beat",
        "timer",
        r"call 2: late by \d+ ms: sort \(timer\.lua:6\) took \d+ ms.*sort \(timer\.lua:6\): a timer of 33 ms, started at timer\.lua:19"
        r".*drift: call 8 .*no further call: stopped at timer\.lua:14, in beat",
        "",
        2,
    ),
    "idle": (
        "save",
        "timer",
        r"late by \d+ ms: index \(idle\.lua:6\) took \d+ ms.*index \(idle\.lua:6\): a callback, started at idle\.lua:18",
        "",
        2,
    ),
    "pool": (
        "fs_stat",
        "fs_stat",
        r"ms it waited for a worker.*the workers had \d requests, asked for at pool\.lua:15, in fill"
        r".*asked for at pool\.lua:19, in read_settings",
        "",
        1,
    ),
    "async": ("async", "async", r"for the send at step \d+, \d+ ms later: .*: render \(async\.lua:6\) took \d+ ms", "", 1),
    "server": (
        "timeout",
        "timer",
        r"late by \d+ ms: on_request \(server\.lua:16\) took \d+ ms"
        r".*on_request \(server\.lua:16\): a callback, started at server\.lua:21, in connected",
        "",
        2,
    ),
    "unref": ("cleanup", "timer", r"never called: `unref` at unref\.lua:14, ", "", 0),
    "stopped": ("remind", "timer", r"never called: stopped at stopped\.lua:13, in answered, at \d+ ms", "", 0),
}
# Of each language its programs, how their files end, which timer was the latest one of `timer`, and functions that have a lane there.
LANGUAGES = {
    "python": (PYTHON, ".py", "beat (timer.py:18)", {"beat", "load"}),
    "lua": (LUA, ".lua", "beat (timer.lua:13)", {"beat", "sort"}),
}


def try_one(tries: Tries, language: str, name: str) -> None:
    questions, suffix, _, _ = LANGUAGES[language]
    function, handle, wanted, timer, least = questions[name]
    what, before = f"{language} {name}", tries.count
    try_asked(tries, what, FOLDER / language / f"{name}.log", function, handle, wanted, f"{suffix}:", timer)
    # (four things beside the times are tried)
    tries.check(f"{what}: times that the program printed, too", tries.count - before >= 4 + least, tries.count - before)


def try_notes(tries: Tries, language: str, latest: str, functions: set[str]) -> None:
    """What is written is what is read; and the overview and the page have the functions, and no word of JavaScript."""
    path = made("timer", log_at(FOLDER / language / "timer.log").read_bytes())
    recording = path.read_bytes()
    notes = read_notes(path, recording)
    tries.check(f"{language}: notes are read as they were written", notes.text(recording) == path.with_suffix(".notes").read_text(), "")
    script, commands = read_input(path)
    with Walk(script, commands) as walk:
        told = unfolded("\n".join(Overview(walk).answer("why NAME")))
        tries.check(f"{language}: the overview", f"the latest timers of {language.capitalize()} {latest}" in told, told)
        tries.check(f"{language}: no word of another language", "JavaScript" not in told and "node" not in told, told)
        page: dict[str, Any] = Page(walk).values()
        lanes = {it["name"] for it in page["lanes"]}
        tries.check(f"{language}: lanes", functions <= lanes, lanes)
    data = log_at(FOLDER / language / "timer.log").read_bytes()
    lines, whole = from_data(data, read_log(data), "timer", lifts=True)
    lifted = Path("timer.lift.rec").exists()
    tries.check(f"{language}: --lift is for node", whole and not lifted and lines[-1].startswith("--lift is for programs in node"), lines)


def try_killed(tries: Tries) -> None:
    """A program in Python that was in a `while True` as SIGKILL ended it: what was looked at is there, up to its last tenth of a second."""
    path, truth = made("forever", log_at(FOLDER / "python" / "forever.log").read_bytes()), (FOLDER / "python" / "forever.said").read_text()
    said = unfolded(answer(path, "spin"))
    found = re.search(r"never ended: it was under way for (\d+) ms as the log ends, nearly all of it at lines? (\d+): `(?:while True:|pass)`", said)
    tries.check("python, killed: what never ended", found is not None and found[2] in ("17", "18"), said)
    took = float(truth.split()[2])
    tries.check("python, killed: how long", found is not None and took - WRITTEN <= int(found[1]) <= took + ALLOWED, (said, truth))


def try_interpreters(tries: Tries) -> None:
    before = os.getcwd()
    for language, (questions, suffix, latest, functions) in LANGUAGES.items():
        with tempfile.TemporaryDirectory() as folder:
            os.chdir(folder)
            try:
                for source in (FOLDER / language).glob(f"*{suffix}"):
                    # (the lines of the program are read from its files, as they lie where it was started)
                    Path(source.name).write_bytes(source.read_bytes())
                for name in questions:
                    try_one(tries, language, name)
                try_notes(tries, language, latest, functions)
                if language == "python":
                    try_killed(tries)
            finally:
                os.chdir(before)
