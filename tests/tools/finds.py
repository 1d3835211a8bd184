"""Tries the search's tool (tools/uvt/uvt-find): each example that asks, and what is said of bad lines and bad words.

What each example has to answer stands here, by its question: the line of the script's run that answers it, or that no order does. How many
states there are, and that the answers are right, is tried by tests/find."""

from __future__ import annotations

import json
import os
import pty
import re
import signal
import subprocess
import tempfile
from collections import Counter
from pathlib import Path
from typing import NamedTuple

ROOT = Path(__file__).resolve().parent.parent.parent
EXAMPLES = ROOT / "crates" / "examples" / "data"
TOOL, WORST, WHY = (str(ROOT / "tools" / "uvt" / f"uvt-{it}") for it in ("find", "worst", "why"))
from tests.find.costs import growing
from tests.helper import Check, Tries, come_to, limited, log_at, talked
from tests.tools import forces
from tests.tools.records import has_libuv
from launch import bad_line, reasons
from uvt.inputs import read_input
from uvt.forcing import is_hooked
from uvt.record.log import read_log
from uvt.record.run import from_data

JAVASCRIPT, LOGS = (ROOT / "tests" / "tools" / it for it in ("javascript/node20", "logs"))

FOUND, NEVER, BAD, UNSETTLED, INTERRUPTED = 0, 1, 2, 3, 130
# (what a question may take is by the clock, and more on a busy machine)
LONG = ["--for", "600"]
# A pool of eight with twelve requests, each with a callback of its own so that no two are alike. No search settles their orders within some
# seconds.
ENDLESS = "\n".join(
    [
        "workers 8",
        *(f"var r{at}" for at in range(12)),
        *(f"main queue r{at} 1" for at in range(12)),
        "main run default",
        *(f"after r{at} @{at + 1} alive" for at in range(12)),
        "begin",
        "find code EBUSY",
        "",
    ]
)


# Four jobs on two workers, each of which gives a timer 5 ms more.
ALIKE = "\n".join(
    [
        "workers 2",
        *(f"var job{at}" for at in range(4)),
        "var watchdog",
        "main init watchdog timer",
        "main start watchdog 5 0",
        *(f"main queue job{at} 1" for at in range(4)),
        "main run default",
        "on watchdog close watchdog",
        *(f"after job{at} start watchdog 5 0" for at in range(4)),
        "begin",
        "may wait",
        "find call watchdog 2",
        "",
    ]
)


class Due(NamedTuple):
    """How the answer begins, its status, and the last line that the session prints."""

    answer: str
    status: int
    last: str


ANSWERS = {
    "cancel-too-late": Due("found in ", FOUND, "cancel job = EBUSY"),
    "send-or-close": Due("found in ", FOUND, "out send progress = ESTALE"),
    "starved-pool": Due("found in ", FOUND, "end 1"),
    "lost-retry": Due("found in ", FOUND, "start retry 10 0 = ESTALE"),
    "closing-server": Due("found in ", FOUND, "send log = ESTALE"),
    "debounce": Due("never within clock 200: ", NEVER, ""),
    "server": Due("never: ", NEVER, ""),
}
# What recorded programs did, and what none of their orders does, by the recording's name: an echo server whose writes took 35 ms and made a
# heartbeat late, two signals of three that a timer raised, and a frame that was 39 ms late behind a callback of 50.
RECORDED = [
    ("echo", "find on server", FOUND),
    ("echo", "find on client 7", FOUND),
    ("echo", "find late heartbeat 25", FOUND),
    ("echo", "find peer after server", FOUND),
    ("signals", "find on usr 2", FOUND),
    ("signals", "find on usr 3", NEVER),
    ("signals", "find on term", FOUND),
    ("signals", "find closed poke", FOUND),
    ("frame", "find late vsync 39", FOUND),
    ("frame", "find late vsync 52", NEVER),
    ("frame", "find closed load", FOUND),
]
# The same, by how much of what came may come at another place. The recording itself is the one order where nothing may.
NEAR = [
    ("echo", 0, "find on client 7", FOUND),
    ("echo", 0, "find late heartbeat 25", FOUND),
    ("echo", 0, "find peer after server", FOUND),
    ("echo", 1, "find on client 8", NEVER),
    ("signals", 0, "find on usr 2", FOUND),
    ("signals", 0, "find on term", FOUND),
    ("signals", 1, "find on usr 3", NEVER),
    ("frame", 0, "find late vsync 39", FOUND),
    ("frame", 0, "find late vsync 40", NEVER),
    ("frame", 1, "find late vsync 45", FOUND),
    # (no more than over every order: what a callback took goes by at its end, and what the loop waited where it waits)
    ("frame", 1, "find late vsync 46", NEVER),
    ("frame", 2, "find late vsync 52", NEVER),
    ("signals", 1, "find late poke 48", NEVER),
]
# A timer and an async handle, in one run of which nothing was sent, and in the other one a send closed both.
MAIN = ["var t", "var a", "main init t timer", "main init a async", "main start t 5 0", "main run default"]
TO_THE_TIMER = ["loop 20", "tick 5", "loop 20"]
RUNS = {"quiet": (MAIN, TO_THE_TIMER), "sent": ([*MAIN, "on t now", "on a close t", "on a close a"], [*TO_THE_TIMER, "send a", "loop 100"])}
# Inputs with a bad line, and what is said of it behind the program's own line.
BAD_LINES = [
    ("var a\nbegin\nmay fly\nfind stuck\n", 3, "no line says `may fly`: it has the form"),
    ("var a\nbegin\nmay send b 1\nfind stuck\n", 3, "`b` isn't declared before this line"),
    ("io\nvar a\nbegin\nmay io a 1\nmay io b 1\nfind stuck\n", 5, "`b` isn't declared before this line"),
    ("var a\nbegin\nfind a before a\n", 3, "`a` is on both sides of `before`, which asks for two names"),
    ("var a\nbegin\nfind a after a\n", 3, "`a` is on both sides of `after`, which asks for two names"),
    ("var a\nbegin\nmay send a 1 during a\nfind stuck\n", 3, "`a` is on both sides of `during`, which asks for two names"),
    ("var a\nbegin\ntakes a 2 5\nfind stuck\n", 3, "no line says `takes a 2 5`: it has the form `takes NAME MS` or `takes NAME @K MS`"),
    ("var a\nbegin\ntakes a @0 5\nfind stuck\n", 3, "`0` is out of range: K is 1 to 4294967295"),
    (
        "var a\nbegin\ntakes a @2 5\ntakes a 5\ntakes a @2 6\nfind stuck\n",
        5,
        "`takes a @2` stands in line 3 already, and a search has it once at most",
    ),
    ("var a\nbegin\nmay send a 0\nfind stuck\n", 3, "`0` is out of range: N is 1 to 4294967295"),
    ("var a\nbegin\nmay wait\n", 4, "the line is missing that says what to look for: `find ..`"),
    ("var a\nbegin\nmay wait\nmay wait\nfind stuck\n", 4, "`may wait` stands in line 3 already, and a search has it once at most"),
    ("var a\nbegin\nmay wait 5 1\nmay wait\nmay wait 5 2\nfind stuck\n", 5, "`may wait 5` stands in line 3 already, and a search has it once"),
    ("var a\nbegin\nmay wait 5\nfind stuck\n", 3, "no line says `may wait 5`: it has the form `may wait` or `may wait MS N`"),
    (
        "var a\nbegin\nmay differ 1\nrecorded 0 0 wait 5\nmay wait 5 1\nfind stuck\n",
        5,
        "`may wait 5 1` stands beside `may differ`: there what came in the recording may come, and nothing else but `may wait`",
    ),
    ("var a\nbegin\nfind stuck\nfind never a\n", 4, "a second question: line 3 has the first, and one is asked at a time"),
    ("var a\nbegin\nfind code EBUZY\n", 3, "`EBUZY` is none of ok, EINVAL"),
    ("var a\nbegin\nloop\nfind stuck\n", 3, "no line behind `begin` begins with `loop` here: it is may, recorded, takes, most, full or find"),
    ("var a\nbegin\nrecorded 0 0 send a\nfind stuck\n", 3, "what came in a recording stands behind a line `may differ K`"),
    ("var a\nbegin\nmay differ 1\nrecorded 0 send a\nfind stuck\n", 4, "no line says `recorded 0 send a`: it has the form `recorded P S send NAME`"),
    ("var a\nbegin\nmay differ 1\nrecorded 0 0 take 65536\nfind stuck\n", 4, "`65536` is out of range: W is 0 to 65535"),
    (
        "var a\nbegin\nmay differ 1\nmay tick 5 1\nfind stuck\n",
        4,
        "`may tick 5 1` stands beside `may differ`: there what came in the recording may come, and nothing else but `may wait`",
    ),
    (
        "var a\nbegin\nmay send a 5\nmay differ 1\nfind stuck\n",
        4,
        "`may send a 5` stands beside `may differ`: there what came in the recording may come, and nothing else but `may wait`",
    ),
    ("var a\nbegin\nfind latest b\n", 3, "`b` isn't declared before this line"),
    ("var a\nbegin\nmay differ 1\nmay differ 2\nfind stuck\n", 4, "`may differ` stands in line 3 already, and a search has it once at most"),
    ("var a\nbegin\nfull\nfull\nfind stuck\n", 4, "`full` stands in line 3 already, and a search has it once at most"),
    ("var a\nbegin\nfull 1\nfind stuck\n", 3, "no line says `full 1`: it has the form `full`"),
    ("var a\nmain fly a\nbegin\nfind stuck\n", 2, "`fly` is no op"),
    ("begin\n" + "".join(f"may tick {ms} 1\n" for ms in range(1, 258)) + "find stuck\n", 258, "at most 256 lines begin with `may`"),
]


def run(words: list[str], text: str = "") -> subprocess.CompletedProcess[str]:
    return limited([TOOL, *words], input=text, capture_output=True, text=True, env=os.environ)


def debugged(session: str) -> list[str]:
    """What `uvt debug` prints of a session."""
    program = os.environ.get("UVT") or str(ROOT / "uvt")
    return limited([program, "debug"], input=session, capture_output=True, text=True).stdout.splitlines()


def try_example(check: Check, name: str, due: Due, folder: str) -> None:
    ran = run([str(EXAMPLES / f"{name}.find")])
    first, _, session = ran.stdout.partition("\n")
    check(f"find, {name}", first.startswith(due.answer) and ran.returncode == due.status, (ran.returncode, first, ran.stderr))
    if due.status != FOUND:
        check(f"find, {name}, nothing behind the answer", session == "", session)
        return
    lines = debugged(session)
    check(f"find, {name}, its session", lines[-1:] == [due.last], lines[-3:])
    path = os.path.join(folder, name)
    ran = run([str(EXAMPLES / f"{name}.find"), "-o", path])
    with open(path, encoding="ascii") as file:
        kept = file.read()
    check(f"find, {name}, its session in a file", (kept, ran.stdout) == (session, f"{first}\n    ./uvt shell {path}\n"), (kept, ran.stdout))


def try_lines(check: Check, folder: str) -> None:
    """The script of an example, or of a recording, with lines of the command line."""
    asked = ["may tick 40 1", "may wait", "find late beat 40"]
    ran = run([str(EXAMPLES / "late-timer.uvt"), *asked])
    check("find, lines that are typed", ran.returncode == FOUND and debugged(ran.stdout.partition("\n")[2])[-1:] == ["call beat 2.0"], ran)
    ran = run([str(EXAMPLES / "late-timer.uvt"), *asked[:2], "find late beat 41"])
    check("find, no order is later than its delay", ran.returncode == NEVER and ran.stdout.startswith("never: "), ran)
    for word in ("full", "--full"):
        ran = run([str(EXAMPLES / "late-timer.uvt"), *asked[:2], "find late beat 41", word])
        check(f"find, {word}", (ran.returncode, ran.stdout) == (NEVER, "never: 162 states, every order\n"), ran)
        ran = run([str(EXAMPLES / "debounce.find"), word])
        check(
            f"find, a file that asks, with {word}", (ran.returncode, ran.stdout) == (NEVER, "never within clock 200: 2270 states, every order\n"), ran
        )
    ran = run([str(EXAMPLES / "late-timer.uvt"), *asked[:2], "find late beat 41"])
    check("find, without full", ran.stdout == "never: 159 states, every order\n", ran)
    apart = os.path.join(folder, "apart")
    Path(apart).write_text(growing(2, 2, 0), encoding="ascii")
    for states, word in ((139, ""), (706, "--full")):
        ran = run([apart, *word.split()])
        check(f"find, {states} states of a pool", (ran.returncode, ran.stdout) == (NEVER, f"never: {states} states, every order\n"), ran)
    ran = run([str(EXAMPLES / "server.find")])
    check("find, a server without an end, and no warning", "may be no end of states" not in ran.stderr, ran)
    questions = ["find late beat 40", "find late beat 41", "find call ping"]
    kept = os.path.join(folder, "several")
    ran = run([str(EXAMPLES / "late-timer.uvt"), *asked[:2], *questions, "-j", "2", "-o", kept])
    said = [line.partition(": ") for line in ran.stdout.splitlines()]
    check(
        "find, several questions",
        ran.returncode == FOUND
        and [it[0] for it in said] == questions
        and [it[2].split(" ")[0].rstrip(":") for it in said] == ["found", "never", "found"],
        ran,
    )
    check(
        "find, the sessions of several questions",
        [os.path.exists(f"{kept}.{at}") for at in (1, 2, 3)] == [True, False, True]
        and debugged(Path(f"{kept}.1").read_text(encoding="ascii"))[-1:] == ["call beat 2.0"],
        os.listdir(folder),
    )
    ran = run([str(EXAMPLES / "late-timer.uvt"), *asked[:2], questions[0], "find call nobody", "-j", "2"])
    check("find, a bad line of several", ran.returncode == BAD and "`nobody` isn't declared before this line" in ran.stderr, ran)
    ran = run([str(EXAMPLES / "sent-session.rec"), "may wait", "most states 1", "find stuck"])
    check("find, of a recording, and not settled", (ran.returncode, ran.stdout) == (UNSETTLED, "not settled within 1 state\n"), ran)
    for number, (text, line, why) in enumerate(BAD_LINES):
        path = os.path.join(folder, f"bad-{number}")
        with open(path, "w", encoding="ascii") as file:
            file.write(text)
        ran = run([path])
        lines = ran.stderr.splitlines()
        check(
            f"find, a bad line: {why}",
            (ran.returncode, ran.stdout) == (BAD, "")
            and f"uvt: bad script line {line}" in lines
            and any(it.startswith(f"uvt: {why}") for it in lines),
            ran,
        )
    rows = {bad_line.why("find", text.encode().split(b"\n")[:-1], line).row for text, line, _ in BAD_LINES}
    check("find, each row of the table of reasons is tried", not set(reasons.ASKED_REASONS) - rows, set(reasons.ASKED_REASONS) - rows)
    ran = run([os.path.join(folder, "nowhere")])
    check("find, no such file", ran.returncode == 70 and "No such file" in ran.stderr and "Traceback" not in ran.stderr, ran)


def try_alike(check: Check, folder: str) -> None:
    """Jobs with the same callback are alike, and aren't where one differs: `tests/find/run --slow` says how many states are kept."""
    path = Path(folder, "alike")
    for text, states in ((ALIKE, 307), (ALIKE.replace("after job3 start watchdog 5 0", "after job3 start watchdog 6 0"), 436)):
        path.write_text(text, encoding="ascii")
        ran = run([str(path)])
        check(f"find, jobs of one callback, {states} states", (ran.returncode, ran.stdout) == (NEVER, f"never: {states} states, every order\n"), ran)


def try_near_and_deep(check: Check) -> None:
    """An answer of a few steps is found beside orders without an end, which a search that only goes deep follows. `tests/find/run --slow` says how
    many steps are needed."""
    ran = run([str(ROOT / "tests/find/endless/near.find")])
    check("find, near, beside orders without an end", ran.returncode == FOUND and ran.stdout.startswith("found in 18 steps, "), ran)


def try_interrupted(check: Check, folder: str) -> None:
    """A search that is interrupted says how far it was: here once it has shown at a terminal that it has passed a thousand states."""
    path = Path(folder, "endless")
    path.write_text(ENDLESS, encoding="ascii")
    ours, theirs = pty.openpty()
    # (what is started in the background may have interrupts ignored)
    search = subprocess.Popen(
        [TOOL, str(path)], stdout=subprocess.PIPE, stderr=theirs, text=True, preexec_fn=lambda: signal.signal(signal.SIGINT, signal.SIG_DFL)
    )
    # (so that a search that ends is seen to have ended)
    os.close(theirs)
    shown = come_to(ours, b" states")
    check("find, how far it is", re.search(rb"\r\x1b\[Kuvt find: searching, \d+:\d\d, more than 10+ states", shown), shown)
    search.send_signal(signal.SIGINT)
    out, _ = talked(search)
    os.close(ours)
    wanted = r"not settled within 10+ states: interrupted\n"
    check("find, interrupted", search.returncode == INTERRUPTED and re.fullmatch(wanted, out), (search.returncode, out, shown))


def try_recorded(check: Check) -> None:
    """Recordings that are asked without a line `may`: what their programs did is found."""
    for name, question, status in RECORDED:
        ran = run([str(EXAMPLES / f"{name}.rec"), question])
        check(
            f"find, {name}, {question}", ran.returncode == status and "no line says `may`, so what came in the recording may come" in ran.stderr, ran
        )
    ran = run([str(EXAMPLES / "echo.rec"), "may wait", "most clock 40", "find on server"])
    check("find, a recording with a line `may`", ran.returncode == NEVER and "so what came in the recording" not in ran.stderr, ran)


# Of examples/frame.rec: a budget for each name, what is said, and the status. (By the answers to `find late` of docs/FIND.md.)
BUDGETS = [
    (["--within", "vsync 51"], "vsync: never later than 51 ms, in every order", FOUND),
    (["--within", "load 9", "--within", "vsync 51"], "load: never later than 9 ms, in every order", FOUND),
    (["--within", "load 9", "--within", "vsync 50"], "vsync: 51 ms late and more in an order: frame.vsync.uvt", NEVER),
    (["--within", "vsync 51", "--states", "100"], "vsync: not settled whether it is ever later than 51 ms (more than 100 states)", UNSETTLED),
    (["--within", "nobody 5"], "nobody is no timer, no async handle and no request that was called. These are: load, vsync", BAD),
    (["--within", "vsync"], "`vsync` is no budget", BAD),
]


def try_within_all(check: Check) -> None:
    """What is found near a recording is found over every order: so nobody is later near it, and with more steps moved as late at least."""
    for name in ("frame", "signals"):
        words = [*LONG, "--json", "--no-sessions", "--differ", "1", "--differ", "2", str(EXAMPLES / f"{name}.rec")]
        ran = limited([WORST, *words], capture_output=True, text=True, env=os.environ)
        check(f"worst of {name}", ran.returncode == FOUND, ran)
        for row in json.loads(ran.stdout or "{}").get("callbacks", []):
            late = [it["ms"] for it in row["worst"]]
            check(f"worst of {name}: {row['name']} near the recording and over every order", len(late) == 4 and late == sorted(late), row)


def try_worst_table(check: Check) -> None:
    """The table of the examples' recordings in docs/FIND.md: each callback of theirs that is ever late, and no other."""
    text = (ROOT / "docs" / "FIND.md").read_text(encoding="utf-8")
    rows = re.findall(r"^\| `examples/(\S+)\.rec` \| `(\w+)` \| (\d+) \| (\d+) \| (\d+) \|$", text, re.M)
    found = []
    for path in sorted(EXAMPLES.glob("*.rec")):
        ran = limited([WORST, *LONG, "--json", "--no-sessions", str(path)], capture_output=True, text=True, env=os.environ)
        for it in json.loads(ran.stdout)["callbacks"]:
            late = [one["ms"] or 0 for one in it["worst"]]
            check(f"worst of {path.stem}, {it['name']}: settled", ran.returncode == FOUND and all(one["settled"] for one in it["worst"]), ran)
            found += [(path.stem, it["name"], *map(str, late))] * any(late)
    check("worst of each recording of the examples, as FIND has it", sorted(rows) == sorted(found), f"{rows} {found}")


def try_worst_forced(check: Check, folder: str) -> None:
    """An order at worst is forced on the program of its recording. By its own clock that is as late there as the table says."""
    program = forces.compiled("budget", folder, "-luv")
    ran = limited(
        [WORST, *LONG, "--json", str(forces.FOLDER / "budget.rec"), "heartbeat"], capture_output=True, text=True, env=os.environ, cwd=folder
    )
    check("worst of a C program", ran.returncode == FOUND, ran)
    table = json.loads(ran.stdout)["callbacks"][0]
    status, said = forces.forced(["-o", "worst.forced", table["session"], program], folder)
    told = [int(it) for it in re.findall(r"^late by (\d+) ms$", said, re.M)]
    check("worst, forced on its program", told[:1] == [table["worst"][-1]["ms"]] and "0 departures, same" in said, f"{table} {status} {said}")


def try_budgets(check: Check, folder: str) -> None:
    """How late a name may be: the status says whether that is settled, and an order that is later is kept, in which it is."""
    for words, said, status in BUDGETS:
        ran = limited([WORST, *LONG, *words, str(EXAMPLES / "frame.rec")], capture_output=True, text=True, env=os.environ, cwd=folder)
        check(f"worst, {words}", ran.returncode == status and said in ran.stdout + ran.stderr and "Traceback" not in ran.stderr, ran)
    with open(Path(folder) / "frame.vsync.uvt", "rb") as session:
        told = limited([WHY, "vsync"], stdin=session, capture_output=True, text=True, env=os.environ).stdout
    late = [int(it) for it in re.findall(r"call \d+: late by (\d+) ms", told)]
    check("worst, the order that is later", max(late, default=0) == 51, told)


def try_near(check: Check, folder: str) -> None:
    """Orders that differ from a recording by so many steps from outside."""
    for name, moved, question, status in NEAR:
        ran = run([str(EXAMPLES / f"{name}.rec"), f"may differ {moved}", question])
        check(
            f"find, {name}, {moved} moved, {question}",
            ran.returncode == status
            and "each other one comes at its place" in ran.stderr
            and (status == FOUND or ran.stdout.startswith(f"never within {moved} moved, clock ")),
            ran,
        )
    # (the order in which nothing is moved is the recording's: each callback of it is called)
    for name in ("echo", "signals", "frame"):
        rows = (EXAMPLES / f"{name}.rec").read_text(encoding="ascii").split("calls\n")[1].splitlines()[:-1]
        called = [(words[0], words[1]) for words in (row.split(" ") for row in rows)]
        for (word, callback), count in Counter(called).items():
            meant = {"call": "on"}.get(word, word)
            ran = run([str(EXAMPLES / f"{name}.rec"), "may differ 0", f"find {meant} {callback} {count}"])
            check(f"find, {name}, nothing moved, {meant} {callback} {count}", ran.returncode == FOUND, ran)
            ran = run([str(EXAMPLES / f"{name}.rec"), "may differ 0", f"find {meant} {callback} {count + 1}"])
            check(f"find, {name}, nothing moved, {meant} {callback} {count + 1}", ran.returncode == NEVER, ran)
    path = os.path.join(folder, "near.uvt")
    ran = run([str(EXAMPLES / "frame.rec"), "may differ 1", "find late vsync 45", "-o", path])
    check(
        "find, near a recording, its session",
        ran.returncode == FOUND and any(line.startswith("call vsync ") for line in debugged(Path(path).read_text(encoding="ascii"))[-1:]),
        ran,
    )
    for words, why in (
        ([str(EXAMPLES / "send-or-close.find"), "may differ 1", "find stuck"], "is none"),
        ([str(EXAMPLES / "frame.rec"), "may differ 1", "may tick 5 1", "find stuck"], "`may tick 5 1` stands beside `may differ`"),
    ):
        ran = run(words)
        check(f"find, differing: {why}", ran.returncode not in (FOUND, NEVER, UNSETTLED) and why in ran.stderr, ran)


def recording_of(script: list[str], commands: list[str]) -> str:
    lines = debugged("\n".join([*script, "begin", *commands, "record", ""]))
    return "\n".join([*lines[lines.index("uvt 2") :], ""])


# A loop that waits 20 ms for a request, and then until its timer is due, at 50 ms.
WAITED = ["var job", "var t", "main queue job 1", "main init t timer", "main start t 50 0", "main run default"]
OF_THE_LOOP = ["loop 4", "take 0", "loop 20", "tick 20", "finish 0", "loop 20", "tick 30", "loop 20"]
# (in no order does time go by where the loop doesn't wait: the timer is never late, and would be by a tick of as much)
OF_WAITED: list[tuple[list[str], int]] = [
    (["find late t 1"], NEVER),
    (["may tick 20 1", "may wait", "find late t 20"], FOUND),
    (["may differ 0", "find late job 20"], FOUND),
    (["may differ 0", "find late job 21"], NEVER),
    (["may differ 1", "find late t 1"], NEVER),
]


def try_waits(check: Check, folder: str) -> None:
    """What a loop waited until something came goes by only where it is blocked so long."""
    path = Path(folder, "waited.rec")
    path.write_text(recording_of(WAITED, OF_THE_LOOP), encoding="ascii")
    for lines, status in OF_WAITED:
        ran = run([str(path), *lines])
        check(f"find, a wait that something ended, {lines}", ran.returncode == status, ran)
        check(f"find, {lines}: what came", len(lines) != 1 or ": 1 wait that something ended; " in ran.stderr, ran)


def try_joined(check: Check, folder: str) -> None:
    """Two recordings of one program, as one."""
    paths = {name: os.path.join(folder, f"{name}.rec") for name in RUNS}
    for name, (script, commands) in RUNS.items():
        with open(paths[name], "w", encoding="ascii") as file:
            file.write(recording_of(script, commands))
    unknown = "what the callback of a does isn't known"
    ran = run([paths["quiet"], "find closed t"])
    check("find, a callback that never ran", ran.returncode == NEVER and unknown in ran.stderr, ran)
    ran = run([paths["quiet"], paths["sent"], "find closed t"])
    check("find, two recordings", ran.returncode == FOUND and unknown not in ran.stderr, ran)
    check(
        "find, where they differ",
        f"call 1 of `on t`: nothing in {paths['quiet']}, `now` in {paths['sent']}; it is as in {paths['quiet']}" in ran.stderr,
        ran,
    )
    ran = run([paths["sent"], paths["quiet"], "find on t", "-o", os.path.join(folder, "both.uvt")])
    with open(os.path.join(folder, "both.uvt"), encoding="ascii") as file:
        check("find, the first recording has the word", ran.returncode == FOUND and "on t now\n" in file.read(), ran)
    ran = run([paths["sent"], str(EXAMPLES / "late-timer.uvt"), "find on t"])
    check("find, a script among recordings", ran.returncode == 70 and "is no recording, and several files are" in ran.stderr, ran)
    ran = run([paths["sent"], paths["quiet"]])
    check("find, recordings that nothing is asked of", ran.returncode == 70 and "no line asks anything" in ran.stderr, ran)


def try_hooked(check: Check, folder: str) -> None:
    """An order of a recording in node says that its program was recorded with its hook, and so is forced; that of another recording doesn't."""
    for log, hooked in ((log_at(JAVASCRIPT / "promise.log"), True), (log_at(LOGS / "late.log"), False)):
        data = log.read_bytes()
        from_data(data, read_log(data), f"{folder}/{log.stem}")
        path = max(Path(folder).glob(f"{log.stem}*.rec"), key=lambda it: it.stat().st_size)
        ran = run([str(path), "find section poll", "-o", f"{folder}/{log.stem}.uvt"])
        session = Path(folder, f"{log.stem}.uvt")
        found = read_input(session)[0] if session.exists() else None
        check(f"find, {log.name}: is it forced with the hook?", found and is_hooked(found) == hooked, ran)
        check(f"find, {log.name}: its session runs", session.exists() and debugged(session.read_text())[-1:], ran)


def try_find(tries: Tries) -> None:
    with tempfile.TemporaryDirectory() as folder:
        try_recorded(tries.check)
        try_near(tries.check, folder)
        try_waits(tries.check, folder)
        try_budgets(tries.check, folder)
        try_within_all(tries.check)
        try_worst_table(tries.check)
        if has_libuv():
            try_worst_forced(tries.check, folder)
        try_joined(tries.check, folder)
        try_hooked(tries.check, folder)
        for name, due in ANSWERS.items():
            try_example(tries.check, name, due, folder)
        try_lines(tries.check, folder)
        try_alike(tries.check, folder)
        try_near_and_deep(tries.check)
        try_interrupted(tries.check, folder)
