"""Recordings of programs (tools/uvt/uvt-record), from logs that were kept: logs/ has them. No libuv is needed.

What a log has to give stands in WANTED, by hand: what the program does in it is read off its source, or off the log's lines.
"""

from __future__ import annotations

import os
import platform
import random
import re
import shutil
import subprocess
import sys
import tempfile
from pathlib import Path
from unittest.mock import patch

ROOT = Path(__file__).resolve().parent.parent.parent
from tests.helper import SECONDS, Check, Tries, limited, log_at, logs_in
from tests.tools.ios import try_io
from uvt.conversation import Fault, built_program
from uvt.notes import Notes
from uvt.notes_read import read_notes
from uvt.record import compiled
from uvt.record.compiled import recorder
from uvt.record.log import read_log
from uvt.record.run import from_data

LOGS = Path(__file__).resolve().parent / "logs"
EXAMPLES = ROOT / "crates" / "examples" / "data"
TRUTHS = LOGS.parent / "truths"
RECORD = str(ROOT / "tools" / "uvt" / "uvt-record")
WHY = str(ROOT / "tools" / "uvt" / "uvt-why")
# How often the program's threads send, by its source.
SENDS = {"accepted": 2, "taken": 24, "learnt": 24, "later": 24, "uncalled": 24, "heldup": 24}
# (for the program before its proofs, which is half as fast, on a busy machine)
LONG = 3600
NESTED, CLOSING = "A run in a callback", "Some handles close later"

# Of each log its loops, and of one that isn't `same` all the way: what the program does there, and the heading that speaks of it.
#   nested   uv_run in a timer's callback
#   closing  a watched file closes once it has been looked at, behind a timer that was closed before it
# Those of the earlier form (uvt-log 1) don't say when a handle of I/O is started and stopped, nor what came:
#   mixed    in one poll the callback of a socket comes before the after callback of a file, and a check handle is called behind both
#   zero     a timer is started with 0 in its own callback, and a prepare handle is called behind the timers
#   dig      the callback of a datagram that was sent at once comes before the poll, and the async handle has sent to itself
#   node     the check handle of node's immediates stands between two callbacks of I/O of one poll
#   accepted a thread sends to `stop` while the callback of `accept` is under way, and both are called in one poll: there are two sends
#   taken    two threads send twelve times each; once the second one sends when the first send is taken, and its callback hasn't begun
#   learnt   the same program: a send is called in the next poll alone, and its steps must not be taken for those of a callback whose send was seen
#   later    the same: two sends, one behind the other, are each called a poll later, and neither is forgotten for the other
#   uncalled the same: a thread sends as the poll is left by the last timer's time, and that timer's callback closes the handle
#   heldup   the same: a thread is held up within its send, while the other one's are called: the callback that it is for has no send of its own
# node20-http is of a node with libuv 1.46.0 within it.
WANTED: dict[str, dict[int, tuple[str, str] | None]] = {
    "late": {0: None},
    "threads": {0: None},
    "accepted": {0: None},
    "taken": {0: None},
    "learnt": {0: None},
    "later": {0: None},
    "uncalled": {0: None},
    "heldup": {0: None},
    "work": {0: None},
    "starved": {0: None},
    "watchers": {0: None},
    "killed": {0: None},
    "mixed": {0: None},
    "zero": {0: None},
    "nested": {0: ("the program calls uv_run in a callback", NESTED)},
    "closing": {0: ("the program calls the close callback of timer", CLOSING)},
    "clients": {0: None},
    "datagrams": {0: None},
    "storm": {0: None},
    "named": {0: None, 1: None},
    "dig": {0: None, 1: None},
    "dig-tcp": {0: None, 1: None},
    "nvim": {1: None},
    "ctest": {0: None},
    "uvloop": {0: None},
    "luv": {0: None},
    "node-late": {0: None, 1: None, 2: None},
    "node-http": {0: None, 1: None, 2: None},
    "node-server": {0: None, 1: None, 2: None},
    "node20-http": {0: None, 1: None, 2: None},
    "uvloop-echo": {0: None},
    "nvim-job": {1: None},
}
# Of a loop how many polls it has, and how many in the program, where these aren't as many; and how many wait for another time than there.
#   watchers   the poll was interrupted by a signal, and logs of the earlier form have that as one poll more
#   datagrams, storm  libuv has put off callbacks, and doesn't wait
POLLS: dict[tuple[str, int], tuple[int, int, int]] = {("watchers", 0): (5, 6, 0), ("datagrams", 0): (3, 3, 1), ("storm", 0): (189, 189, 1)}


def log_of(name: str) -> Path:
    return log_at(LOGS / f"{name}.log")


def recorded(words: list[str], folder: str, seconds: int = SECONDS) -> subprocess.CompletedProcess[str]:
    return limited([RECORD, *words], cwd=folder, capture_output=True, text=True, seconds=seconds, env=os.environ)


def verdict(path: Path, seconds: int = SECONDS) -> str:
    ran = limited([os.environ["UVT"], "replay"], input=path.read_bytes(), capture_output=True, seconds=seconds)
    return ran.stdout.decode().strip()


def callbacks(log: Path, loop: int) -> list[tuple[str, str]]:
    """The list and the object of each callback of a loop, by the log's own lines: those in another one are part of it, and what comes of a
    handle of I/O that closes is part of its close callback, or of its own that has closed it right before."""
    found: list[tuple[str, str]] = []
    watchers, depth, closing, over = set(), 0, set(), False
    for line in log.read_text().splitlines()[1:]:
        words = line.split(" ")
        if words[0] != str(loop) or words[1] in "CVSTFWK":
            continue
        if words[1] == "O" and words[3] == "init" and words[5] not in ("timer", "idle", "prepare", "check", "async"):
            watchers.add(words[4][1:])
        if words[1] == "O" and words[3] == "close":
            closing.add(words[4][1:])
        if words[1] == "B":
            # (between the loop's time and the callback stands the clock, but in logs of earlier recorders)
            begun = (words[4], words[5]) if words[3].isdecimal() else (words[3], words[4])
            late = begun[0] == "on" and begun[1] in watchers & closing
            again = late and over and begun == found[-1]
            if late and not again:
                begun = ("closed", begun[1])
            if depth == 0 and not again and begun not in [it for it in found if it[0] == "closed"]:
                found.append(begun)
            depth += 1
        elif words[1] == "E":
            depth -= 1
        over = words[1] == "E" or over and words[1] == "O" and words[3] in ("start", "stop", "ref", "unref")
    return found


def agrees(recording: Path, wanted: list[tuple[str, str]]) -> str:
    """Are the recording's callbacks the beginning of these, each object under one name at a time? Else what is wrong."""
    lines = recording.read_text().splitlines()
    calls = [it.split(" ") for it in lines[lines.index("calls") + 1 : -1] if not it.startswith("call wake ")]
    names: dict[str, str] = {}
    for call, (kind, object) in zip(calls, wanted):
        if call[0] != {"on": "call"}.get(kind, kind) or names.setdefault(object, call[1]) != call[1]:
            return f"{call} for {kind} {object}"
        if kind != "on":
            del names[object]
    return "" if len(calls) <= len(wanted) else f"{len(calls)} callbacks, and the log has {len(wanted)}"


def try_log(check: Check, name: str, folder: str) -> None:
    log = log_of(name)
    ran = recorded(["-o", name, "--log", str(log)], folder)
    loops = WANTED[name]
    whole = all(it is None for it in loops.values())
    check(f"record {name}: its status", ran.returncode == (0 if whole else 1) and not ran.stderr, (ran.returncode, ran.stderr))
    said = re.split(r"^(?=loop )", ran.stdout, flags=re.MULTILINE)[1:]
    check(f"record {name}: its loops", [int(it.split(":")[0][5:]) for it in said] == list(loops), ran.stdout)
    for text, (loop, stops) in zip(said, loops.items()):
        # (the third loop of node is that of its JavaScript)
        path = Path(folder) / (f"{name}.rec" if len(loops) == 1 or name.startswith("node") and loop == 2 else f"{name}.{loop}.rec")
        wanted, what = callbacks(log, loop), f"record {name}, loop {loop}"
        check(f"{what}: replay", verdict(path) == "same", verdict(path))
        notes = read_notes(path, path.read_bytes())
        check(f"{what}: its notes", bool(notes.names))
        check(f"{what}: whether it is only a beginning", bool(notes.part) == (stops is not None), notes.part)
        check(f"{what}: its callbacks", not agrees(path, wanted), agrees(path, wanted))
        got = re.match(r"loop \d+: (\d+) of (\d+) callbacks, (\d+) steps: same", text)
        check(f"{what}: what is said", bool(got), text)
        if stops is None:
            check(f"{what}: all of it", bool(got) and int(got[1]) == int(got[2]) == len(wanted), text)
        else:
            check(f"{what}: where it stops", stops[0] in text and f"docs/LIBUV.md, `{stops[1]}`" in text, text)
            if name == "closing":
                page = (ROOT / "docs" / "RECORD.md").read_text()
                check("RECORD.md shows where a recording stops", "\n".join(text.splitlines()[:2]) + "\n" in page, text)
            check(f"{what}: the heading", f"### {stops[1]}\n" in (ROOT / "docs" / "LIBUV.md").read_text())
        try_polls(check, what, (log, loop), text, notes, stops is None)
        minor = int(read_log(log.read_bytes()).version.split(".")[1])
        settings = ["order 1.44" if minor < 45 else "order 1.45", *(["io"] if any(map(notes.is_io, notes.names)) else []), "timers heap"]
        lines = path.read_text().splitlines()
        if name in SENDS:
            check(f"{what}: no send is made up", sum(it.startswith("send ") for it in lines) == SENDS[name], lines)
            check(f"{what}: nor one that nobody saw", not notes.guessed, notes.guessed)
        check(f"{what}: its version and its settings", lines[: len(settings) + 1] == ["uvt 3", *settings], lines[:6])


def polls_of(log: Path, loop: int) -> int:
    """How many polls a loop has, by the log's own lines. (In the earlier form one that only looks stands right before its poll.)"""
    form, *lines = log.read_text().splitlines()
    types = [it.split(" ")[1] for it in lines if it.startswith(f"{loop} ")]
    return sum(it == "P" and (form.startswith("uvt-log 2") or types[at + 1 : at + 2] != ["P"]) for at, it in enumerate(types))


def try_polls(check: Check, what: str, of: tuple[Path, int], text: str, notes: Notes, whole: bool) -> None:
    """How many polls there are, and how many in the program, is said, and stands in the notes; and whether they wait as long."""
    log, loop = of
    said = next((it.strip() for it in text.splitlines() if re.match(r"    \d+ polls?, ", it)), "")
    check(f"{what}: its polls in the notes", said == notes.polls, (said, notes.polls))
    here, there, others = POLLS.get((log.stem, loop), (polls_of(log, loop), polls_of(log, loop), 0))
    if not whole:
        return
    wanted = f"{here} poll{'s' * (here != 1)}, " + ("as in the program" if here == there else f"and {there} in the program")
    check(f"{what}: its polls", said.startswith(wanted), (wanted, said))
    if log.read_text().startswith("uvt-log 2"):
        long = f"; {others} of {here} timeouts are others, first: " if others else "; the timeouts are the same"
        check(f"{what}: how long they wait", long in said, said)


# ---- bad input


def changes(text: bytes) -> list[bytes]:
    """A log that is cut somewhere, and one with another byte."""
    chosen = random.Random(7)
    cuts = [text[: chosen.randrange(len(text))] for _ in range(30)] + [b"", text[:1]]
    places = [(chosen.randrange(len(text)), chosen.choice(b"\0\n 09aZ%=-\xff")) for _ in range(60)]
    return cuts + [text[:at] + bytes([byte]) + text[at + 1 :] for at, byte in places]


def try_changed(check: Check, folder: str) -> None:
    """A log that is cut anywhere, or has another byte: a sentence and a status, and what is written is `same`."""
    kept = [*map(log_of, ("work", "watchers", "datagrams")), *(log_at(TRUTHS / f"{it}.log") for it in ("wrongthread", "starve", "hangup"))]
    for log in kept:
        name = log.stem
        for number, data in enumerate(changes(log.read_bytes())):
            what = f"record, {name} changed, {number}"
            said: list[str] = []
            for old in Path(folder).glob("changed*.rec"):
                old.unlink()
            try:
                said, _ = from_data(data, read_log(data), f"{folder}/changed")
            except Fault as fault:
                said = [str(fault)]
            check(f"{what}: what is said", bool(said) and not any("isn't built" in it for it in said), said)
            verdicts = [verdict(it) for it in Path(folder).glob("changed*.rec")]
            check(f"{what}: replay", set(verdicts) <= {"same"}, verdicts)
            if number % 16 == 5:
                (Path(folder) / "changed.log").write_bytes(data)
                ran = recorded(["-o", "changed", "--log", "changed.log"], folder)
                told = ran.returncode in (0, 1) and ran.stdout or ran.returncode == 2 and ran.stderr.startswith("uvt-record: ")
                check(f"{what}: its status", told and "Traceback" not in ran.stderr, (ran.returncode, ran.stdout, ran.stderr))


def try_faults(check: Check, folder: str) -> None:
    (Path(folder) / "full.rec").mkdir()
    cases = [
        ("no such log", ["--log", "nowhere.log"], "nowhere.log: No such file or directory"),
        ("a folder as a log", ["--log", "."], "Is a directory"),
        ("no log", ["--log", str(ROOT / "README.md")], "this is no log of a program"),
        ("a folder in a recording's place", ["-o", "full", "--log", str(log_of("late"))], "full.rec: Is a directory"),
        ("a recording as a log", ["--log", str(EXAMPLES / "sent-session.rec")], "this is a recording, and no log"),
        ("a recording as a program", [str(EXAMPLES / "sent-session.rec")], "is a recording already, and no program"),
        ("a log as a program", [str(log_of("late"))], "is a log, and no program"),
        ("a part of a log that has no place to begin", ["--last", "1", "--log", str(log_of("late"))], "no recording can begin at 0 ms"),
        ("no number of callbacks", ["--most", "none", "--log", str(log_of("late"))], "`none` is no number from 1 on"),
        ("a folder that isn't there", ["-o", "none/late", "--log", str(log_of("late"))], "none/late.rec: No such file or directory"),
    ]
    for what, words, wanted in cases:
        ran = recorded(words, folder)
        check(f"record, {what}", ran.returncode == 2 and wanted in ran.stderr and "Traceback" not in ran.stderr, ran.stderr)
    check("record, no words", recorded([], folder).returncode == 2)


def has_libuv() -> bool:
    """May the recorder be compiled here?"""
    if not shutil.which("cc"):
        return False
    ran = subprocess.run(["cc", "-E", "-x", "c", "-"], input="#include <uv.h>\n", capture_output=True, text=True)
    return ran.returncode == 0


def try_programs(check: Check, folder: str) -> None:
    """With a compiler and libuv: programs themselves."""
    cases = [
        ("a program that isn't there", ["-o", "program", "./nowhere"], "could not be started"),
        ("one without libuv", ["-o", "program", "true"], "called nothing of a libuv"),
        ("a folder that isn't there, and a program", ["-o", "none/program", "true"], "none: No such file or directory"),
    ]
    for what, words, wanted in cases:
        ran = recorded(words, folder)
        check(f"record, {what}", ran.returncode == 2 and wanted in ran.stderr and "Traceback" not in ran.stderr, ran.stderr)
    for name in ("killed", "late"):
        subprocess.run(["cc", "-O1", str(ROOT / "tools" / "uvt" / "record" / "programs" / f"{name}.c"), "-o", f"{folder}/{name}", "-luv"], check=True)
    ran = recorded(["./killed"], folder)
    check("record, one that is ended by a signal", "ended by SIGABRT" in ran.stdout and "3 of 3 callbacks" in ran.stdout, ran)
    check("record, its recording", verdict(Path(folder) / "killed.rec") == "same")
    for name in (it.name for it in Path(folder).iterdir()):
        check("record, no folder is left", not name.startswith(".late.") and not name.startswith(".killed."), name)
    # (a file may have 1,024 bytes: the log's first window has no room)
    full = limited(["sh", "-c", f"ulimit -f 1; exec {RECORD} ./late"], cwd=folder, capture_output=True, text=True, seconds=SECONDS)
    check("record, no room for the log", full.returncode == 2 and "no room" in full.stderr and "Traceback" not in full.stderr, full)
    check("record, the program isn't disturbed by that", " is late: " in full.stdout, full)


def try_queued_again(check: Check, folder: str) -> None:
    """A request that is queued while it is under way: libuv forbids it, the program goes on as without the recorder, and it is said."""
    program = f"{folder}/queued-again"
    subprocess.run(["cc", "-O1", "-g", str(LOGS.parent / "queued_again.c"), "-o", program, "-luv", "-lpthread"], check=True)
    plain = limited([program], capture_output=True, text=True, seconds=SECONDS)
    check("record, queued again, without", plain.returncode == 0 and plain.stdout == "one two \n", plain)
    ran = recorded(["./queued-again"], folder)
    check("record, queued again", ran.returncode == 0 and plain.stdout in ran.stdout and ": same" in ran.stdout, ran)
    check("record, queued again is said", "    QUEUED AGAIN: job, while it was under way (line " in ran.stdout, ran)
    asked = limited([str(ROOT / "tools" / "uvt" / "uvt-why"), "queued-again.rec"], capture_output=True, text=True, cwd=folder, seconds=SECONDS)
    check("why, queued again is said", "QUEUED AGAIN: job was queued while it was under way" in asked.stdout, asked)


# ---- the recorder itself


def try_compiled(check: Check, folder: str) -> None:
    """A recorder that lacks something is compiled anew by the next call; until then it is there, for those who are about to preload it."""
    built, made = Path(folder) / "compiled" / "recorder.so", []

    def compiles(compiler: str, to: Path, forcing: bool) -> None:
        made.append(to.exists())
        part = to.with_name("part")
        part.touch()
        part.replace(to)

    with patch.object(compiled, "BUILT", built), patch.object(compiled, "compile_recorder", compiles):
        compiled.compile_anew()
        check("record, the recorder is compiled once", (recorder(), recorder(), made) == (built, built, [False]), made)
        for which in (recorder(), recorder(True)):
            made.clear()
            compiled.compile_anew()
            check(f"record, {which.name} that lacks something is there still", which.exists() and not made, made)
            check(f"record, {which.name} is compiled anew", recorder(which.stem == "force") == which and made == [True], made)


# ---- a libuv within the program


def archive() -> str:
    """libuv's static library; `` where there is none, or nothing that hooks it."""
    if not has_libuv() or platform.machine() != "x86_64":
        return ""
    hooks = subprocess.run(["cc", "-E", "-x", "c", "-"], input="#include <capstone/capstone.h>\n", capture_output=True, text=True)
    paths = [subprocess.run(["cc", f"-print-file-name={it}"], capture_output=True, text=True).stdout.strip() for it in ("libuv_a.a", "libuv.a")]
    return next((it for it in paths if os.path.isabs(it)), "") if hooks.returncode == 0 else ""


def try_within(check: Check, folder: str, libuv: str) -> None:
    """Programs with libuv within them: they are recorded as others are, and it is said why where they can't be."""
    programs = ROOT / "tools" / "uvt" / "record" / "programs"
    tried: list[tuple[str, int, list[str]]] = [("late", 11, []), ("late", 11, ["-no-pie"]), ("zero", 4, []), ("watchers", 0, []), ("mixed", 0, [])]
    for name, callbacks, flags in tried:
        words = ["cc", "-O1", "-g", *flags, str(programs / f"{name}.c"), "-o", f"{folder}/{name}-within", libuv, "-ldl", "-lpthread"]
        subprocess.run(words, check=True)
        ran = recorded([f"./{name}-within"], folder)
        what = " ".join(["record, libuv within", name, *flags])
        check(what, ran.returncode == 0 and ": same" in ran.stdout and ", as in the program" in ran.stdout, ran)
        check(f"{what}: its callbacks", f"{callbacks or ''} callbacks" in ran.stdout, ran.stdout)
        check(f"{what}: all of it is seen", "\n- U " not in (Path(folder) / f"{name}-within.log").read_text())
    path = Path(folder) / "late-within.rec"
    check("record, libuv within: names", "\ncall heartbeat " in path.read_text() and "on_report" in path.with_suffix(".notes").read_text())
    subprocess.run(["strip", f"{folder}/late-within"], check=True)
    words = ["cc", "-w", "-static", str(programs / "late.c"), "-o", f"{folder}/late-whole", libuv, "-ldl", "-lpthread"]
    subprocess.run(words, check=True, capture_output=True)
    before = recorder().stat()
    for name, wanted in (("late-within", "no symbols (strip)"), ("late-whole", "with its C library too")):
        ran = recorded([f"./{name}"], folder)
        check(f"record, {name} without what it takes", ran.returncode == 2 and wanted in ran.stderr and " is late: " in ran.stdout, ran)
    check("record, and the recorder is the same file behind that", recorder().stat().st_ino == before.st_ino, before)
    try_merged(check, folder)
    try_two(check, folder, libuv)
    words = [
        "cc",
        "-w",
        "-O1",
        "-rdynamic",
        "-I",
        str(ROOT / "tools" / "uvt" / "record" / "recorder"),
        str(LOGS.parent / "bridges.c"),
        "-o",
        f"{folder}/bridges",
    ]
    subprocess.run([*words, "-ldl", "-lpthread"], check=True)
    ran = limited([f"{folder}/bridges"], capture_output=True, text=True, seconds=SECONDS)
    check("record, the bridges", ran.returncode == 0 and ran.stdout == "ok\n", ran)


# What stands for libuv where it is compiled with the program as one: the environment's word that each has in it, and functions of its names.
MERGED = """#include <stdio.h>
static int uv_loop_init(void) { return 0; }
static int uv_run(void) { return puts("UV_THREADPOOL_SIZE"); }
int main(void) { return uv_loop_init() + (uv_run() < 0); }
"""


def try_merged(check: Check, folder: str) -> None:
    """libuv's functions are no functions any more (-flto does so)."""
    (Path(folder) / "merged.c").write_text(MERGED)
    subprocess.run(["cc", "-O2", "-flto", f"{folder}/merged.c", "-o", f"{folder}/merged"], check=True)
    ran = recorded(["./merged"], folder)
    check("record, a program of -flto", ran.returncode == 2 and "are no functions any more (LTO)" in ran.stderr and "THREADPOOL" in ran.stdout, ran)


# A library that takes libuv from libuv.so.1, and what stands for that, of another version. The program has a libuv of its own within it.
PLUGIN = """extern const char *uv_version_string(void);
extern int uv_loop_close(void *);
const char *plug(void) { return uv_loop_close((void *)0) == 0 ? "none" : uv_version_string(); }
"""
OTHER = """const char *uv_version_string(void) { return VERSION; }
int uv_loop_close(void *none) { return -1; }
"""
BOTH = """#include <dlfcn.h>
#include <stdio.h>
#include <uv.h>
const char *plug(void);
static void on_timer(uv_timer_t *timer) { uv_close((uv_handle_t *)timer, NULL); }
int main(int count, char **words) {
    static uv_timer_t timer;
    uv_timer_init(uv_default_loop(), &timer);
    uv_timer_start(&timer, on_timer, 1, 0);
    uv_run(uv_default_loop(), UV_RUN_DEFAULT);
    if (count > 1) puts(((const char *(*)(void))dlsym(dlopen(words[1], RTLD_NOW), "plug"))());
    else puts("no plug-in");
    return 0;
}
"""


def try_two(check: Check, folder: str, libuv: str) -> None:
    """Two libuvs in one process, of two versions: refused, and no call goes to the wrong one. Of one version they are recorded."""
    place = Path(folder) / "two"
    for version in ("other", "same"):
        (place / version).mkdir(parents=True)
    for name, text in (("plugin", PLUGIN), ("other", OTHER), ("both", BOTH)):
        (place / f"{name}.c").write_text(text)
    cc = lambda *words: subprocess.run(["cc", "-w", *words], cwd=place, check=True)  # noqa: E731
    asked = "#include <uv.h>\nUV_VERSION_MAJOR UV_VERSION_MINOR UV_VERSION_PATCH\n"
    header = subprocess.run(["cc", "-E", "-P", "-"], input=asked, capture_output=True, text=True).stdout
    own = ".".join(header.split()[-3:])
    for kind, version in (("other", "1.99.0"), ("same", own)):
        cc("-shared", "-fPIC", "-Wl,-soname,libuv.so.1", f'-DVERSION="{version}"', "other.c", "-o", f"{kind}/libuv.so.1")
        cc("-shared", "-fPIC", "plugin.c", "-o", f"{kind}/plugin.so", f"{kind}/libuv.so.1", f"-Wl,-rpath,{place}/{kind}")
    cc("-O1", "both.c", "-o", "both", libuv, "-ldl", "-lpthread")
    cc(
        "-O1",
        "both.c",
        "-o",
        "linked",
        libuv,
        "-ldl",
        "-lpthread",
        "-Wl,--exclude-libs,ALL",
        "-Wl,--no-as-needed",
        "other/plugin.so",
        f"-Wl,-rpath,{place}/other",
    )
    ran = recorded(["./both"], str(place))
    check("record, a program that may load a second libuv", ran.returncode == 0 and ": same" in ran.stdout, ran)
    ran = recorded(["./both", "same/plugin.so"], str(place))
    check("record, two libuvs of one version", ran.returncode == 0 and ": same" in ran.stdout, ran)
    two = f"there are two, {own} within the program and 1.99.0 as a library"
    ran = recorded(["./both", "other/plugin.so"], str(place))
    check("record, a second libuv that comes later", ran.returncode == 2 and two in ran.stderr and "no plug-in" not in ran.stdout, ran)
    ran = recorded(["./linked", "other/plugin.so"], str(place))
    check("record, a second libuv from the start", ran.returncode == 2 and two in ran.stderr and "1.99.0" in ran.stdout, ran)


def try_unseen(check: Check, folder: str) -> None:
    """A log that says what can't be seen."""
    lines = log_of("late").read_text().split("\n")
    for unseen, wanted in (
        ("uv_signal_start it is too short", "uv_signal_start can't be seen (it is too short)"),
        ("- no capstone", "nothing can be seen"),
    ):
        (Path(folder) / "unseen.log").write_text("\n".join([lines[0], f"- U {unseen}", *lines[1:]]))
        ran = recorded(["--log", "unseen.log"], folder)
        check(f"record, a log with `{unseen}`", ran.returncode == 1 and wanted in ran.stdout, ran)


# ---- long logs, and parts of them

CALLS_OF_LONG = 50_000


def long_log(calls: int, stall: int = 0) -> bytes:
    """A timer of 1 ms that is called so often, and works 3 ms each thousandth time, and once 70; all that there is, written down each 5,000 calls."""
    lines = ["uvt-log 1 1.44.2 7 4 /home/user/long", "0 O 0 init %0 timer = ok", "0 O 0 start %0 1 1 = ok", "0 R 0 default"]
    now, clock = 0, 0
    for call in range(1, calls + 1):
        lines += [f"0 K {now} all", f"0 K {now} 0 timer 1 1 0 1 1 {call}", f"0 K {now} end"] if call % 5000 == 0 else []
        lines.append(f"0 P {now} 1")
        clock += 1
        now = clock
        clock += STALL if call == stall else 3 if call % 1000 == 0 else 0
        lines.append(f"0 B {now} {now} on 0 timer")
        lines += [f"0 O {now} close %0 = ok"] if call == calls else []
        lines.append(f"0 E {now} {clock} 0")
    return "\n".join([*lines, f"0 P {now} 0", f"0 B {now} {clock} closed 0", f"0 E {now} {clock} 0", f"0 r {now} 0", ""]).encode()


def talk_log(reads: int) -> bytes:
    """A tcp that is read so often, four times in a millisecond, with a heartbeat of 10 ms; all that there is, written down each 1,000 reads."""
    lines = [
        "uvt-log 2 1.44.2 7 4 /home/user/talk",
        "0 O 0 init %0 timer = ok",
        "0 O 0 start %0 10 10 = ok",
        "0 O 0 init %1 tcp = ok",
        "0 O 0 start %1 = ok",
        "0 R 0 default",
    ]
    now, due = 0, 10
    for read in range(1, reads + 1):
        row = f"0 K {now} 0 timer 1 1 0 {due - now} 10 {due}"
        lines += [f"0 K {now} all", row, f"0 K {now} 1 tcp 1 1 0 0 0 1", f"0 K {now} end"] if read % 1000 == 0 else []
        lines.append(f"0 P {now} {due - now}")
        now = read // 4
        lines.append(f"0 B {now} {now} on 1 read {read % 100 + 1}")
        lines += [f"0 O {now} close %0 = ok", f"0 O {now} close %1 = ok"] if read == reads else []
        lines.append(f"0 E {now} {now} 1")
        if now == due and read < reads:
            due += 10
            lines += [f"0 B {now} {now} on 0 timer", f"0 E {now} {now} 0"]
    lines += [f"0 B {now} {now} closed {it}\n0 E {now} {now} {it}" for it in (1, 0)]
    return "\n".join([*lines, f"0 r {now} 0", ""]).encode()


READS = 8_000


def try_talk(check: Check, folder: str) -> None:
    """A long log of I/O, and a part of it."""
    data = talk_log(READS)
    (Path(folder) / "talk.log").write_bytes(data)
    calls = data.count(b" B ")
    ran = recorded(["--log", "talk.log"], folder, LONG)
    check("record, a long talk", f"loop 0: {calls} of {calls} callbacks" in ran.stdout and ran.returncode == 0, ran)
    check("record, a long talk: its polls", f"{data.count(b' P ')} polls, as in the program; the timeouts are the same" in ran.stdout, ran.stdout)
    path = Path(folder) / "talk.rec"
    notes = read_notes(path, path.read_bytes())
    check("record, a long talk: what came", notes.came("tcp", READS - 1) == f"{(READS - 1) % 100 + 1} bytes were read", notes.came("tcp", READS - 1))
    ran = recorded(["-o", "part", "--log", "talk.log", "--from", "1600"], folder, LONG)
    check("record, a part of a long talk", "it begins at 1499 ms" in ran.stdout and ran.returncode == 0, ran)
    part = (Path(folder) / "part.rec").read_text()
    check("record, a part of a long talk: its callbacks", part.count("\ncall tcp ") == READS - 6000 + 1, part.count("\ncall tcp "))

    try_early(check, Path(folder))


EARLY = "import sys; sys.path.insert(0, sys.argv.pop(1)); from uvt.commands import why; why.MANY = 20_000; sys.exit(why.main())"


def try_early(check: Check, folder: Path) -> None:
    """Before the build a very long recording's log is told first: by a program of this path, which `why` takes for the one before its proofs.
    This one isn't so long, except for a `why` that is told otherwise."""
    program = folder / "unproved" / "uvt"
    program.parent.mkdir()
    program.symlink_to(built_program())
    for uvt, early in ((str(program), True), (built_program(), "unproved" in built_program())):
        words = [sys.executable, "-c", EARLY, str(ROOT / "tools"), "talk.rec"]
        ran = limited(words, cwd=folder, capture_output=True, text=True, seconds=LONG, env=dict(os.environ, UVT=uvt))
        told = re.match(r"before the loop is led through its \d+ steps:\n\d+ callbacks, \d+ ms, by the log alone\n", ran.stdout)
        check("why, a long recording before the build", bool(told) == early and "\nask next: " in ran.stdout, ran.stdout[:2000])
    ran = limited([WHY, "talk.log"], cwd=folder, capture_output=True, text=True, seconds=LONG, env=os.environ)
    check("why, a log", re.match(r"\d+ callbacks, \d+ ms, by the log alone\n", ran.stdout) and "record --log talk.log" in ran.stdout, ran)


STALL_AT, STALL = 30_500, 70


def try_worst(check: Check, folder: str) -> None:
    """A long log of which the part with the longest callback is taken."""
    (Path(folder) / "stall.log").write_bytes(long_log(CALLS_OF_LONG, STALL_AT))
    ran = recorded(["--log", "stall.log", "--most", "2000", "--worst"], folder, LONG)
    check(
        "record --worst",
        f"the longest of {CALLS_OF_LONG + 1} callbacks took {STALL} ms at " in ran.stdout.split("\n")[0] and "same" in ran.stdout,
        ran,
    )
    path = Path(folder) / "stall.rec"
    check("record --worst: replay", verdict(path, LONG) == "same")
    check("record --worst: its notes", "around the longest one were taken" in read_notes(path, path.read_bytes()).part)
    told = limited([WHY, "stall.rec"], cwd=folder, capture_output=True, text=True, seconds=LONG, env=os.environ).stdout
    check("why of the part with the longest", f"\n    {STALL} ms: the callback of timer, from step " in told, told)
    ran = recorded(["-o", "first", "--log", "stall.log", "--most", "2000"], folder, LONG)
    check("record --most takes the first", "and the first 2000 were taken" in ran.stdout, ran)


def try_long(check: Check, folder: str) -> None:
    (Path(folder) / "long.log").write_bytes(long_log(CALLS_OF_LONG))
    ran = recorded(["--log", "long.log"], folder, LONG)
    check("record, 50,000 callbacks", f"loop 0: {CALLS_OF_LONG + 1} of {CALLS_OF_LONG + 1} callbacks" in ran.stdout and ran.returncode == 0, ran)
    check("record, 50,000 callbacks: replay", verdict(Path(folder) / "long.rec", LONG) == "same")
    told = limited([WHY, "timer", "long.rec"], cwd=folder, capture_output=True, text=True, seconds=LONG, env=os.environ).stdout
    # (each thousandth call makes the loop's time old by 3 ms, so the one behind it is late by that)
    late = [it for it in told.splitlines() if re.match(r"step \d+, call \d+001: late by 3 ms: the callback of timer took 3 ms, ", it)]
    check("why of 50,000 callbacks", len(late) == CALLS_OF_LONG // 1000 - 1 and len(told) < 100_000, (len(late), told[:2000]))
    for words, calls, sentence in ((["--most", "1000"], 1000, "and the first 1000 were taken"), (["--from", "40000"], None, "it begins at ")):
        ran = recorded(["-o", "part", "--log", "long.log", *words], folder, LONG)
        check(f"record {' '.join(words)}", sentence in ran.stdout and "same" in ran.stdout, ran)
        part = Path(folder) / "part.rec"
        check(f"record {' '.join(words)}: replay", verdict(part, LONG) == "same")
        check(f"record {' '.join(words)}: its notes", sentence in read_notes(part, part.read_bytes()).part)
        got = int(re.search(r"loop 0: (\d+) of", ran.stdout)[1])
        check(f"record {' '.join(words)}: how many", got == calls if calls else 9_000 < got < 16_000, got)


def try_whys_of_parts(check: Check, folder: str) -> None:
    """A recording that is only a beginning: each tool says so."""
    recorded(["-o", "cut", "--log", str(log_of("closing"))], folder)
    for words in (["uvt-why", "timer", "cut.rec"], ["uvt-why", "cut.rec"], ["uvt-shell", "cut.rec"], ["uvt-view", "cut.rec"]):
        ran = limited(
            [str(ROOT / "tools" / "uvt" / words[0]), *words[1:]],
            cwd=folder,
            capture_output=True,
            text=True,
            seconds=SECONDS,
            env=os.environ,
            input="",
        )
        check(f"{' '.join(words)} of a beginning", "THE RECORDING IS A PART: it has the first" in ran.stdout, ran.stdout[-500:] + ran.stderr)
    for tool, *words in (("uvt-why", "tick"), ("uvt-shell",), ("uvt-view",)):
        ran = limited(
            [str(ROOT / "tools" / "uvt" / tool), *words, str(log_of("zero"))], capture_output=True, text=True, seconds=SECONDS, env=os.environ
        )
        check(f"{tool} of a log", ran.returncode == 1 and "this is a log of a program" in ran.stderr and "Traceback" not in ran.stderr, ran.stderr)


# ---- the pages

# Each page, the log that was kept of the program that it records, how that is called there, and what its calls have in them.
PAGES = (
    ("docs/RECORD.md", "late", "./uvt record ./late", "late.rec"),
    ("docs/RECORD.md", "../truths/hangup", "./uvt record ./hangup", "hangup.rec"),
    ("docs/NODE.md", "node-server", "./uvt record --bare -o server node server.js", "server."),
    ("docs/NODE.md", "../javascript/node20/app", "./uvt record node app.js", "app.rec"),
)


def try_page(check: Check, page: Path, folder: str, log: str, call: str, other: str) -> None:
    """Each call that the page shows, in order in one folder. In place of running the program its log is taken."""
    log = Path(log).name
    name = "server" if " -o " in call else log
    blocks = re.findall(r"```text\n(.*?)```", page.read_text(), re.DOTALL)
    shown = [(block, behind) for block, behind in zip(blocks, blocks[1:]) if other in block or call in block]
    # (what writes into a file prints nothing)
    shown = [it for it in shown if not all(" > " in line for line in it[0].splitlines())]
    calls = [(block, behind) for block, behind in shown if all(re.match(r"(\./uvt |printf |sed |grep )", it) for it in block.splitlines())]
    check(f"{page.name}: it shows calls", bool(calls))
    for block, behind in calls:
        command = block.replace(call, f"./uvt record -o {name} --log {log}.log")
        ran = limited(["sh", "-c", command], cwd=folder, capture_output=True, text=True, seconds=SECONDS, env=os.environ)
        # (what the program printed)
        parts = [it for it in behind.splitlines() if not it.startswith("beat ")]
        at, lines = 0, ran.stdout.splitlines()
        for line in (it for it in parts if it != ".."):
            at = lines.index(line, at) + 1 if line in lines[at:] else -1
            check(f"{page.name}: `{block.strip()}` prints `{line}`", at > 0, ran.stdout + ran.stderr)
            if at < 0:
                break
        if ".." not in parts:
            check(f"{page.name}: `{block.strip()}` prints that alone", lines == parts, ran.stdout)


def try_pages(check: Check) -> None:
    for page, log, call, other in PAGES:
        with tempfile.TemporaryDirectory() as folder:
            (Path(folder) / "uvt").symlink_to(ROOT / "uvt")
            shutil.copy(log_of(log), folder)
            # (lines of JavaScript are read from its file)
            shutil.copy(LOGS.parent / "javascript" / "app.js", folder)
            try_page(check, ROOT / page, folder, log, call, other)


def try_sharpness(check: Check) -> None:
    """Changed logs are noticed: a request's callback left out or doubled always, two swapped of which not both are of I/O in nine of ten."""
    logs = [str(log_of(name)) for name in WANTED]
    words = [str(ROOT / "tests" / "recorder" / "sharpness"), "--most", "20", *logs]
    ran = limited(words, capture_output=True, text=True, seconds=LONG)
    counts = {it[0]: (int(it[1]), int(it[2])) for it in re.findall(r"^([\w/ ]+): (\d+) of (\d+) noticed$", ran.stdout, re.MULTILINE)}
    (swapped, of), requests = counts.get("swapped", (0, 0)), counts.get("request", (0, 0))
    check("record, requests left out or twice", requests[1] >= 20 and requests[0] == requests[1], ran.stdout + ran.stderr)
    check("record, swapped callbacks", of >= 150 and swapped >= 0.9 * of, ran.stdout + ran.stderr)
    check("record, two swapped that are both of I/O: these may come in any order", counts.get("both of I/O", (0, 0))[1] >= 20, ran.stdout)


def try_records(tries: Tries) -> None:
    check = tries.check
    os.environ["UVT"] = built_program()
    check("record: each log is known", {it.stem for it in logs_in(LOGS)} == set(WANTED))
    with tempfile.TemporaryDirectory() as folder:
        for name in WANTED:
            try_log(check, name, folder)
        try_io(check, folder)
        try_faults(check, folder)
        try_unseen(check, folder)
        try_whys_of_parts(check, folder)
        try_compiled(check, folder)
    try_sharpness(check)
    try_pages(check)


def try_logs(tries: Tries) -> None:
    """Logs that are changed, and long ones."""
    os.environ["UVT"] = built_program()
    with tempfile.TemporaryDirectory() as folder:
        try_changed(tries.check, folder)
        try_long(tries.check, folder)
        try_worst(tries.check, folder)
        try_talk(tries.check, folder)


def try_recorded(tries: Tries) -> None:
    os.environ["UVT"] = built_program()
    with tempfile.TemporaryDirectory() as folder:
        if has_libuv():
            try_programs(tries.check, folder)
            try_queued_again(tries.check, folder)
        else:
            tries.leave_out("recording of programs", "there is no C compiler `cc` with libuv's header")
        if libuv := archive():
            try_within(tries.check, folder, libuv)
        else:
            tries.leave_out("a libuv within the program", "no x86-64, no capstone (libcapstone-dev), or no static library of libuv")
