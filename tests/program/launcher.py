"""Tries how the launcher comes to a program where none is built.

Where it builds, a stand-in for the kit's command (kit/rt) takes a moment for each crate in the place of minutes; what it proves is
nothing, and so only the launcher is tried by it. With the real kit are tried the first answer of docs/TOUR.md's first command, and a
build that is stopped once the first crate is done, and taken up again."""
import os
import pty
import re
import shutil
import signal
import subprocess
import tempfile
import time
from pathlib import Path
from typing import List, NamedTuple, Set, Tuple

HERE = os.path.dirname(os.path.realpath(__file__))
ROOT = os.path.dirname(os.path.dirname(HERE))

from tests.helper import Check, Tries, limited, run, talked, waited
from tests.program.called import SCRIPT, same

SECONDS = 600
NO_KIT = tempfile.TemporaryDirectory(prefix="uvt-path-")


class StandIn(NamedTuple):
    """A copy of the repository whose kit is the stand-in."""

    folder: str
    room: str

    def uvt(self) -> str:
        return os.path.join(self.folder, "uvt")

    def env(self) -> "dict[str, str]":
        return {
            **os.environ,
            "PATH": os.path.join(HERE, "kit") + ":" + os.environ["PATH"],
            "STAND_IN": self.room,
            "XDG_CACHE_HOME": os.path.join(self.room, "cache"),
            "RT_JOBS": "4",
            # (what is compiled is counted: so nothing beside it)
            "UVT_ONE": "1",
        }

    def write(self, name: str, text: str) -> None:
        with open(os.path.join(self.room, name), "w", encoding="ascii") as file:
            file.write(text)

    def log(self) -> List[List[str]]:
        path = os.path.join(self.room, "log")
        if not os.path.exists(path):
            return []
        with open(path, encoding="ascii") as file:
            return [line.split() for line in file]

    def hold(self) -> None:
        """What is begun from here on takes until there is a file `go`."""
        self.write("took", "held")
        if os.path.exists(os.path.join(self.room, "go")):
            os.remove(os.path.join(self.room, "go"))

    def call(self, words: List[str], text: bytes = b"") -> "tuple[int, bytes, bytes]":
        return run([self.uvt()] + words, text, env=self.env())


def stand_in(folder: str, program: str) -> StandIn:
    made = StandIn(os.path.join(folder, "copy"), os.path.join(folder, "room"))
    os.makedirs(made.room)
    shutil.copy(program, os.path.join(made.room, "program"))
    for name in ("uvt", "crates.txt"):
        os.makedirs(made.folder, exist_ok=True)
        shutil.copy(os.path.join(ROOT, name), os.path.join(made.folder, name))
    shutil.copytree(os.path.join(ROOT, "tools"), os.path.join(made.folder, "tools"), symlinks=True)
    shutil.copytree(
        os.path.join(ROOT, "crates"),
        os.path.join(made.folder, "crates"),
        ignore=lambda at, names: [name for name in names if name in ("out", "must-fail", "data", "specs", "proofs")],
    )
    return made


# What a call says that waits for another one.
WAITS = b"another call is building the program"


def two_at_once(kit: StandIn, words: List[str], text: bytes = b"") -> "List[tuple[int, bytes, bytes]]":
    """The same call twice: neither gets on until one of them says that it waits, however late that begins. What became of both."""
    kit.hold()
    said = [os.path.join(kit.room, "said-%d" % at) for at in (0, 1)]
    calls = []
    for path in said:
        with open(path, "wb") as errors, tempfile.TemporaryFile() as given:
            given.write(text)
            given.seek(0)
            calls.append(subprocess.Popen([kit.uvt()] + words, env=kit.env(), stdin=given, stdout=subprocess.PIPE, stderr=errors))

    def told() -> List[bytes]:
        return [Path(it).read_bytes() for it in said]

    until = time.monotonic() + SECONDS
    while not any(WAITS in it for it in told()) and time.monotonic() < until:
        time.sleep(0.05)
    kit.write("go", "")
    outputs = [talked(it)[0] for it in calls]
    kit.write("took", "0.05")
    return list(zip([it.returncode for it in calls], outputs, told()))


def try_first_call(check: Check, kit: StandIn) -> None:
    """Without a built program: the answer of the one before its proofs, and the words that go with it. It is compiled once."""
    asked: List[Tuple[List[str], bytes]] = [
        ([], b"uvt runs a script"),
        (["replay", "none"], b"uvt: there is no file none\n"),
        (["debug", os.path.join(ROOT, "examples", "sent-session.rec")], b"uvt: this is a recording"),
    ]
    for words, said in asked:
        status, output, errors = kit.call(words)
        check("%r before a build" % words, (status, output) == (2, b"") and errors.startswith(said), "got %r" % errors)
    same(check, "help before a build", kit.call(["help"])[0], 0)
    ended = two_at_once(kit, ["debug"], SCRIPT)
    for at, real in enumerate(ended):
        check("first call %d of two at once" % at, real[:2] == (0, b"init t timer = 0.0\n"), "got %r" % (real,))
        check(
            "first call %d of two, what is said" % at,
            b"before its proofs" in real[2] and b"./uvt build" in real[2] and b"none of it proved" in real[2],
            "got %r" % real[2],
        )
    check("one of two first calls waits", sum(WAITS in it[2] for it in ended) == 1, "got %r" % ended)
    script = os.path.join(kit.room, "script.uvt")
    with open(script, "wb") as file:
        file.write(SCRIPT)
    same(check, "a first call of debug FILE", kit.call(["debug", script], b"loop\n")[:2], (0, b"init t timer = 0.0\nrefused ended\n"))
    with open(script, "wb") as file:
        file.write(b"var a\nmain stop b\nbegin\n")
    status, output, errors = kit.call(["debug", script])
    check(
        "a first call of a bad FILE",
        (status, output) == (2, b"") and errors.endswith(b"\nuvt: `b` isn't declared before this line\n"),
        "got %r" % errors,
    )
    status, output, errors = kit.call(["debug"], b"var a\nmain stop b\nbegin\n")
    check("a first call of a bad script", (status, output, errors) == (2, b"", b"uvt: bad script line 2\n"), "got %r" % errors)
    status, output, errors = kit.call(["replay", os.path.join(ROOT, "examples", "changed-program.rec")])
    check("a first call of replay FILE", (status, output, errors) == (3, b"differs at 1\n", b"uvt: differs at 1\n"), "got %r" % errors)
    text = b"var i\nmain init i idle\nmain start i\nmain run default\nbegin\nloop 30000\n"
    status, output, errors = kit.call(["debug"], text)
    check("a first call with a long output", status == 0 and output.count(b"\n") > 20000, "status %d, %d lines" % (status, output.count(b"\n")))
    same(check, "what it is was said once", errors, b"")
    with open(os.path.join(ROOT, "examples", "late-timer.uvt"), "rb") as late:
        status, output, errors = kit.call(["why", "beat"], late.read())
    check(
        "a first call of a tool",
        status == 0 and b"late by 35 ms" in output and errors == b"",
        "got %r" % ((status, output, errors),),
    )
    status, output, errors = kit.call(["path"])
    same(check, "the path of the program before its proofs", output, os.path.join(kit.folder, "out", "uvt", "unproved", "uvt").encode() + b"\n")
    same(check, "first answers build nothing, and compile once", [line[0] for line in kit.log()], ["tries"])
    source = os.path.join(kit.folder, "crates", "uv_cli", "src", "lib.rt")
    with open(source, "ab") as out:
        out.write(b"// changed before a build\n")
    kit.hold()
    changed = subprocess.Popen([kit.uvt(), "debug"], env=kit.env(), stdin=subprocess.PIPE, stdout=subprocess.PIPE, stderr=subprocess.DEVNULL)
    until = time.monotonic() + SECONDS
    while len(kit.log()) < 2 and time.monotonic() < until:
        time.sleep(0.05)
    with open(source, "ab") as out:
        out.write(b"// changed while it is compiled\n")
    kit.write("go", "")
    same(check, "a first call behind a change", (talked(changed, SCRIPT)[0], changed.returncode), (b"init t timer = 0.0\n", 0))
    same(check, "it compiles anew", [line[0] for line in kit.log()], ["tries", "tries"])
    kit.write("took", "0.05")
    same(check, "a call behind a change while it was compiled", kit.call(["debug"], SCRIPT)[:2], (0, b"init t timer = 0.0\n"))
    same(check, "it compiles anew again", [line[0] for line in kit.log()], ["tries", "tries", "tries"])


def order_faults(log: List[List[str]], below: "dict[str, List[str]]") -> List[str]:
    """The crates that began before one that they depend on had ended, or began twice."""
    ended: Set[str] = set()
    begun: Set[str] = set()
    faults: List[str] = []
    for what, crate in log:
        if what == "begins":
            faults += [crate] * (crate in begun or not ended.issuperset(below[crate]))
            begun.add(crate)
        elif what == "ends":
            ended.add(crate)
    return faults


def crates_below(kit: StandIn) -> "dict[str, List[str]]":
    with open(os.path.join(kit.folder, "crates.txt"), encoding="utf-8") as file:
        rows = [line.partition("#")[0].partition(":") for line in file]
    uses = {row[0].split()[0]: row[2].split() for row in rows if row[0].split()}
    return {name: [word for word in words if word in uses] for name, words in uses.items()}


def needed(below: "dict[str, List[str]]") -> List[str]:
    """The crates that the program depends on, and itself."""
    found, left = set(), ["uvt"]
    while left:
        name = left.pop()
        if name not in found:
            found.add(name)
            left += below[name]
    return sorted(found)


def most_at_once(log: List[List[str]]) -> int:
    at_once = most = 0
    for what, _ in log:
        at_once += {"begins": 1, "ends": -1}.get(what, 0)
        most = max(most, at_once)
    return most


def try_builds(check: Check, kit: StandIn) -> None:
    """A build that is stopped and taken up again, one that fails, two at once, and a call while one is under way."""
    kit.write("took", "1")
    kit.write("log", "")
    build = subprocess.Popen([kit.uvt(), "build"], env=kit.env(), stderr=subprocess.PIPE, start_new_session=True)
    until = time.monotonic() + SECONDS
    while len([1 for what, _ in kit.log() if what == "ends"]) < 6 and time.monotonic() < until:
        time.sleep(0.05)
    build.send_signal(signal.SIGTERM)
    errors = talked(build)[1]
    check("a build that is stopped", build.returncode == 70 and b"stopped" in errors, "status %d, errors %r" % (build.returncode, errors))
    time.sleep(1)
    done = {crate for what, crate in kit.log() if what == "ends"}
    time.sleep(1)
    same(check, "nothing goes on behind it", {crate for what, crate in kit.log() if what == "ends"}, done)
    check("it is stopped in its midst", 6 <= len(done) < len(needed(crates_below(kit))), "done %r" % done)

    kit.write("took", "0.05")
    kit.write("log", "")
    kit.write("fails", "uv_memory")
    status, output, errors = kit.call(["build"])
    check(
        "a build that fails",
        (status, output) == (70, b"")
        and b"uv_memory was not built" in errors
        and b"fn a::c: not proved" in errors
        and b"fn a::b: proved" not in errors,
        "got %r" % errors,
    )
    again = {crate for what, crate in kit.log() if what == "begins"}
    check("what was proved before it was stopped is not proved again", not again & done, "again %r" % (again & done))

    kit.write("fails", "")
    both = two_at_once(kit, ["build"])
    same(check, "two builds at once", [it[0] for it in both], [0, 0])
    check("one of them waits", sum(WAITS in it[2] for it in both) == 1, "got %r" % both)
    log = kit.log()
    same(check, "no crate is proved twice by them", len([1 for what, crate in log if (what, crate) == ("begins", "uvt")]), 1)
    same(check, "the built program", kit.call(["debug"], SCRIPT), (0, b"init t timer = 0.0\n", b""))
    same(check, "a further build", kit.call(["build"]), (0, b"", b"uvt: the program is built already, and nothing has changed since\n"))
    same(check, "no copy is left", os.listdir(os.path.join(kit.room, "cache")), [])


# Has Python send itself a signal as it begins to take a folder away, where it has a handler for one. (What shutil does then passes over
# whatever is raised.)
WITHIN = """
import os, signal, sys
real = os.lstat
def lstat(*words, **named):
    if sys._getframe(1).f_globals["__name__"] == "shutil" and callable(signal.getsignal(signal.SIGTERM)):
        os.kill(os.getpid(), signal.SIGTERM)
    return real(*words, **named)
os.lstat = lstat
"""


def try_signal_within(check: Check, kit: StandIn) -> None:
    """A signal ends a build also where it comes within a call that passes over faults."""
    begin_anew(kit)
    kit.write("sitecustomize.py", WITHIN)
    status, output, errors = run([kit.uvt(), "build"], env={**kit.env(), "PYTHONPATH": kit.room})
    check(
        "a build that is stopped while it takes a folder away",
        (status, output) == (70, b"") and b"uvt: stopped; what is proved is kept" in errors,
        "got %r" % ((status, output, errors),),
    )
    os.remove(os.path.join(kit.room, "sitecustomize.py"))


def begin_anew(kit: StandIn) -> None:
    for name in os.listdir(kit.room):
        if name.startswith("done-") or name == "log":
            os.remove(os.path.join(kit.room, name))
    shutil.rmtree(os.path.join(kit.folder, "out"), ignore_errors=True)


def try_order(check: Check, kit: StandIn) -> None:
    """Crates side by side, each after those that it depends on; the line at a terminal is rewritten."""
    begin_anew(kit)
    kit.write("took", "0.1")
    ours, theirs = pty.openpty()
    build = subprocess.Popen([kit.uvt(), "build"], env=kit.env(), stdout=subprocess.DEVNULL, stderr=theirs)
    os.close(theirs)
    said = b""
    try:
        while True:
            more = os.read(ours, 4096)
            if not more:
                break
            said += more
    except OSError:
        pass
    os.close(ours)
    same(check, "a build at a terminal", waited(build), 0)
    line = rb"\r\x1b\[Kuvt: \d+ of \d+ crates, \d+ functions proved, \d+:\d\d, about "
    check("its line is rewritten", re.search(line, said) is not None, "got %r" % said[-500:])
    first = re.search(rb"of (\d+) crates, 4 at a time: about (\d+) minutes from nothing", said)
    check(
        "its first line says how long it will be",
        first and int(first[1]) == len(needed(crates_below(kit))) and 15 < int(first[2]) < 60,
        "got %r" % said[:300],
    )
    same(check, "each crate after those that it depends on", order_faults(kit.log(), crates_below(kit)), [])
    same(check, "the crates that it needs, and no other", sorted(crate for what, crate in kit.log() if what == "ends"), needed(crates_below(kit)))
    # (where much else runs, a crate of a tenth of a second is through before the next one has begun)
    for took in ("1", "8"):
        if most_at_once(kit.log()) < 3:
            begin_anew(kit)
            kit.write("took", took)
            kit.call(["build"])
    check("several at a time", 3 <= most_at_once(kit.log()) <= 4, "most %d" % most_at_once(kit.log()))


def try_unanswered(check: Check, kit: StandIn) -> None:
    """Where the program before its proofs can't be had it is said, and nothing is built; one that is interrupted keeps nothing."""
    kit.write("took", "0.01")
    for fails, said in (("try", b"doesn't compile it"), ("link", b"leaves no program behind")):
        begin_anew(kit)
        kit.write("fails", fails)
        status, output, errors = kit.call(["debug"], SCRIPT)
        check(
            "a first call where %s fails" % fails,
            (status, output) == (70, b"") and said in errors and errors.count(b"./uvt build") == 1,
            "got %r" % ((status, output, errors),),
        )
        check("what a try says that %s" % fails, errors.count(b"\n") == (2004 if fails == "try" else 3), "got %d lines" % errors.count(b"\n"))
        # (one try with optimization, and where that fails one of the kit as it is)
        same(check, "nothing is built where %s fails" % fails, {line[0] for line in kit.log()}, {"tries"})
    status, output, errors = kit.call(["why", "t"], SCRIPT)
    check(
        "a tool where there is no program",
        status == 1 and not output and errors.endswith(b"uvt-why: there is no program to talk with\n"),
        "got %r" % ((status, output, errors),),
    )
    begin_anew(kit)
    no_kit = {**kit.env(), "PATH": without("rt")}
    status, output, errors = run([kit.uvt(), "debug"], SCRIPT, env=no_kit)
    check(
        "a first call without the kit",
        (status, output) == (70, b"") and b"rt, isn't on the PATH. README.md says what to do" in errors,
        "got %r" % ((status, output, errors),),
    )
    status, output, errors = kit.call(["install", os.path.join(kit.room, "prefix")])
    check("install without a proved program", (status, output) == (70, b"") and b"./uvt build" in errors, "got %r" % ((status, output, errors),))
    kit.write("fails", "")
    kit.write("took", "20")
    call = subprocess.Popen(
        [kit.uvt(), "debug"], env=kit.env(), stdin=subprocess.DEVNULL, stdout=subprocess.PIPE, stderr=subprocess.PIPE, start_new_session=True
    )
    until = time.monotonic() + SECONDS
    while not kit.log() and time.monotonic() < until:
        time.sleep(0.05)
    os.killpg(call.pid, signal.SIGINT)
    output, errors = talked(call)
    same(check, "a first call that is interrupted", (call.returncode, output, [line[0] for line in kit.log()]), (130, b"", ["tries"]))
    same(check, "what it leaves", sorted(os.listdir(os.path.join(kit.folder, "out", "uvt", "unproved"))), ["lock"])
    kit.write("took", "0.05")


def without(name: str) -> str:
    """The PATH without this command: a folder of links to the others."""
    folder = tempfile.mkdtemp(prefix="uvt-path-", dir=NO_KIT.name)
    for it in os.environ["PATH"].split(":"):
        for command in os.listdir(it) if os.path.isdir(it) else []:
            if command != name and not os.path.lexists(os.path.join(folder, command)):
                os.symlink(os.path.join(it, command), os.path.join(folder, command))
    return folder


def try_typed(check: Check, kit: StandIn) -> None:
    """What is typed is answered by the program before its proofs too: at a terminal behind a file, and over a pipe a line at a time."""
    begin_anew(kit)
    script = os.path.join(kit.room, "script.uvt")
    with open(script, "wb") as file:
        file.write(SCRIPT)
    ours, theirs = pty.openpty()
    call = subprocess.Popen([kit.uvt(), "debug", script], env=kit.env(), stdin=theirs, stdout=subprocess.PIPE, stderr=subprocess.PIPE)
    os.close(theirs)
    os.write(ours, b"loop\nquit\n")
    output, errors = talked(call)
    os.close(ours)
    same(check, "a first call at a terminal", (call.returncode, output), (0, b"init t timer = 0.0\nrefused ended\n"))
    check("a first call at a terminal, what is said", b"before its proofs" in errors and b"after the file you may type" in errors, "got %r" % errors)
    begin_anew(kit)
    call = subprocess.Popen([kit.uvt(), "debug"], env=kit.env(), stdin=subprocess.PIPE, stdout=subprocess.PIPE, stderr=subprocess.DEVNULL)
    call.stdin.write(SCRIPT)
    call.stdin.flush()
    same(check, "a first call over an open pipe", call.stdout.readline(), b"init t timer = 0.0\n")
    call.stdin.write(b"loop\n")
    same(check, "a first call over an open pipe, the rest", talked(call)[0], b"refused ended\n")


def try_changes(check: Check, kit: StandIn) -> None:
    """A source that changed is no longer what was built; one that was only touched is."""
    same(check, "a build behind first answers", kit.call(["build"])[:2], (0, b""))
    check("a build leaves no program before its proofs", not os.path.exists(os.path.join(kit.folder, "out", "uvt", "unproved")))
    source = os.path.join(kit.folder, "crates", "uv_cli", "src", "lib.rt")
    os.utime(source)
    same(check, "a source that was touched", kit.call(["debug"], SCRIPT), (0, b"init t timer = 0.0\n", b""))
    with open(source, "ab") as file:
        file.write(b"// changed\n")
    status, output, errors = kit.call(["debug"], SCRIPT)
    check("a source that changed", (status, output) == (0, b"init t timer = 0.0\n") and b"before its proofs" in errors, "got %r" % errors)


def try_with_stand_in(check: Check, program: str) -> None:
    folder = tempfile.mkdtemp(prefix="uvt-launcher-")
    try:
        kit = stand_in(folder, program)
        try_first_call(check, kit)
        try_builds(check, kit)
        try_signal_within(check, kit)
        try_order(check, kit)
        try_unanswered(check, kit)
        try_typed(check, kit)
        try_changes(check, kit)
    finally:
        shutil.rmtree(folder, ignore_errors=True)


def try_with_kit(check: Check, copy: str, folder: str) -> None:
    """In a copy without a built program: the first commands of docs/TOUR.md and README.md, and a build that is stopped and taken up again."""
    uvt, env = os.path.join(copy, "uvt"), {**os.environ, "XDG_CACHE_HOME": os.path.join(folder, "cache")}
    with open(os.path.join(copy, "examples", "late-timer.uvt"), "rb") as script, open(os.path.join(copy, "examples", "late-timer.out"), "rb") as due:
        ended = limited([uvt, "debug"], stdin=script, stdout=subprocess.PIPE, stderr=subprocess.PIPE, env=env)
        same(check, "the first answer", (ended.returncode, ended.stdout), (0, due.read()))
    check("the first answer, what is said", ended.stderr.count(b"\n") == 2 and ended.stderr.count(b"uvt: ") == 2, "got %r" % ended.stderr)
    with open(os.path.join(copy, "examples", "late-timer.uvt"), "rb") as script:
        again = limited([uvt, "why", "beat"], stdin=script, stdout=subprocess.PIPE, stderr=subprocess.PIPE, env=env)
        # (who compiles says so)
        check(
            "a second answer, by a tool, with nothing compiled anew",
            again.returncode == 0 and b"late by 35 ms" in again.stdout and again.stderr == b"",
            "got %r" % ((again.returncode, again.stderr),),
        )
    for turn in (1, 2):
        build = subprocess.Popen([uvt, "build"], stderr=subprocess.PIPE, env=env)
        # (a build that ends ends the lines)
        first = next((line for line in build.stderr if re.match(rb"uvt: [1-9]\d* of \d+ crates, ", line)), b"")
        build.terminate()
        build.stderr.read()
        same(check, "a real build that is stopped, turn %d" % turn, waited(build), 70)
        proved = re.search(rb", (\d+) functions proved", first)
        # (what is taken over isn't proved now; in the first turn that is so where another copy on this machine had proved it)
        check("a real build, turn %d: its first crate" % turn, proved is not None and (turn == 1 or proved[1] == b"0"), "got %r" % first)
