"""Tries the program as a user has it: tests/program/run [--built | --program PATH [--search PATH]] [-j N] [PART..]

It works on a copy of the repository in a temporary folder. There the launcher compiles the program before any proof for a first call, begins a
build and is stopped, and builds the program; with --built the copy is then given the program and the search that this repository's
launcher has built, and with --program that file, as if it had been built: then only the search is compiled, unless --search gives that, too
(so does `./uvt test`, with the programs before their proofs). And then these are tried, each by the launcher, in parts that go side by side, each
in a process of its own:

  - each script of examples/ prints the .out beside it, and what `record` shows behind it is replayed as `same`
  - each recording of examples/ is replayed as the .out beside it says
  - one of them cut short at each byte, and with a byte changed in each line, is replayed as the rules of recordings say
  - each conversation of conversations/ and each recording of recordings/, in the folder of this file, gets the .out beside it; where
    the input is bad, that is the line on the errors
  - the sessions of those with I/O are taken one step at a time, back and on again: each image is the earlier one (images.py)
  - each script on a page (README.md and docs/) prints what the page shows below it, and what a page shows of an example in parts,
    with `..` between them, stands in its output in this order
  - over an open pipe each line is answered before the next one is sent
  - at a terminal, `debug FILE` goes on with what is typed, and what may be typed is said once
  - words that are no command line, one of them not UTF-8, and what the launcher says of them (called.py)
  - each command with a file, and with one that isn't there
  - of each bad line of a file, why it is bad
  - with a stand-in for the kit's command: first answers, builds that are stopped, that fail, and two at once (launcher.py)
  - live runs: of one with one recording only, of a loop that a thread wakes, of one that nobody wakes, and of 40 scripts with
    workers and senders, whose recordings are replayed as `same` (tests/live/run does so with 1,000)
  - scripts that are none are refused at their first bad line, and `record` shows the text of those that are one
  - a folder as input, which can't be read, a file that can't be read, a closed input, a line without an end and commands of any length,
    a full disk as output, and a file that may not grow
  - libuv's own tests, as scripts (tests/libuv/cases/), print what their assertions ask
  - the commands of README.md, docs/TOUR.md, docs/TOOLS.md, docs/RECORD.md, docs/FIND.md and docs/HUNT.md as they stand, in order,
    in a fresh clone (pages.py)
  - docs/CLAIMS.md is as the sources are (tools/make/claims), and the names of code on the pages are those of the sources (names.py)
  - each question of ARCHITECTURE's first table leads to a place that is there, PROVED has no long bullets, and one number says how long
    a build takes (asked.py)
  - what tests by hand edit stands there yet: the program over the plain loop, the wrong loops, the wrong edits
  - each function of the libraries is called by a program, or has a reason (reached.py)
  - no line of code is wider than 150 columns, and no file of it longer than 800 lines, of C in tools/ than 400 (widths.py)
  - the tools of tools/ that talk with the program (tests/tools)
  - the program and the tools as they are installed, and their packages (tests/package), where the program is a proved one
  - each allocation is refused in turn (tests/refused-allocations)

It prints a line for each that failed, and at the end how many there were; status 1 if any failed."""
import argparse
import glob
import os
import pty
import re
import resource
import select
import shutil
import subprocess
import sys
import tempfile

HERE = os.path.dirname(os.path.realpath(__file__))
from tests.helper import AT_ONCE, Tries, limited, side_by_side, talked, waited
from tests.libuv import cases
from tests.machines import build
from tests.program import asked
from tests.program import called
from tests.program import images
from tests.program import launcher
from tests.program import lives
from tests.program import names
from tests.program import pages
from tests.program import reached
from tests.program import scripts
from tests.program import widths
from tests.tools import run as tools

ROOT = os.path.dirname(os.path.dirname(HERE))
SECONDS = 600
TRIES = Tries("program")
check = TRIES.check


def copy_to(folder):
    names = subprocess.run(
        ["git", "ls-files", "-z", "--cached", "--others", "--exclude-standard"], cwd=ROOT, stdout=subprocess.PIPE, check=True
    ).stdout.split(b"\0")
    for name in sorted(os.fsdecode(name) for name in names if name):
        source, target = os.path.join(ROOT, name), os.path.join(folder, name)
        if os.path.lexists(source):
            os.makedirs(os.path.dirname(target), exist_ok=True)
            shutil.copy2(source, target, follow_symlinks=False)


def run(uvt, words, text):
    return limited([uvt] + words, input=text, stdout=subprocess.PIPE, stderr=subprocess.PIPE)


def difference(real, wanted):
    for at, (a, b) in enumerate(zip(real.split(b"\n") + [None], wanted.split(b"\n") + [None]), 1):
        if a != b:
            return "line %d: wanted %r, got %r" % (at, b, a)
    return "equal"


def try_script(uvt, what, text, wanted):
    ended = run(uvt, ["debug"], text)
    check(what, ended.stdout == wanted, difference(ended.stdout, wanted))
    check(what + ", its end", ended.returncode == 0 and not ended.stderr, "status %d, errors %r" % (ended.returncode, ended.stderr))


def try_replay(uvt, what, recording, status, wanted, errors):
    ended = run(uvt, ["replay"], recording)
    real, due = (ended.returncode, ended.stdout, ended.stderr), (status, wanted, errors)
    check(what, real == due, "wanted %r, got %r" % (due, real))


def try_verdict(uvt, what, recording, wanted):
    """Where the verdict isn't `same`, the errors name it too."""
    if wanted == b"same\n":
        try_replay(uvt, what, recording, 0, wanted, b"")
    else:
        said = re.sub(b"^refused at [0-9]+ ", b"refused ", wanted)
        try_replay(uvt, what, recording, 3, wanted, b"uvt: " + said)


def try_bad_line(uvt, what, recording, line):
    try_replay(uvt, what, recording, 2, b"", b"uvt: bad script line %d\n" % line)


def try_record(uvt, what, script):
    shown = run(uvt, ["debug"], script + b"record\n").stdout
    try_verdict(uvt, what + ", recorded", shown[max(shown.rfind(b"\nuvt %d\n" % it) for it in (2, 3)) + 1 :], b"same\n")


def try_beginnings(uvt, recording):
    """A beginning of a recording has no verdict: the line that is cut is bad, or the line behind it is missing."""
    for end in range(len(recording) - 1):
        part = recording[:end]
        whole = part.count(b"\n")
        ended = run(uvt, ["replay"], part)
        lines = [whole + 1] if part.endswith(b"\n") or not part else [whole + 1, whole + 2]
        due = [(2, b"", b"uvt: bad script line %d\n" % line) for line in lines]
        real = (ended.returncode, ended.stdout, ended.stderr)
        check("the first %d bytes of a recording" % end, real in due, "wanted one of %r, got %r" % (due, real))
    try_verdict(uvt, "a recording without its last line end", recording[:-1], b"same\n")


# A line of examples/sent-session.rec with one byte changed, and its verdict: a bad line's number, or a text. A name
# that is declared otherwise is missed where it is first used. Both timers are due a little earlier or later, yet their
# callbacks are the same; a request of one round more has another digest.
CHANGED = {
    "uvt 1": ("uvt 2", "same"),
    "workers 4": ("workers 5", "same"),
    "slots 1024 4294967295": ("slots 1025 4294967295", "same"),
    "var early": ("var oarly", 7),
    "var late": ("var lake", 8),
    "var job": ("var jab", 11),
    "main init early timer": ("main init early tamer", 7),
    "main init late timer": ("main init late tamer", 8),
    "main start early 5 0": ("main start early 4 0", "same"),
    "main start late 9 0": ("main start late 8 0", "same"),
    "main queue job 2 some text": ("main queue job 3 some text", "differs at 2"),
    "main run default": ("main run defaulk", 12),
    "on early cancel job": ("on early cancel jab", 13),
    "begin": ("begun", 14),
    "take 0": ("take 1", "refused at 9 idleworker"),
    "tick 5": ("tick 6", "same"),
    "finish 0": ("finish 1", "refused at 9 idleworker"),
    "tick 4": ("tick 3", "refused at 29 blocked"),
    "calls": ("calms", 51),
    "call early 0.0": ("call early 0.1", "differs at 1"),
    "call late 1.0": ("call late 2.0", "differs at 3"),
    "end": ("and", 55),
}


def try_changed_lines(uvt, recording):
    lines = recording.decode().splitlines()
    for at, line in enumerate(lines):
        verdict: object
        if line == "loop":
            changed, verdict = "lxop", at + 1
        elif line.startswith("after "):
            changed, verdict = line[:-1] + "d", "differs at 2"
        else:
            changed, verdict = CHANGED[line]
        text = "\n".join(lines[:at] + [changed] + lines[at + 1 :] + [""]).encode()
        what = "a recording with the line %r" % changed
        if isinstance(verdict, int):
            try_bad_line(uvt, what, text, verdict)
        else:
            try_verdict(uvt, what, text, str(verdict).encode() + b"\n")


def scripts_of(path):
    """The scripts of a page, each with its line and its output. A script is a block of text with a line `begin`; the
    blocks that follow it, up to the next script, call of the launcher or heading, are its output."""
    block, script = None, None
    found: list = []
    with open(path, encoding="utf-8") as page:
        for number, line in enumerate(page, 1):
            if block is None:
                if line.startswith("```text"):
                    block, at = [], number
                elif line.startswith("#"):
                    script = None
            elif line.startswith("```"):
                if "begin\n" in block and "SCRIPT\n" not in block:
                    script = [at, "".join(block), ""]
                    found.append(script)
                elif block[0].startswith("./uvt "):
                    script = None
                elif script:
                    script[2] += "".join(block)
                block = None
            else:
                block.append(line)
    return found


def excerpts_of(path):
    """What a page shows of the output of an example: the block behind one that has the line `./uvt debug < examples/NAME.uvt` alone."""
    name = None
    blocks: list[str] = None
    found: list[tuple[int, str, str]] = []
    with open(path, encoding="utf-8") as page:
        for number, line in enumerate(page, 1):
            if line.startswith("```text") and blocks is None:
                blocks, at = [], number
            elif line.startswith("```") and blocks is not None:
                if name:
                    found.append((at, name, "".join(blocks)))
                call = re.fullmatch(r"\./uvt debug < examples/([a-z-]+)\.uvt\n", "".join(blocks))
                name, blocks = call and call[1], None
            elif blocks is not None:
                blocks.append(line)
    return found


def try_excerpt(what, shown, output):
    """The parts of the output, with lines `..` between them, one behind the other."""
    parts, at = ("\n" + shown).split("\n..\n"), 0
    for part in filter(None, (part.strip("\n") for part in parts)):
        found = ("\n" + output).find("\n" + part + "\n", at)
        check(what, found >= 0, "not in the output, or not behind what stands above: %r" % part)
        at = max(found, at)


def read_for(stream, wanted, seconds):
    """What comes within so many seconds, up to as many bytes as are wanted."""
    text = b""
    while len(text) < len(wanted) and select.select([stream], [], [], seconds)[0]:
        try:
            more = os.read(stream, 4096)
        except OSError:
            break
        if not more:
            break
        text += more
    return text


def try_open_pipe(uvt):
    program = subprocess.Popen([uvt, "debug"], stdin=subprocess.PIPE, stdout=subprocess.PIPE)
    said = [
        ("var t\nmain init t timer\nbegin\nloop\n", "init t timer = 0.0\n"),
        ("loop\n", "refused ended\n"),
        ("tick 3\n", "out tick 3\n"),
        ("none\n", "bad command\n"),
        ("back 2\n", "at 0\n"),
        ("loop\n", "init t timer = 0.0\n"),
        ("trace\n", "init t timer = 0.0\n"),
    ]
    for line, answer in said:
        program.stdin.write(line.encode())
        program.stdin.flush()
        got = read_for(program.stdout.fileno(), answer.encode(), SECONDS)
        check("an open pipe, %r" % line, got == answer.encode(), "wanted %r, got %r" % (answer, got))
    program.stdin.write(b"quit\n")
    program.stdin.flush()
    check("an open pipe, the end", waited(program) == 0 and program.stdout.read() == b"")


def try_terminal(uvt, folder):
    path = os.path.join(folder, "from-a-file.uvt")
    with open(path, "w") as file:
        file.write("var t\nmain init t timer\nbegin\nloop\n")
    ours, theirs = pty.openpty()
    program = subprocess.Popen([uvt, "debug", path], stdin=theirs, stdout=subprocess.PIPE, stderr=subprocess.PIPE)
    first = read_for(program.stdout.fileno(), b"init t timer = 0.0\n", SECONDS)
    os.write(ours, b"loop\nquit\n")
    rest = read_for(program.stdout.fileno(), b"refused ended\n", SECONDS)
    ended = waited(program)
    errors = program.stderr.read()
    os.close(ours)
    os.close(theirs)
    check("a terminal", first + rest == b"init t timer = 0.0\nrefused ended\n", "got %r" % (first + rest))
    check("a terminal, the end", ended == 0, "status %d" % ended)
    check("a terminal, what is said", errors.count(b"quit") == 1, "errors %r" % errors)


# A timer, and the recording of each live run of it.
TICKING = b"var t\nmain init t timer\nmain start t 10 0\nmain run default\n"
TICKED = (
    b"uvt 2\norder 1.45\nworkers 2\nslots 1024 4294967295\n"
    + TICKING
    + b"begin\n"
    + 8 * b"loop\n"
    + b"tick 10\n"
    + 8 * b"loop\n"
    + b"calls\ncall t 0.0\nend\n"
)

# The same with timers from the heap: none is set aside before its call, so it has a step fewer.
HEAPED = (
    b"uvt 3\norder 1.45\ntimers heap\nworkers 2\nslots 1024 4294967295\n"
    + TICKING
    + b"begin\n"
    + 8 * b"loop\n"
    + b"tick 10\n"
    + 7 * b"loop\n"
    + b"calls\ncall t 0.0\nend\n"
)

# A loop that a thread wakes, and the trace of each live run of it.
WOKEN = b"workers 1\nvar a\nmain init a async\nmain run default\non a close a\nthread 0 send a\n"
WOKEN_TRACE = (
    b"init a async = 0.0\nrun default\ntimers\npending\nidle\nprepare\npoll infinite\nout send a = ok\ndone\nasync\n"
    b"call a 0.0\nclose a = ok\ncheck\nclosing\nclosed a 0.0\ntimers\nend 0\n"
)


def try_live(uvt):
    two = ["live", "--workers", "2"]
    for what, words, text, status, output, errors in [
        ("a live run", two, TICKING + b"begin\n", 0, TICKED, b""),
        ("the same with another word", ["live", "--workers=2"], TICKING + b"begin\n", 0, TICKED, b""),
        ("its script alone", two, TICKING, 0, TICKED, b""),
        ("the words before its script", two, b"workers 9\n" + TICKING, 0, TICKED, b""),
        ("its script says it", ["live"], b"workers 2\n" + TICKING, 0, TICKED, b""),
        ("what follows it", two, TICKING + b"begin\nnone\n\xff\nbegin\n", 0, TICKED, b""),
        ("a live run of a bad script", two, b"var t\nmain start\n", 2, b"", b"uvt: bad script line 2\n"),
        ("bad words and a bad script", ["live", "--workers=0"], b"var\n", 2, b"", b"uvt: bad command line\n"),
        ("a loop that nobody wakes", two, WOKEN[: WOKEN.rfind(b"thread")], 4, b"", b"uvt: stalled\n"),
        ("a loop that waits for I/O", two, b"io\nvar r\nmain init r io\nmain start r\nmain run default\n", 4, b"", b"uvt: stalled\n"),
        ("a live run with timers from the heap", two, b"timers heap\n" + TICKING, 0, HEAPED, b""),
    ]:
        ended = run(uvt, words, text)
        real, due = (ended.returncode, ended.stdout, ended.stderr), (status, output, errors)
        check(what, real == due, "wanted %r, got %r" % (due, real))
    try_verdict(uvt, "the recording of a live run", TICKED, b"same\n")
    recording = run(uvt, ["live"], WOKEN).stdout
    session = recording[recording.find(b"\n") + 1 : recording.rfind(b"calls\n")]
    check("a loop that a thread wakes", recording.endswith(b"calls\ncall a 0.0\nclosed a 0.0\nend\n"), "got %r" % recording)
    try_script(uvt, "its trace", session + b"trace\n", 2 * WOKEN_TRACE)
    with open("/dev/full", "wb") as full:
        ended = subprocess.run([uvt, "live"], input=TICKING, stdout=full, stderr=subprocess.PIPE)
    check("a live run and a full disk", (ended.returncode, ended.stderr) == (4, b"uvt: write failed\n"), "got %r" % ended.stderr)
    for number in range(40):
        wrong = lives.try_run(uvt, number)
        check("live run %d" % number, wrong is None, wrong or "")


def try_stored(uvt):
    for path in sorted(glob.glob(os.path.join(HERE, "*", "*.uvt")) + glob.glob(os.path.join(HERE, "*", "*.rec"))):
        with open(path, "rb") as file, open(path[:-4] + ".out", "rb") as wanted:
            text, due, what = file.read(), wanted.read(), os.path.basename(path)
        bad_line = re.fullmatch(b"uvt: bad script line ([0-9]+)\n", due)
        if path.endswith(".uvt"):
            try_conversation(uvt, what, text, int(bad_line[1]) if bad_line else None, due)
        elif bad_line:
            try_bad_line(uvt, what, text, int(bad_line[1]))
        else:
            try_verdict(uvt, what, text, due)


def try_cases(uvt):
    for case in cases.all_cases():
        ended = run(uvt, ["debug"], case.text.encode())
        wrong = case.wrong_on_uvt(ended.stdout.decode())
        if ended.returncode != 0:
            wrong.append("status %d, errors %r" % (ended.returncode, ended.stderr))
        check("a case of libuv, " + case.name(), not wrong, "; ".join(wrong))


def try_scripts(uvt):
    for at, (text, line, _) in enumerate(scripts.bad_scripts(), 1):
        try_conversation(uvt, "bad script %d" % at, scripts.begun(text), line, b"")
    for what, text, line, _ in scripts.LIMITS:
        if is_proved(os.path.dirname(uvt)) or len(text) < 2**20:
            try_conversation(uvt, what, scripts.begun(text), line, b"")
        else:
            print("program: %s: not tried, since the program before its proofs is too slow for it" % what, flush=True)
    for what, text, output in scripts.COMMANDS:
        try_conversation(uvt, what, text, None, output)
    for at, (script, text) in enumerate(scripts.TEXTS, 1):
        for written in (script, text):
            try_conversation(uvt, "the text of script %d" % at, scripts.begun(written) + b"record\n", None, scripts.recorded(text))


def try_conversation(uvt, what, text, bad_line, output):
    ended = run(uvt, ["debug"], text)
    real = (ended.returncode, ended.stdout, ended.stderr)
    due = (0, output, b"") if bad_line is None else (2, b"", b"uvt: bad script line %d\n" % bad_line)
    check(what, real == due, "wanted %r, got %r" % (due, real))


def try_faults(uvt):
    ended = run(uvt, ["debug"], b"var a\nmain start b 1 0\nbegin\n")
    real = (ended.returncode, ended.stdout, ended.stderr)
    check("a bad script", real == (2, b"", b"uvt: bad script line 2\n"), "got %r" % (real,))
    for word in ("debug", "replay", "live"):
        folder = os.open(HERE, os.O_RDONLY)
        ended = subprocess.run([uvt, word], stdin=folder, stdout=subprocess.PIPE, stderr=subprocess.PIPE)
        os.close(folder)
        real = (ended.returncode, ended.stdout, ended.stderr)
        check("%s of a folder" % word, real == (4, b"", b"uvt: read failed\n"), "got %r" % (real,))
    with open("/dev/full", "wb") as full:
        ended = subprocess.run([uvt, "debug"], input=b"begin\nloop\n", stdout=full, stderr=subprocess.PIPE)
    check("a full disk", (ended.returncode, ended.stderr) == (4, b"uvt: write failed\n"), "got %r" % ended.stderr)
    try_endless_line(uvt)
    try_long_commands(uvt)
    try_file_limit(uvt)


def try_endless_line(uvt):
    """A line without an end is refused as its 257th byte comes: the input is endless, the memory and the time are not."""
    for word in ("debug", "replay", "live"):
        with open("/dev/zero", "rb") as zeros:
            # (it is ended before its memory is what the machine has)
            started = subprocess.Popen([uvt, word], stdin=zeros, stdout=subprocess.PIPE, stderr=subprocess.PIPE)
            written, said = talked(started, seconds=120)
        real = (started.returncode, written, said)
        check("%s of a line without an end" % word, real == (2, b"", b"uvt: bad script line 1\n"), "got %r" % (real,))


def most_memory(uvt, text):
    """The output of a conversation, and the most memory in KB of its own that its process had."""
    program = (
        'import resource, subprocess, sys; subprocess.run([sys.argv[1], "debug"], check=True); '
        "print(resource.getrusage(resource.RUSAGE_CHILDREN).ru_maxrss, file=sys.stderr)"
    )
    ended = subprocess.run([sys.executable, "-c", program, uvt], input=text, stdout=subprocess.PIPE, stderr=subprocess.PIPE, check=True)
    return ended.stdout, int(ended.stderr.split()[-1])


def try_long_commands(uvt):
    """A command of any length is a bad one, and nothing of it is kept. What follows its line feed is the next one."""
    front = b"begin\n"
    lines = [256 * b"x", 257 * b"x", b"#" + 255 * b"y", b"#" + 256 * b"y", 4096 * b"z", 4097 * b" ", b"tick 1", 8192 * b"#", 300 * b"state "]
    due = [b"bad command", b"bad command", None, b"bad command", b"bad command", b"bad command", b"out tick 1", b"bad command", b"bad command"]
    wanted = b"".join(line + b"\n" for line in due if line)
    for feed in (b"\n", b""):
        written = run(uvt, ["debug"], front + b"\n".join(lines) + feed).stdout
        check("commands of more than 256 bytes", written == wanted, "got %r" % written)
    little = most_memory(uvt, front + b"tick 1\n")
    much = most_memory(uvt, front + 16 * 1024 * 1024 * b"x" + b"\ntick 1\n")
    check("a command of 16 MiB", much[0] == b"bad command\nout tick 1\n", "got %r" % much[0][:200])
    check("its memory", much[1] < little[1] + 8 * 1024, "%d KB, and %d KB without it" % (much[1], little[1]))


def try_file_limit(uvt):
    """A write past the limit of a file's size (ulimit -f) is a failed write: the launcher has no signal end the program."""
    text = b"var t\nmain init t timer\nbegin\nloop\n" + 100 * b"state\n"
    whole = run(uvt, ["debug"], text).stdout
    with tempfile.TemporaryFile() as page:
        ended = subprocess.run(
            [uvt, "debug"],
            input=text,
            stdout=page,
            stderr=subprocess.PIPE,
            preexec_fn=lambda: resource.setrlimit(resource.RLIMIT_FSIZE, (4096, 4096)),
        )
        page.seek(0)
        written = page.read()
    real = (ended.returncode, ended.stderr, len(written), whole.startswith(written))
    check("a file that may not grow", real == (4, b"uvt: write failed\n", 4096, True), "got %r" % (real,))


def give_built(folder):
    """Gives the copy the program that this repository's launcher has built, with the lists of what it was built from."""
    shutil.rmtree(os.path.join(folder, "out"), ignore_errors=True)
    for crate in ("uvt", "uvt_find"):
        shutil.copytree(os.path.join(ROOT, "out", crate), os.path.join(folder, "out", crate))


def give(folder, program, crate="uvt"):
    """Gives the copy this program of a crate, as if it had been built of the sources there."""
    script = 'say() { echo "$1" >&2; }; fail() { say "$1"; exit 1; }; . "$root/tools/launch/kept.sh"; mkdir -p "$kept"; list_sources; keep "$1"'
    subprocess.run(
        ["sh", "-c", script, "sh", os.path.abspath(program)],
        check=True,
        env={**os.environ, "root": folder, "crate": crate, "kept": os.path.join(folder, "out", crate)},
    )


def is_proved(folder):
    with open(os.path.join(folder, "out", "uvt", "uvt"), "rb") as file:
        return b"rattle logic=" in file.read()


def try_packages(uvt, folder, room):
    if not is_proved(folder):
        TRIES.leave_out("the packages", "the program is none that was proved")
        return
    packages = subprocess.run([os.path.join(folder, "tests", "package", "run")], stdout=subprocess.PIPE, stderr=subprocess.STDOUT)
    check("the packages", packages.returncode == 0, packages.stdout.decode())
    for line in packages.stdout.decode().splitlines()[:-1]:
        print(line, flush=True)


def try_pages(uvt, folder):
    for path in [os.path.join(folder, "README.md")] + sorted(glob.glob(os.path.join(folder, "docs", "*.md"))):
        page = os.path.relpath(path, folder)
        for line, script, wanted in scripts_of(path):
            try_script(uvt, "%s:%d" % (page, line), script.encode(), wanted.encode())
        for line, name, shown in excerpts_of(path):
            with open(os.path.join(folder, "examples", name + ".out"), encoding="ascii") as output:
                try_excerpt("%s:%d" % (page, line), shown, output.read())


def try_examples(uvt, folder):
    for path in sorted(glob.glob(os.path.join(folder, "examples", "*.uvt"))):
        with open(path, "rb") as script, open(path[:-4] + ".out", "rb") as wanted:
            text, what = script.read(), "examples/" + os.path.basename(path)
            try_script(uvt, what, text, wanted.read())
            try_record(uvt, what, text)
    for path in sorted(glob.glob(os.path.join(folder, "examples", "*.rec"))):
        with open(path, "rb") as recording, open(path[:-4] + ".out", "rb") as wanted:
            try_verdict(uvt, "examples/" + os.path.basename(path), recording.read(), wanted.read())
    with open(os.path.join(folder, "examples", "sent-session.rec"), "rb") as file:
        session = file.read()
    try_beginnings(uvt, session)
    try_changed_lines(uvt, session)
    with open(os.path.join(HERE, "recordings", "a-request-that-is-cancelled-twice.rec"), "rb") as file:
        try_beginnings(uvt, file.read())


def try_refused(uvt, folder, room):
    if not is_proved(folder):
        TRIES.leave_out("refused allocations", "those of the program before its proofs are not those of the C library")
        return
    check("a C compiler", shutil.which("cc") is not None, "there is no `cc`, so no allocation was refused")
    tries = os.path.join(ROOT, "crates", "tries_again", "out", "tries_again")
    check("tries_again", os.access(tries, os.X_OK), "it isn't built: rt run in its crate builds it, and so does rt ci")
    refused = subprocess.run(
        [os.path.join(folder, "tests", "refused-allocations", "run")], stdout=subprocess.PIPE, env={**os.environ, "TRIES": tries}
    )
    check("refused allocations", refused.returncode == 0, refused.stdout.decode())


def try_calls(uvt, folder, room):
    """The program and the launcher, called in many ways."""
    try_pages(uvt, folder)
    try_open_pipe(uvt)
    try_terminal(uvt, folder)
    try_stored(uvt)
    images.try_images(check, uvt)
    try_scripts(uvt)
    try_cases(uvt)
    try_live(uvt)
    try_faults(uvt)
    called.try_words(check, uvt)
    called.try_files(check, uvt, room)
    called.try_recordings(check, uvt, room)
    called.try_terminal(check, uvt, room)


def try_texts(uvt, folder, room):
    """What the files say of one another."""
    try_claims(folder)
    names.try_names(check, folder)
    asked.try_asked(check, folder)
    try_by_hand()
    left = reached.wrong()
    check("what no program calls", not left, "\n".join(left))
    widths.try_widths(check, folder)


# Each with the launcher of a copy that has its programs, the copy, and a folder. Those that take longest come first.
PARTS = {
    "pages": lambda uvt, folder, room: pages.try_commands(check, folder, room, is_proved(folder)),
    "refused": try_refused,
    "packages": try_packages,
    "reasons": lambda uvt, folder, room: called.try_reasons(check, uvt, room),
    "calls": try_calls,
    "examples": lambda uvt, folder, room: try_examples(uvt, folder),
    "launcher": lambda uvt, folder, room: launcher.try_with_stand_in(check, os.path.join(folder, "out", "uvt", "uvt")),
    "texts": try_texts,
}
LONGEST = 3


def calls_of(folder, parts):
    """Parts, each as a call of its runner: these of the program, or all of them and those of the tools."""
    own = [[os.path.join(HERE, "run"), "--copy", folder, it] for it in PARTS if not parts or it in parts]
    if parts:
        return own
    words = [os.path.join(folder, "tests", "tools", "run"), "--program", os.path.join(folder, "out", "uvt", "uvt")]
    others = [[*words, it] for it in tools.in_order(tools.PARTS)]
    many = len(tools.LONGEST)
    return own[:LONGEST] + others[:many] + own[LONGEST:] + others[many:]


def try_part(name, folder):
    with tempfile.TemporaryDirectory(prefix="uvt-program-") as room:
        PARTS[name](os.path.join(folder, "uvt"), folder, room)


def try_all(folder, parts, jobs):
    again = run(os.path.join(folder, "uvt"), ["debug"], b"begin\n")
    check("a built program starts at once", again.stderr == b"", "errors %r" % again.stderr)
    if not TRIES.failed:
        side_by_side(TRIES, calls_of(folder, parts), jobs)


def try_claims(folder):
    ended = limited([os.path.join(folder, "tools", "make", "claims"), "--check"], stdout=subprocess.PIPE, stderr=subprocess.PIPE)
    check("the page of claims", ended.returncode == 0, ended.stderr.decode("utf-8", "replace").strip())


def try_by_hand():
    """What tests by hand begin with: whether their edits can be applied. (Whether they pass, only they say.)"""
    with tempfile.TemporaryDirectory(prefix="uvt-plain-") as copy:
        fault = ""
        try:
            build.copy_to(copy)
            build.name_plain(copy)
        except SystemExit as why:
            fault = str(why)
        check("the program over the plain loop", not fault, fault)
    for words in (["tests/order/run", "--look"], ["tests/edits/run", "--look"]):
        ended = limited([os.path.join(ROOT, words[0]), *words[1:]], stdout=subprocess.PIPE, stderr=subprocess.STDOUT)
        check(" ".join(words), ended.returncode == 0, ended.stdout.decode("utf-8", "replace").strip())


def asked_for():
    """The words of this call."""
    reader = argparse.ArgumentParser(description=__doc__, formatter_class=argparse.RawDescriptionHelpFormatter)
    reader.add_argument("--built", action="store_true", help="over the program and the search that the launcher has built")
    reader.add_argument("--program", metavar="PATH", help="over this program")
    reader.add_argument("--search", metavar="PATH", help="and this search")
    reader.add_argument("--copy", metavar="FOLDER", help="over a copy of the repository that has both; its parts one behind the other")
    reader.add_argument("-j", dest="jobs", metavar="N", type=int, default=AT_ONCE, help="so many parts at a time, now %d without it" % AT_ONCE)
    reader.add_argument("parts", nargs="*", metavar="PART", help="only these parts, of %s" % ", ".join(PARTS))
    asked = reader.parse_args()
    for path in filter(None, (asked.program, asked.search)):
        if not os.path.isfile(path):
            reader.error("there is no file %s" % path)
    for name in asked.parts:
        if name not in PARTS:
            reader.error("there is no part %s: they are %s" % (name, ", ".join(PARTS)))
    if asked.built + bool(asked.program) + bool(asked.copy) > 1 or asked.search and not asked.program:
        reader.error("--built and --copy have both programs, and --search stands beside --program")
    return asked


def give_asked(words, folder, room):
    """Gives the copy its programs; without any they are built."""
    if words.program:
        TRIES.leave_out("the launcher with the kit", "these programs were given as built")
        give(folder, words.program)
    else:
        launcher.try_with_kit(check, folder, room)
    if words.search:
        give(folder, words.search, "uvt_find")
    if words.built:
        give_built(folder)
    elif not words.program:
        built = subprocess.run([os.path.join(folder, "uvt"), "build"])
        check("the launcher builds", built.returncode == 0, "status %d" % built.returncode)


def main():
    words = asked_for()
    for crate, word in (("uvt", "build"), ("uvt_find", "build find")):
        if words.built and not os.path.exists(os.path.join(ROOT, "out", crate, "sums")):
            check("the program %s is built" % crate, False, "there is none: ./uvt %s proves and builds it" % word)
            return TRIES.end()
    if words.copy:
        for name in words.parts or PARTS:
            try_part(name, words.copy)
        return TRIES.end()
    room = tempfile.mkdtemp(prefix="uvt-program-")
    folder = os.path.join(room, "copy")
    try:
        copy_to(folder)
        give_asked(words, folder, room)
        try_all(folder, words.parts, words.jobs)
    finally:
        shutil.rmtree(room, ignore_errors=True)
    return TRIES.end()
