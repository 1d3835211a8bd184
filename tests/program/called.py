"""Tries what the launcher adds to the program's words: files, standard input, a terminal, and why a line is bad."""
import os
import pty
import select
import shutil
import signal
import subprocess
import tempfile
import time
from typing import Any, List, Tuple

HERE = os.path.dirname(os.path.realpath(__file__))
ROOT = os.path.dirname(os.path.dirname(HERE))

from launch import bad_line, reasons
from tests.helper import Check, limited, run, waited
from tests.program import scripts

BAD_COMMAND = b"uvt: bad command line\n"
SCRIPT = b"var t\nmain init t timer\nbegin\nloop\n"
# A plain file whose first byte can't be read, whoever asks.
UNREADABLE = "/proc/1/mem"


def same(check: Check, what: str, real: object, due: object) -> None:
    check(what, real == due, "wanted %r, got %r" % (due, real))


# Words that are no command line, and what the launcher says of them behind the program's own line: the beginning of its text.
HELPED: List[Tuple[List[Any], bytes]] = [
    ([], b"uvt runs a script"),
    (["debug", "help"], b"uvt: there is no file help\n"),
    (["run"], b"uvt: the words may be: "),
    (["--version"], b"uvt: the words may be: "),
    (["debug", "--help"], b"uvt: the words may be: "),
    (["debug", "no-such-file"], b"uvt: there is no file no-such-file\nuvt: the words may be: "),
    (["replay", "no-such-file"], b"uvt: there is no file no-such-file\n"),
    (["live", "more"], b"uvt: there is no file more\n"),
    (["live", "--workers", "2", "none"], b"uvt: there is no file none\n"),
    (["debug", "/"], b"uvt: / is a folder, and no file\n"),
    (["replay", "/dev/null"], b"uvt: /dev/null: this file cannot be taken as input"),
    (["debug", b"\xff"], b"uvt: there is no file \xff\n"),
    ([b"\xff"], b"uvt: the words may be: "),
    ([b"debug\xff"], b"uvt: the words may be: "),
    ([""], b"uvt runs a script"),
    (["build", "x"], b"uvt: the words may be: "),
    (["install"], b"uvt: the words may be: "),
    (["kept"], b"uvt: the words may be: "),
    (["../tools/uvt/uvt-why"], b"uvt: the words may be: "),
    (["live", "--workers=2", "--workers=2"], b"uvt: the words may be: "),
    (["debug", "--workers=2"], b"uvt: the words may be: "),
    (["live", "--workers"], b"uvt: the words may be: "),
    (["live", "--help"], b"uvt: the words may be: "),
]
# The same of words that only the program knows to be none: it has the only line.
REFUSED = [["live", "--workers", "0"], ["live", "--workers", "1025"], ["live", "--workers=04"]]


def try_words(check: Check, uvt: str) -> None:
    for words, said in HELPED:
        status, output, errors = run([uvt] + words, SCRIPT)
        check("the words %r" % words, (status, output) == (2, b"") and errors.startswith(BAD_COMMAND + said), "got %r" % errors)
    for words in REFUSED:
        same(check, "the words %r" % words, run([uvt] + words, SCRIPT), (2, b"", BAD_COMMAND))
    with open(os.path.join(ROOT, "tools", "launch", "usage"), "rb") as usage:
        text = usage.read()
    for words in (["help"], ["-h"], ["--help"], ["help", "nothing"]):
        same(check, "the usage alone, by %r" % words, run([uvt] + words), (0, text, b""))
    same(check, "help of a tool", run([uvt, "help", "why"]), run([uvt, "why", "--help"]))
    search = os.path.join(os.path.dirname(uvt), "out", "uvt_find", "uvt_find")
    if os.path.exists(search):
        same(check, "the path of the search", run([uvt, "path", "find"]), (0, search.encode() + b"\n", b""))
    tools = sorted(it[4:] for it in os.listdir(os.path.join(ROOT, "tools", "uvt")) if it.startswith("uvt-"))
    same(check, "the usage names each tool", [it for it in tools if b"./uvt %s " % it.encode() not in text], [])
    for it in tools:
        status, output, errors = run([uvt, it, "--help"])
        check("%s --help" % it, status == 0 and output.startswith(b"usage: ") and not errors, "got %r" % ((status, output, errors),))


def try_recordings(check: Check, uvt: str, folder: str) -> None:
    """A recording that is given for a script: it is said what it is, and what to do with it."""
    path = os.path.join(folder, "session.rec")
    shutil.copy(os.path.join(ROOT, "examples", "sent-session.rec"), path)
    for word in ("debug", "live"):
        status, output, errors = run([uvt, word, path], b"loop\n")
        check(
            "%s of a recording" % word,
            (status, output) == (2, b"")
            and errors.startswith(b"uvt: this is a recording, and no script: ")
            and errors.count(b"\n") == 1
            and b" shell %s`" % path.encode() in errors,
            "got %r" % ((status, output, errors),),
        )
        with open(path, "rb") as file:
            ended = limited([uvt, word], stdin=file, stdout=subprocess.PIPE, stderr=subprocess.PIPE)
        check(
            "%s of a recording, redirected" % word,
            (ended.returncode, ended.stdout) == (2, b"")
            and ended.stderr.startswith(b"uvt: bad script line 1\nuvt: this is a recording, and no script: "),
            "got %r" % ended.stderr,
        )


def at_terminal(words: List[str], typed: List[bytes]) -> "tuple[int, bytes, bytes]":
    """What is printed, and what is written to standard error, where these lines are typed at a terminal."""
    ours, theirs = pty.openpty()
    with tempfile.TemporaryFile() as output, tempfile.TemporaryFile() as errors:
        call = subprocess.Popen(words, stdin=theirs, stdout=output, stderr=errors, start_new_session=True)
        os.close(theirs)
        # (the terminal keeps what comes before it is read)
        os.write(ours, b"".join(typed))
        status = waited(call)
        os.close(ours)
        output.seek(0)
        errors.seek(0)
        return status, output.read(), errors.read()


def interrupted(words: List[str], typed: bytes, moment: float) -> "tuple[int, bytes]":
    """The status where Ctrl-C is typed behind this, or so many seconds behind the first word, and what the terminal shows then."""
    child, terminal = pty.fork()
    if child == 0:
        # (what is started in the background may have interrupts ignored)
        signal.signal(signal.SIGINT, signal.SIG_DFL)
        os.execv(words[0], words)
    seen, again = b"", 0.0
    try:
        while b"you may type" not in seen:
            seen += os.read(terminal, 4096)
        time.sleep(moment)
        os.write(terminal, typed)
        while typed and b"call i" not in seen:
            seen += os.read(terminal, 4096)
        while True:
            # (one that comes while Python starts is passed over: then somebody types another one)
            if time.monotonic() >= again:
                os.write(terminal, b"\x03")
                again = time.monotonic() + 10
            if select.select([terminal], [], [], 1)[0]:
                seen += os.read(terminal, 65536)
    except OSError:
        # (the terminal's other side is closed)
        pass
    os.close(terminal)
    return os.waitstatus_to_exitcode(os.waitpid(child, 0)[1]), seen


# What is typed behind a script with one name `t`, and what is said of it behind the program's `bad command`.
MISTYPED = [
    (b"lop", b"`lop` is no command: did you mean `loop`?"),
    (b"nonsense", b"`nonsense` is no command; help has them all"),
    (b"loop 0", b"`0` is out of range: N is 1 to 16777216"),
    (b"back 16777217", b"`16777217` is out of range: N is 0 to 16777216"),
    (b"take x", b"`x` is no number: digits alone, with no sign and no zero in front"),
    (b"take 65536", b"`65536` is out of range: K is 0 to 65535"),
    (b"tick", b"the command has the form `tick MS`"),
    (b"rback 1", b"the command has the form `rback`"),
    (b"send u", b"`u` is no name of the script"),
    (b"io t", b"`io NAME` is the callback of a handle of I/O, and the script has no line `io`"),
    (b"break call u", b"`u` is no name of the script"),
    (b"break code EBUZY", b"`EBUZY` is none of ok, EINVAL, EBUSY, ECANCELED, EBOUND, EFULL, ESTALE, EKIND"),
    (b"break section timer", b"`timer` is none of pending, idle, prepare, poll, done, async, check, closing, timers"),
    (b"break", b"the command has the form `break call NAME` or `break code CODE` or `break section WORD` or `break clear`"),
    (b"main now", b"`main` is a line of a script, and the script has ended with `begin`"),
    (b"loop  1", b"fields are separated by one space, and no line begins or ends with one"),
    (b"#" + 256 * b"x", b"a line has at most 256 bytes, and this one has 257"),
]


def try_terminal(check: Check, uvt: str, folder: str) -> None:
    """What somebody meets who types: why a line is bad, at once; help; the rest is the program's."""
    status, output, errors = at_terminal(
        [uvt, "debug"],
        [b"var t\n", b"main stat t\n", b"help\n", b"main stop u\n", b"main init t timer\n", b"begin\n", b"loop\n", b"help\n", b"loop\n", b"quit\n"],
    )
    same(check, "a script that is typed", (status, output), (0, b"init t timer = 0.0\nrefused ended\n"))
    said = errors.decode().splitlines()
    for due in ("`stat` is no op", "`u` isn't declared before this line"):
        check("a bad line that is typed: " + due, "uvt: line 2 isn't taken: " + due in said, "got %r" % said)
    for due in ("  main OP  ", "  rback  "):
        check("help, with the line %s" % due.strip(), sum(it.startswith(due) for it in said) == 1, "got %r" % said)
    script = os.path.join(folder, "typed.uvt")
    with open(script, "wb") as file:
        file.write(SCRIPT)
    status, output, errors = at_terminal([uvt, "debug", script], [line + b"\n" for line, _ in MISTYPED] + [b"back 1\n", b"\x04"])
    same(check, "bad commands that are typed", (status, output), (0, b"init t timer = 0.0\n" + len(MISTYPED) * b"bad command\n" + b"at 0\n"))
    same(check, "why they are bad", [it for it in errors.splitlines() if b"you may type" not in it], [b"uvt: " + why for _, why in MISTYPED])
    with open(script, "wb") as file:
        file.write(b"var a\nmain stop b\nbegin\n")
    status, output, errors = at_terminal([uvt, "debug", script], [b"loop\n"])
    check(
        "a bad file at a terminal",
        (status, output) == (2, b"")
        and errors.endswith(b"\nuvt: bad script line 2\nuvt: line 2 is: main stop b\nuvt: `b` isn't declared before this line\n"),
        "got %r" % errors,
    )
    with open(script, "wb") as file:
        file.write(b"var i\nmain init i idle\nmain start i\nmain run default\nbegin\nloop 20000\n")
    status, output, errors = at_terminal([uvt, "debug", script], [b"back 20000\n", b"\x04"])
    check("a long answer at a terminal", status == 0 and output.count(b"\n") > 10000 and output.endswith(b"\nat 0\n"), "got %r" % output[-100:])
    with open(script, "wb") as file:
        file.write(b"var i\nmain init i idle\nmain start i\nmain run default\nbegin\n")
    for typed, moment in ((b"", 0.0), (b"", 0.03), (b"", 0.1), (b"", 0.3), (b"", 1.0), (b"loop 16000000\n", 0.0)):
        status, seen = interrupted([uvt, "debug", script], typed, moment)
        what = "Ctrl-C behind %r, %g s" % (typed, moment)
        check(what, status in (130, -signal.SIGINT) and b"Traceback" not in seen, "status %d, seen %r" % (status, seen[-300:]))
    same(check, "a script that ends without begin", at_terminal([uvt, "debug"], [b"var t\n", b"\x04"])[:2], (2, b""))


def try_files(check: Check, uvt: str, folder: str) -> None:
    """The three commands with FILE are the same with FILE as their input."""
    recording = os.path.join(ROOT, "examples", "sent-session.rec")
    changed = os.path.join(ROOT, "examples", "changed-program.rec")
    script = os.path.join(folder, "a script.uvt")
    with open(script, "wb") as file:
        file.write(SCRIPT)
    same(check, "replay FILE", run([uvt, "replay", recording]), (0, b"same\n", b""))
    same(check, "replay of a changed FILE", run([uvt, "replay", changed]), (3, b"differs at 1\n", b"uvt: differs at 1\n"))
    same(check, "debug FILE", run([uvt, "debug", script], b"loop\n"), (0, b"init t timer = 0.0\nrefused ended\n", b""))
    same(check, "debug with the end of the options", run([uvt, "debug", "--"], SCRIPT), (0, b"init t timer = 0.0\n", b""))
    same(check, "debug with it and FILE", run([uvt, "debug", "--", script]), (0, b"init t timer = 0.0\n", b""))
    same(check, "debug of two files", run([uvt, "debug", script, script])[0], 2)
    for word in ("debug", "replay", "live"):
        status, output, errors = run([uvt, word, UNREADABLE], SCRIPT)
        check(
            "%s of a file that cannot be read" % word,
            (status, output) == (2, b"") and b"cannot be taken as input" in errors,
            "got %r" % ((status, output, errors),),
        )
        closed = subprocess.run(["sh", "-c", 'exec "$@" <&-', "sh", uvt, word], stdout=subprocess.PIPE, stderr=subprocess.PIPE)
        same(check, "%s of a closed input" % word, (closed.returncode, closed.stdout, closed.stderr), (4, b"", b"uvt: read failed\n"))
    closed = subprocess.run(["sh", "-c", 'exec "$@" <&-', "sh", uvt, "debug", script], stdout=subprocess.PIPE, stderr=subprocess.PIPE)
    same(check, "debug FILE with a closed input", (closed.returncode, closed.stdout, closed.stderr), (0, b"init t timer = 0.0\n", b""))
    status, output, errors = run([uvt, "live", script])
    check("live FILE", (status, errors) == (0, b"") and output.startswith(b"uvt 2\norder 1.45\nworkers 4\n"), "got %r" % ((status, output, errors),))
    for words in (["live", "--workers", "3", script], ["live", script, "--workers", "3"], ["live", "--workers=3", script]):
        status, output, errors = run([uvt] + words)
        check("live with workers and FILE", (status, errors) == (0, b"") and output.startswith(b"uvt 2\norder 1.45\nworkers 3\n"), "got %r" % errors)


# The rest of the rows of reasons.py, each with the whole sentence: the command's word, its input, the bad line, the row, the sentence.
TOLD = [
    ("debug", b"main run default\n", 2, "begin", b"the line `begin` is missing, which ends the script"),
    ("debug", b"#" + 256 * b"a" + b"\nbegin\n", 1, "long", b"a line has at most 256 bytes, and this one has 257"),
    ("debug", b"var a\r\nbegin\r\n", 1, "byte", b"it has a byte that no line may have: a carriage return, as in the line ends of Windows"),
    ("debug", b"#\tx\nbegin\n", 1, "byte", b"it has a byte that no line may have: a tab"),
    ("debug", "# é\nbegin\n".encode(), 1, "byte", b"it has a byte that no line may have: one of a character beyond ASCII"),
    ("debug", b"main stop a\nvar a\nbegin\n", 1, "undeclared", b"`a` isn't declared before this line, but only in line 2"),
    ("debug", b"var a\nmain stop b\nbegin\n", 2, "undeclared", b"`b` isn't declared before this line"),
    ("debug", b"workers 4\n\nworkers 4\nbegin\n", 3, "second", b"a second `workers`: a script has it once at most, and line 1 is the first"),
    ("debug", b"var a\non a run once\nbegin\n", 2, "main", b"`run` is an op of the main program alone: `main run ..`"),
    ("debug", b"var a\nmain fly a\nbegin\n", 2, "op", b"`fly` is no op"),
    ("debug", b"var a\nmain queue a 1001 x\nbegin\n", 2, "range", b"`1001` is out of range: ROUNDS is 1 to 1000"),
    ("live", b"workers 0\n", 1, "range", b"`0` is out of range: N is 1 to 1024"),
    ("debug", b"var a\nvar a\nbegin\n", 2, "twice", b"`a` is declared already, in line 1"),
    (
        "debug",
        b"let a\nbegin\n",
        1,
        "word",
        b"no line begins with `let`; the first word is order, io, timers, slots, workers, var, main, on, after, closed, thread or begin",
    ),
    ("debug", b"var a\nmain init a pipe\nbegin\n", 2, "kind", b"`pipe` is no kind of handle: timer, idle, prepare, check, async or io"),
    (
        "debug",
        b"var a\nmain init a io\nio\nbegin\n",
        2,
        "made",
        b"the line `io` has to stand before it: `init NAME io` makes a handle of I/O, which only a script with that line has",
    ),
    ("debug", b"timers late\nbegin\n", 1, "exact", b"`late` stands where `heap` has to: the line has the form `timers heap`"),
    ("debug", b"timers\nbegin\n", 1, "few", b"something is missing: the line has the form `timers heap`"),
    ("debug", b"io on\nbegin\n", 1, "many", b"`on` is too much: the line has the form `io`"),
    ("debug", b"io\ntimers heap\nio\nbegin\n", 3, "second", b"a second `io`: a script has it once at most, and line 1 is the first"),
    ("replay", b"uvt 4\nbegin\ncalls\nend\n", 1, "format", b"a recording begins with the line `uvt 1`, `uvt 2` or `uvt 3`"),
    (
        "replay",
        b"uvt 2\nvar a\nmain init a io\nbegin\ncalls\nend\n",
        3,
        "old",
        b"a recording that begins with `uvt 2` has no line `io`: its script has no handles of I/O",
    ),
    (
        "replay",
        b"uvt 2\nio\nbegin\ncalls\nend\n",
        2,
        "old",
        b"a recording that begins with `uvt 2` has no line `io`: its script has no handles of I/O",
    ),
    (
        "replay",
        b"uvt 1\ntimers heap\nbegin\ncalls\nend\n",
        2,
        "old",
        b"a recording that begins with `uvt 1` has no line `timers`: its due timers are set aside, all of them, before the first is called",
    ),
    (
        "replay",
        b"uvt 3\nvar a\nmain init a io\nio\nbegin\ncalls\nend\n",
        3,
        "made",
        b"the line `io` has to stand before it: `init NAME io` makes a handle of I/O, which only a script with that line has",
    ),
    (
        "replay",
        b"uvt 3\ntimers heap\nvar a\nbegin\nio a\ncalls\nend\n",
        5,
        "outside",
        b"`io NAME` is the callback of a handle of I/O, and the script has no line `io`",
    ),
    (
        "replay",
        b"uvt 2\nvar a\nbegin\nio a\ncalls\nend\n",
        4,
        "outside",
        b"`io NAME` is the callback of a handle of I/O, and the script has no line `io`",
    ),
    ("replay", b"uvt 3\nio\nvar a\nbegin\nio b\ncalls\nend\n", 5, "undeclared", b"`b` isn't declared before this line"),
    (
        "replay",
        b"uvt 1\norder 1.45\nbegin\ncalls\nend\n",
        2,
        "old",
        b"a recording that begins with `uvt 1` has no line `order`: its runs are in the order of 1.45",
    ),
    ("replay", b"uvt 2\norder 1.43\nbegin\ncalls\nend\n", 2, "version", b"`1.43` is no version of an order: 1.44 or 1.45"),
    ("debug", b"order 1.44\n# once\norder 1.44\nbegin\n", 3, "second", b"a second `order`: a script has it once at most, and line 1 is the first"),
    (
        "replay",
        b"uvt 1\nvar A\nbegin\ncalls\nend\n",
        2,
        "name",
        b"`A` is no name: a lower case letter, and then up to 31 lower case letters, digits or _",
    ),
    ("replay", b"uvt 1\nvar a\n", 3, "begin", b"the line `begin` is missing, which ends the script"),
    (
        "replay",
        b"uvt 1\nbegin\nback 1\ncalls\nend\n",
        3,
        "step",
        b"between `begin` and `calls` each line is a step: loop, take K, finish K, cancel NAME, send NAME, tick MS or io NAME",
    ),
    ("replay", b"uvt 1\nbegin\nloop 5\ncalls\nend\n", 3, "many", b"`5` is too much: the line has the form `loop`"),
    ("replay", b"uvt 1\nbegin\ntake 65536\ncalls\nend\n", 3, "range", b"`65536` is out of range: K is 0 to 65535"),
    ("replay", b"uvt 1\nvar a\nbegin\nsend b\ncalls\nend\n", 4, "undeclared", b"`b` isn't declared before this line"),
    ("replay", b"uvt 1\nbegin\nloop\n", 4, "calls", b"the line `calls` is missing, which ends the steps"),
    (
        "replay",
        b"uvt 1\nbegin\ncalls\nloop\nend\n",
        4,
        "callback",
        b"behind `calls` each line begins with `call `, `after ` or `closed `, and the last one is `end`",
    ),
    ("replay", b"uvt 1\nbegin\ncalls\n", 4, "end", b"the line `end` is missing, which ends the recording"),
    ("replay", b"uvt 1\nbegin\ncalls\nend\nend\n", 5, "behind", b"nothing may stand behind the line `end`"),
]


def shown(line: bytes) -> bytes:
    text = b"".join(bytes([byte]) if 0x20 <= byte <= 0x7E else b"\\x%02x" % byte for byte in line[:120])
    return text + (b" .." if len(line) > 120 else b"")


def try_bad_file(check: Check, uvt: str, path: str, what: str, told: "tuple[str, bytes, int, bytes]") -> bytes:
    """Of a bad line of a file the errors have the program's line, the line itself if there is one, and why. It gives them."""
    word, text, number, sentence = told
    with open(path, "wb") as file:
        file.write(text)
    lines = text.split(b"\n")
    due = b"uvt: bad script line %d\n" % number
    if number < len(lines):
        due += b"uvt: line %d is: %s\n" % (number, shown(lines[number - 1]))
    due += b"uvt: %s\n" % sentence
    with open(path, "rb") as file:
        ended = limited([uvt, word], stdin=file, stdout=subprocess.PIPE, stderr=subprocess.PIPE)
    same(check, what + ", redirected", (ended.returncode, ended.stdout, ended.stderr), (2, b"", due))
    return due


def try_reasons(check: Check, uvt: str, folder: str) -> None:
    path, seen = os.path.join(folder, "bad.uvt"), set()
    for at, (script, number, row) in enumerate(scripts.bad_scripts(), 1):
        text = scripts.begun(script)
        found = bad_line.why("debug", text.split(b"\n")[:-1], number)
        same(check, "why script %d of bad-scripts is bad" % at, found and found.row, row)
        if found:
            seen.add(found.row)
            try_bad_file(check, uvt, path, "bad script %d" % at, ("debug", text, number, found.sentence().encode()))
    for what, script, number, row in scripts.LIMITS:
        if number is not None:
            found = bad_line.why("debug", scripts.begun(script).split(b"\n")[:-1], number)
            same(check, "why it is bad: " + what, found and found.row, row)
            seen.add(row)
    for word, text, number, row, sentence in TOLD:
        what = "a bad line, %s" % row
        due = try_bad_file(check, uvt, path, what, (word, text, number, sentence))
        if number < len(text.split(b"\n")) or word == "replay":
            same(check, what + ", as FILE", run([uvt, word, path]), (2, b"", due))
        same(check, what + ", from a pipe", run([uvt, word], text), (2, b"", b"uvt: bad script line %d\n" % number))
        seen.add(row)
    same(check, "each row of the table of reasons is tried", sorted(seen), sorted(reasons.REASONS))
    with open(path, "wb") as file:
        file.write(b"var t\n")
    same(
        check,
        "a file without begin, and more behind it",
        run([uvt, "debug", path], b"none\nbegin\n"),
        (2, b"", b"uvt: bad script line 2\nuvt: %s has no line `begin`, so what came behind it was read as a part of the script\n" % path.encode()),
    )
