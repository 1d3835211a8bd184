"""Scripts as they are read: the first bad line of each that is none, and the text of each that is one; commands at a limit."""
import os

HERE = os.path.dirname(os.path.realpath(__file__))


def bad_scripts():
    """The file bad-scripts: each script, its first bad line, and the word for why it is bad."""
    with open(os.path.join(HERE, "bad-scripts"), encoding="ascii") as file:
        rows = [line.rstrip("\n").split(" ", 2) for line in file if not line.startswith("# ")]
    return [(text.encode().decode("unicode_escape").encode("latin-1"), int(number), why) for number, why, text in rows]


def lines(count, text):
    return b"".join(text(number) for number in range(count))


# What passes a limit by one line or one byte, the first bad line, and the word for why; None where the limit is just kept.
LIMITS = [
    ("a line of 256 bytes", b"#" + 255 * b"a", None, None),
    ("a line of 257 bytes", b"#" + 256 * b"a", 1, "long"),
    ("a name of 32 bytes", b"var " + 32 * b"a", None, None),
    ("a name of 33 bytes", b"var " + 33 * b"a", 1, "name"),
    ("65535 names", lines(65535, lambda number: b"var n%d\n" % number), None, None),
    ("65536 names", lines(65536, lambda number: b"var n%d\n" % number), 65536, "names"),
    (
        "1048575 lines, and some that do not count",
        lines(1048575, lambda number: b"main run once\n") + b"\n# none\nslots 9\nio\norder 1.44\ntimers heap\nworkers 9\n",
        None,
        None,
    ),
    (
        "1048575 lines, many of them of threads",
        b"var a\n" + lines(1048574, lambda number: b"thread %d send a\n" % (number % 64)) + b"workers 9\n",
        None,
        None,
    ),
    (
        "1048576 lines, many of them of threads",
        b"var a\n" + lines(1048574, lambda number: b"thread %d send a\n" % (number % 64)) + b"workers 9\nthread 0 send a\n",
        1048577,
        "lines",
    ),
    (
        "1048576 lines, and some that do not count",
        lines(1048575, lambda number: b"main run once\n") + b"\n# none\nslots 9\nio\norder 1.44\ntimers heap\nworkers 9\nmain run once\n",
        1048583,
        "lines",
    ),
]

# Commands at a limit, and what they are answered.
COMMANDS = [
    ("a comment of 256 bytes, and one of 257", b"begin\n#" + 255 * b"x" + b"\n#" + 256 * b"x", b"bad command\n"),
    (
        "256 breaks, and one more",
        b"begin\n" + 257 * b"break code ok\n" + b"break clear\nbreak section poll\n",
        256 * b"break ok\n" + b"refused limit\nbreak ok\nbreak ok\n",
    ),
    (
        "the state of 65535 names",
        lines(65535, lambda number: b"var n%d\n" % number) + b"begin\nstate\n",
        b"steps 0 now 0 clock 0 stop 0 next 0 idled 0\nplace main 0\n"
        + lines(65535, lambda number: b"name n%d none 0 0 0\n" % number)
        + b"free\nunused 1024\ntimers\nready\nidle\nidle-yet\nprepare\nprepare-yet\ncheck\ncheck-yet\nasync\nasync-yet\n"
        + b"closing\nclosing-yet\nwaiting\nrunning\ndone\ndone-yet\n",
    ),
]

# A script, and its text: order, io, timers, workers, slots, names, the main program, of each name its `on`, `after` and `closed` lines, and the
# `thread` lines as they came.
TEXTS = [
    (b"", b"order 1.45\nworkers 4\nslots 1024 4294967295\n"),
    (b"order 1.45", b"order 1.45\nworkers 4\nslots 1024 4294967295\n"),
    (b"var a\nworkers 3\nmain run once\n# late\norder 1.44", b"order 1.44\nworkers 3\nslots 1024 4294967295\nvar a\nmain run once\n"),
    (b"slots 7\nvar a\nworkers 2\nmain run default", b"order 1.45\nworkers 2\nslots 7 4294967295\nvar a\nmain run default\n"),
    (b"slots 1 4294967295\nworkers 1024", b"order 1.45\nworkers 1024\nslots 1 4294967295\n"),
    (b"workers 1\nslots 65536 0", b"order 1.45\nworkers 1\nslots 65536 0\n"),
    (b"slots 16777215\norder 1.44", b"order 1.44\nworkers 4\nslots 16777215 4294967295\n"),
    (
        b"var w\n# a comment\nclosed w now\nmain queue w 2  a \nvar t\non t @3 start t 5 0\nslots 65535 0\n\n"
        b"after w @1 cancel w\nmain run once\non w alive\non t close t\nmain closeloop\nafter w queue w 1000",
        b"order 1.45\nworkers 4\nslots 65535 0\nvar w\nvar t\nmain queue w 2  a \nmain run once\nmain closeloop\n"
        b"on w alive\nafter w @1 cancel w\nafter w queue w 1000\nclosed w now\non t @3 start t 5 0\non t close t\n",
    ),
    (
        b"# two timers\n\nvar tick\nmain init tick timer\nvar a_1\nmain start tick 5 18446744073709551615\n"
        b"on tick @4294967295 stop tick\non a_1 start tick 0 0\non tick init a_1 timer\n"
        b"main run default\nmain run once\nmain run nowait\nmain stop a_1",
        b"order 1.45\nworkers 4\nslots 1024 4294967295\nvar tick\nvar a_1\nmain init tick timer\nmain start tick 5 18446744073709551615\n"
        b"main run default\nmain run once\nmain run nowait\nmain stop a_1\n"
        b"on tick @4294967295 stop tick\non tick init a_1 timer\non a_1 start tick 0 0\n",
    ),
    # the ops of watchers, of references and of the loop, in the main program
    (
        b"var i\nvar t\nmain init i idle\nmain start i\nmain again t\nmain repeat t 18446744073709551615\nmain due t\nmain ref i\n"
        b"main unref i\nmain hasref i\nmain active i\nmain stoploop\nmain updatetime\nmain now\nmain alive\nmain timeout",
        b"order 1.45\nworkers 4\nslots 1024 4294967295\nvar i\nvar t\nmain init i idle\nmain start i\nmain again t\n"
        b"main repeat t 18446744073709551615\nmain due t\nmain ref i\nmain unref i\nmain hasref i\nmain active i\nmain stoploop\n"
        b"main updatetime\nmain now\nmain alive\nmain timeout\n",
    ),
    # the same in a callback, some in one call only
    (
        b"var i\nvar t\non i init t prepare\non i init t check\non i @7 start i\non i @1 again t\non i repeat t 0\non i @2 due t\n"
        b"on i ref t\non i unref t\non i hasref t\non i active t\non i stoploop\non i @3 updatetime\non i now\non i @4 alive\n"
        b"on i timeout\non i @5 stop i",
        b"order 1.45\nworkers 4\nslots 1024 4294967295\nvar i\nvar t\non i init t prepare\non i init t check\non i @7 start i\non i @1 again t\n"
        b"on i repeat t 0\non i @2 due t\non i ref t\non i unref t\non i hasref t\non i active t\non i stoploop\n"
        b"on i @3 updatetime\non i now\non i @4 alive\non i timeout\non i @5 stop i\n",
    ),
    # requests in the main program and in callbacks; the text of one may hold spaces anywhere
    (
        b"var v\nvar w\nmain queue w 1\nmain queue v 1000 abc\nmain queue v 1  x\nmain queue v 2 a  b \nmain queue v 3  \n"
        b"main queue w 7 # 3456789 123456789 123456789 123456789 123456789 1234567890123~\n"
        b"main cancel w\nclosed w stop v\nafter w queue v 1 on\non w stop w\nafter w @2 cancel v\nafter w cancel w",
        b"order 1.45\nworkers 4\nslots 1024 4294967295\nvar v\nvar w\nmain queue w 1\nmain queue v 1000 abc\nmain queue v 1  x\n"
        b"main queue v 2 a  b \nmain queue v 3  \n"
        b"main queue w 7 # 3456789 123456789 123456789 123456789 123456789 1234567890123~\nmain cancel w\n"
        b"on w stop w\nafter w queue v 1 on\nafter w @2 cancel v\nafter w cancel w\nclosed w stop v\n",
    ),
    # handles of I/O, and timers from their heap: said behind the order, wherever they were said
    (b"timers heap", b"order 1.45\ntimers heap\nworkers 4\nslots 1024 4294967295\n"),
    (
        b"workers 2\nvar r\nslots 5\nio\nmain init r io\ntimers heap\norder 1.44\nclosed r init r io\nmain run once\non r @2 init r io",
        b"order 1.44\nio\ntimers heap\nworkers 2\nslots 5 4294967295\nvar r\nmain init r io\nmain run once\non r @2 init r io\n"
        b"closed r init r io\n",
    ),
    (
        b"io\nvar io\nvar heap\nvar timers\nafter timers init heap io\nmain init io timer\non io start io 0 0\nthread 1 send io",
        b"order 1.45\nio\nworkers 4\nslots 1024 4294967295\nvar io\nvar heap\nvar timers\nmain init io timer\non io start io 0 0\n"
        b"after timers init heap io\nthread 1 send io\n",
    ),
    # lines of threads stay in the order in which they came, and say the same twice
    (
        b"var b\nthread 63 send b\nvar a\nthread 0 send a\nmain init a async\nthread 0 send b\non a close a\nthread 63 send b\n"
        b"# a comment\nthread 9 send a\nworkers 3",
        b"order 1.45\nworkers 3\nslots 1024 4294967295\nvar b\nvar a\nmain init a async\non a close a\nthread 63 send b\nthread 0 send a\n"
        b"thread 0 send b\nthread 63 send b\nthread 9 send a\n",
    ),
]


def begun(script):
    """The script, and the line that begins the commands."""
    return script + (b"" if script.endswith(b"\n") or not script else b"\n") + b"begin\n"


def recorded(text):
    """What `record` shows of a script before any step: its version is 3 just where the script says `io` or `timers heap`."""
    version = b"uvt 3\n" if {b"io", b"timers heap"} & set(text.split(b"\n")) else b"uvt 2\n"
    return version + text + b"begin\ncalls\nend\n"
