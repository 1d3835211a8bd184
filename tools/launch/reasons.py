"""Why a line of a script or of a recording is bad, in a sentence: the table REASONS, and the grammar by which a row of it is found.

The program alone says which line is the first bad one. Here it is only looked at why, so all lines before it are taken as good."""
import re
from typing import Dict, List, NamedTuple

from uvt.codes import CODES, SECTIONS

LARGEST = 2**64 - 1

# Each row: a word for it, and the sentence, with what is filled in.
REASONS = {
    "long": "a line has at most 256 bytes, and this one has {0}",
    "byte": "it has a byte that no line may have: {0}",
    "space": "fields are separated by one space, and no line begins or ends with one",
    "word": "no line begins with `{0}`; the first word is order, io, timers, slots, workers, var, main, on, after, closed, thread or begin",
    "few": "something is missing: the line has the form `{0}`",
    "many": "`{0}` is too much: the line has the form `{1}`",
    "name": "`{0}` is no name: a lower case letter, and then up to 31 lower case letters, digits or _",
    "twice": "`{0}` is declared already, in line {1}",
    "undeclared": "`{0}` isn't declared before this line{1}",
    "number": "`{0}` is no number: digits alone, with no sign and no zero in front",
    "range": "`{0}` is out of range: {1} is {2} to {3}",
    "second": "a second `{0}`: a script has it once at most, and line {1} is the first",
    "op": "`{0}` is no op",
    "main": "`{0}` is an op of the main program alone: `main {0} ..`",
    "mode": "`{0}` is no mode: default, once or nowait",
    "kind": "`{0}` is no kind of handle: timer, idle, prepare, check, async or io",
    "made": "the line `io` has to stand before it: `init NAME io` makes a handle of I/O, which only a script with that line has",
    "version": "`{0}` is no version of an order: 1.44 or 1.45",
    "exact": "`{0}` stands where `{1}` has to: the line has the form `{2}`",
    "old": "a recording that begins with `{0}` has no line `{1}`: {2}",
    "call": "`{0}` says no call: @ and a number from 1 to 4294967295, once in a line",
    "text": "TEXT has 1 to 64 bytes, and this one has {0}",
    "sends": "a thread only sends: `thread K send NAME`",
    "names": "a script has at most 65535 names",
    "lines": "a script has at most 1048575 lines, not counting order, io, timers, slots, workers, comments and empty ones",
    "begin": "the line `begin` is missing, which ends the script",
    "format": "a recording begins with the line `uvt 1`, `uvt 2` or `uvt 3`",
    "step": "between `begin` and `calls` each line is a step: loop, take K, finish K, cancel NAME, send NAME, tick MS or io NAME",
    "outside": "`io NAME` is the callback of a handle of I/O, and the script has no line `io`",
    "callback": "behind `calls` each line begins with `call `, `after ` or `closed `, and the last one is `end`",
    "calls": "the line `calls` is missing, which ends the steps",
    "end": "the line `end` is missing, which ends the recording",
    "behind": "nothing may stand behind the line `end`",
}

# The same of the lines that ask a search.
ASKED_REASONS = {
    "listed": "`{0}` is none of {1}",
    "asked": "no line behind `begin` begins with `{0}` here: it is may, recorded, takes, most, full or find",
    "form": "no line says `{0}`: it has the form {1}",
    "again": "`{0}` stands in line {1} already, and a search has it once at most",
    "question": "a second question: line {0} has the first, and one is asked at a time",
    "offers": "at most 256 lines begin with `may`",
    "differ": "`{0}` stands beside `may differ`: there what came in the recording may come, and nothing else but `may wait`",
    "recorded": "what came in a recording stands behind a line `may differ K`",
    "find": "the line is missing that says what to look for: `find ..`",
    "two": "`{0}` is on both sides of `{1}`, which asks for two names",
}

# What stands behind each op. NAME is declared, KIND and MODE are words, and the others are numbers.
OPS = {
    "init": "NAME KIND",
    "start": "NAME [TIMEOUT REPEAT]",
    "stop": "NAME",
    "again": "NAME",
    "repeat": "NAME N",
    "due": "NAME",
    "ref": "NAME",
    "unref": "NAME",
    "hasref": "NAME",
    "active": "NAME",
    "closing": "NAME",
    "close": "NAME",
    "send": "NAME",
    "queue": "NAME ROUNDS [TEXT]",
    "cancel": "NAME",
    "stoploop": "",
    "updatetime": "",
    "now": "",
    "alive": "",
    "timeout": "",
}
MAIN_OPS = {"run": "MODE", "closeloop": ""}
STEPS = {"loop": "", "take": "K", "finish": "K", "cancel": "NAME", "send": "NAME", "tick": "MS", "io": "NAME"}
WORDS = {"KIND": ("timer", "idle", "prepare", "check", "async", "io"), "MODE": ("default", "once", "nowait"), "VERSION": ("1.44", "1.45")}
LISTED = {
    "CODE": tuple(CODES),
    "WORD": tuple(SECTIONS),
}
SETTINGS = {"order": "VERSION", "io": "", "timers": "heap", "slots": "N [G]", "workers": "N"}
# What a recording hasn't before its version of these, and how it is then.
SINCE = {
    "order": ("uvt 2", "its runs are in the order of 1.45"),
    "io": ("uvt 3", "its script has no handles of I/O"),
    "timers": ("uvt 3", "its due timers are set aside, all of them, before the first is called"),
}
RANGES = {"workers N": (1, 1024), "slots N": (1, 16777215), "slots G": (0, 4294967295), "ROUNDS": (1, 1000), "thread K": (0, 63), "K": (0, 65535)}


class Why(Exception):
    """The row of REASONS, and what fills it in."""

    def __init__(self, row: str, *filled: object) -> None:
        self.row, self.filled = row, filled

    def sentence(self) -> str:
        return {**REASONS, **ASKED_REASONS}[self.row].format(*self.filled)


class Context(NamedTuple):
    """What the lines before a line say of it, each with the number of its own line."""

    names: Dict[str, int]
    once: Dict[str, int]  # the settings
    later: Dict[str, int]  # names that are declared only behind it
    counted: int


def context(lines: List[bytes], number: int) -> Context:
    names: Dict[str, int] = {}
    once: Dict[str, int] = {}
    later: Dict[str, int] = {}
    counted = 0
    for at, line in enumerate(lines, 1):
        words = line.decode("ascii", "replace").split(" ")
        if words[0] == "var" and len(words) == 2 and at != number:
            (names if at < number else later).setdefault(words[1], at)
        if at < number and words[0] in SETTINGS:
            once.setdefault(words[0], at)
        elif at < number and line and not line.startswith(b"#"):
            counted += 1
    return Context(names, once, later, counted)


def of_bytes(line: bytes) -> None:
    """The rule of lines, which comes first."""
    if len(line) > 256:
        raise Why("long", len(line))
    for byte in line:
        if not 0x20 <= byte <= 0x7E:
            known = {9: "a tab", 13: "a carriage return, as in the line ends of Windows"}
            raise Why("byte", known.get(byte, "one of a character beyond ASCII" if byte > 0x7F else "0x%02x" % byte))


def of_number(text: str, what: str, least: int, most: int) -> None:
    if not re.fullmatch("0|[1-9][0-9]*", text):
        raise Why("number", text)
    if not least <= int(text) <= most:
        raise Why("range", text, what.split(" ")[-1], least, most)


def of_name(text: str, found: Context) -> None:
    if not re.fullmatch("[a-z][a-z0-9_]{0,31}", text):
        raise Why("name", text)
    if text not in found.names:
        raise Why("undeclared", text, ", but only in line %d" % found.later[text] if text in found.later else "")


def of_words(words: List[str], shape: str, head: str, found: Context) -> None:
    """Words against a shape as `NAME ROUNDS [TEXT]`; what stands in brackets is there as a whole, or not at all, and what is small is this word."""
    form = (head + " " + shape).strip()
    needed, _, more = shape.partition("[")
    wanted, rest = needed.split(), more.rstrip("]").split()
    if len(words) > len(wanted):
        wanted += rest
    for word, what in zip(words, wanted):
        if what == "NAME":
            of_name(word, found)
        elif what in WORDS:
            if word not in WORDS[what]:
                raise Why(what.lower(), word)
        elif what == "TEXT":
            if not 1 <= len(word) <= 64:
                raise Why("text", len(word))
        elif what.islower():
            if word != what:
                raise Why("exact", word, what, form)
        else:
            key = head + " " + what
            of_number(word, what, *RANGES.get(key, RANGES.get(what, (0, LARGEST))))
    if len(words) < len(wanted):
        raise Why("few", form)
    if len(words) > len(wanted):
        raise Why("many", words[len(wanted)], form)


def split(line: str, queue_at: int) -> List[str]:
    """The fields of a line; of a `queue` at this field the text, which may hold spaces, is one field."""
    words = line.split(" ")
    if words[queue_at : queue_at + 1] == ["queue"] and len(words) > queue_at + 3:
        words = words[: queue_at + 3] + [" ".join(words[queue_at + 3 :])]
        if "" in words[:-1]:
            raise Why("space")
    elif "" in words:
        raise Why("space")
    return words


def of_op(words: List[str], head: str, in_main: bool, found: Context) -> None:
    if not words:
        raise Why("few", head + " OP")
    op = words[0]
    if op in MAIN_OPS and not in_main:
        raise Why("main", op)
    shape = OPS.get(op, MAIN_OPS.get(op))
    if shape is None:
        raise Why("op", op)
    of_words(words[1:], shape, head + " " + op, found)
    if op == "init" and words[2] == "io" and "io" not in found.once:
        raise Why("made")


def of_callback(words: List[str], found: Context) -> None:
    """`on`, `after` and `closed`."""
    head = words[0] + " NAME [@k]"
    if len(words) < 2:
        raise Why("few", head + " OP")
    of_name(words[1], found)
    op = words[2:]
    if op and op[0].startswith("@"):
        if not re.fullmatch("@[1-9][0-9]*", op[0]) or int(op[0][1:]) >= 2**32:
            raise Why("call", op[0])
        op = op[1:]
    if op and op[0].startswith("@"):
        raise Why("call", op[0])
    of_op(op, head, False, found)


def of_var(words: List[str], found: Context) -> None:
    if len(words) < 2:
        raise Why("few", "var NAME")
    if len(words) > 2:
        raise Why("many", words[2], "var NAME")
    if words[1] in found.names:
        raise Why("twice", words[1], found.names[words[1]])
    of_name(words[1], found._replace(names={words[1]: 0}))
    if len(found.names) == 65535:
        raise Why("names")


def of_thread(words: List[str], found: Context) -> None:
    if len(words) > 1:
        of_number(words[1], "K", *RANGES["thread K"])
    if len(words) > 2 and words[2] != "send":
        raise Why("sends")
    of_words(words[3:], "NAME", "thread K send", found)


def of_script_line(line: bytes, found: Context) -> None:
    of_bytes(line)
    text = line.decode("ascii")
    callback = re.match("(on|after|closed) [^ ]* @[^ ]* ", text)
    words = split(text, 3 if callback else 2 if re.match("(on|after|closed) ", text) else 1)
    first = words[0]
    if first in SETTINGS:
        of_words(words[1:], SETTINGS[first], first, found)
        if first in found.once:
            raise Why("second", first, found.once[first])
    elif first == "var":
        of_var(words, found)
    elif first == "main":
        of_op(words[1:], "main", True, found)
    elif first in ("on", "after", "closed"):
        of_callback(words, found)
    elif first == "thread":
        of_thread(words, found)
    else:
        raise Why("word", first)
    if found.counted >= 1048575:
        raise Why("lines")


def of_script(lines: List[bytes], number: int, wants_begin: bool = True) -> None:
    if number > len(lines):
        if wants_begin:
            raise Why("begin")
        return
    of_script_line(lines[number - 1], context(lines, number))


def of_recorded_script(lines: List[bytes], number: int) -> None:
    """A recording's lines up to `begin`: what is newer than its version isn't there."""
    version = lines[0].decode("ascii")
    word = lines[number - 1].decode("ascii", "replace").split(" ")[0] if number <= len(lines) else ""
    try:
        of_script([b""] + lines[1:], number)
    except Why as found:
        if found.row != "made" or version >= SINCE["io"][0]:
            raise
        word = "io"
    if word in SINCE and version < SINCE[word][0]:
        raise Why("old", version, word, SINCE[word][1])


def of_recording(lines: List[bytes], number: int) -> None:
    if number == 1:
        raise Why("format")
    before = lines[: number - 1]
    script = lines[: lines.index(b"begin") + 1] if b"begin" in lines else lines
    if b"begin" not in before:
        of_recorded_script(script, number)
    elif b"end" in before:
        raise Why("behind")
    elif b"calls" in before:
        raise Why("callback" if number <= len(lines) else "end")
    elif number > len(lines):
        raise Why("calls")
    else:
        of_bytes(lines[number - 1])
        words = split(lines[number - 1].decode("ascii"), 9)
        if words[0] not in STEPS:
            raise Why("step")
        if words[0] == "io" and b"io" not in script:
            raise Why("outside")
        of_words(words[1:], STEPS[words[0]], words[0], context(script, len(script) + 1))
