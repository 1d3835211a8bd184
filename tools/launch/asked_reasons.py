"""Why a line that asks a search is bad: the forms of these lines, and the rows of ASKED_REASONS by them."""

from typing import List

from launch.reasons import Context, LARGEST, LISTED, Why, context, of_bytes, of_name, of_number, of_script, split

# What stands behind `may`, `recorded`, `takes`, `most`, `full` and `find`, and the word behind them; of two forms the longer one last.
ASKED = {
    "may": {
        "send": ["NAME N", "NAME N during NAME"],
        "cancel": ["NAME N"],
        "io": ["NAME N"],
        "tick": ["MS N"],
        "wait": ["", "MS N"],
        "differ": ["K"],
    },
    "recorded": {"P": ["S send NAME", "S cancel NAME", "S io NAME", "S tick MS", "S wait MS", "S take W", "S finish W"]},
    "takes": {"NAME": ["MS", "@K MS"]},
    "most": {"clock": ["MS"], "states": ["N"], "NAME": ["CALLS"]},
    "full": {"": [""]},
    "find": {
        "call": ["NAME", "NAME N"],
        "on": ["NAME", "NAME N"],
        "after": ["NAME", "NAME N"],
        "closed": ["NAME", "NAME N"],
        "code": ["CODE", "CODE of NAME"],
        "section": ["WORD"],
        "never": ["NAME"],
        "stuck": [""],
        "late": ["NAME MS"],
        "latest": ["NAME"],
        "NAME": ["before NAME", "after NAME"],
    },
}
ASKED_RANGES = {
    "N": (1, 4294967295),
    "may MS": (1, 2**62),
    "MS": (0, 2**62),
    "CALLS": (0, 4294967295),
    "K": (0, 4294967295),
    "P": (0, 4294967295),
    "S": (0, 4294967295),
    "W": (0, 65535),
    "recorded MS": (1, 2**62),
}


def of_field(word: str, what: str, head: str, found: Context) -> None:
    """A field of a line that asks, against what it has to be: a name, a number, a word of a list, or this very word."""
    if what == "NAME":
        of_name(word, found)
    elif what == "@K":
        of_number(word[1:], "K", 1, 2**32 - 1)
    elif what in LISTED:
        if word not in LISTED[what]:
            raise Why("listed", word, ", ".join(LISTED[what]))
    elif what.isupper():
        of_number(word, what, *ASKED_RANGES.get("%s %s" % (head, what), ASKED_RANGES.get(what, (0, LARGEST))))


def matches(word: str, what: str) -> bool:
    """Whether a field may be this one of a form: the very word, or the mark of a call's number."""
    return word.startswith("@") if what == "@K" else word == what or not what.islower()


def of_asked_line(line: bytes, found: Context) -> None:
    """A line behind `begin`, where a search is asked."""
    of_bytes(line)
    words = split(line.decode("ascii"), 9)
    if words[0] not in ASKED:
        raise Why("asked", words[0])
    head, forms = words[0], ASKED[words[0]]
    second = words[1] if len(words) > 1 else ""
    if head == "find" and len(words) == 4 and words[2] in ("before", "after") or second not in forms and "NAME" in forms:
        second = "NAME"
    if head == "recorded":
        second = "P"
    shapes = [("%s %s %s" % (head, word, form)).strip() for word in ([second] if second in forms else forms) for form in forms[word]]
    for shape in shapes:
        fields = shape.split(" ")
        if len(fields) == len(words) and all(matches(word, what) for word, what in zip(words, fields)):
            for word, what in zip(words, fields):
                of_field(word, what, head, found)
            if fields[-2:-1] and fields[-2] in ("before", "after", "during") and words[-1] == words[1 if head == "find" else 2]:
                raise Why("two", words[-1], words[-2])
            return
    raise Why("form", line.decode("ascii"), " or ".join("`%s`" % it for it in shapes))


def said(words: List[bytes]) -> bytes:
    """What a line that asks says once at most: its first fields, up to a number that may differ."""
    if words[0] == b"takes":
        return b" ".join(words[:-1])
    return b" ".join(words[:2] if words[0] in (b"most", b"full") or words[1] == b"differ" else words[:3] + words[4:])


def of_inquiry(lines: List[bytes], number: int) -> None:
    """The input of a search: a script, `begin`, and the lines that ask."""
    if b"begin" not in lines[: number - 1]:
        of_script(lines, number)
        return
    begin = lines.index(b"begin") + 1
    before = [(at, it) for at, it in enumerate(lines[begin : number - 1], begin + 1) if it and not it.startswith(b"#")]
    questions = [at for at, it in before if it.startswith(b"find ")]
    if number > len(lines):
        if not questions:
            raise Why("find")
        return
    line = lines[number - 1]
    if not line or line.startswith(b"#"):
        of_bytes(line)
        return
    of_asked_line(line, context(lines[:begin], begin + 1))
    words = line.split(b" ")
    if words[0] == b"find" and questions:
        raise Why("question", questions[0])
    differs = any(it.startswith(b"may differ ") for _, it in before)
    if words[0] == b"recorded" and not differs:
        raise Why("recorded")
    if words[0] == b"may" and words[1:] != [b"wait"] and words[1] != b"differ" and differs:
        raise Why("differ", line.decode("ascii"))
    if words[:2] == [b"may", b"differ"]:
        for _, it in before:
            if it.startswith(b"may ") and it != b"may wait" and not it.startswith(b"may differ "):
                raise Why("differ", it.decode("ascii"))
    for at, it in before:
        if words[0] not in (b"find", b"recorded") and said(it.split(b" ")) == said(words):
            raise Why("again", said(words).decode("ascii"), at)
    if words[0] == b"may" and sum(it.startswith(b"may ") for _, it in before) >= 256:
        raise Why("offers")
