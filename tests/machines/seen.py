"""What the sessions came to: how often each answer, refusal, line and part of a state was seen, by the lists of docs/FORMAT.md."""
import re
from collections import Counter

CODES_OF = {
    "init": "EBOUND EFULL id",
    "start timer": "ESTALE EKIND EINVAL ok",
    "start watcher": "ESTALE EKIND EINVAL ok",
    "stop": "ESTALE EKIND ok",
    "again": "ESTALE EKIND EINVAL ok",
    "repeat": "ESTALE EKIND ok",
    "due": "ESTALE EKIND number",
    "ref": "ESTALE EKIND ok",
    "unref": "ESTALE EKIND ok",
    "hasref": "ESTALE EKIND 0 1",
    "active": "ESTALE EKIND 0 1",
    "closing": "ESTALE EKIND 0 1",
    "close": "ESTALE EKIND EINVAL ok",
    "send": "ESTALE EKIND EINVAL ok",
    "queue": "EBOUND EFULL id",
    "cancel": "ESTALE EKIND EBUSY ok",
    "stoploop": "ok",
    "updatetime": "ok",
    "now": "number",
    "alive": "0 1",
    "timeout": "number infinite",
    "closeloop": "EBUSY ok",
    "out cancel": "ESTALE EKIND EBUSY ok",
    "out send": "ESTALE EKIND EINVAL ok",
}
# The same of a handle of I/O.
IO_CODES = {
    "init": "EBOUND",
    "start timer": "EKIND",
    "start watcher": "EINVAL ok",
    "stop": "ok",
    "again": "EKIND",
    "repeat": "EKIND",
    "due": "EKIND",
    "ref": "ok",
    "unref": "ok",
    "hasref": "0 1",
    "active": "0 1",
    "closing": "0 1",
    "close": "EINVAL ok",
    "send": "EKIND",
    "queue": "EBOUND",
    "cancel": "EKIND",
    "out cancel": "EKIND",
    "out send": "EKIND",
}
SECTIONS = ["timers", "pending", "idle", "prepare", "done", "async", "check", "closing"]
LINES = [
    "run default",
    "run once",
    "run nowait",
    "poll 0",
    "poll number",
    "poll infinite",
    "call",
    "io call",
    "after ok",
    "after ECANCELED",
    "closed",
    "end 0",
    "end 1",
    "out take",
    "out finish",
    "out tick",
    "no line",
] + SECTIONS
REFUSED = [
    "loop blocked",
    "loop ended",
    "take noworker",
    "take busyworker",
    "take nowork",
    "finish noworker",
    "finish idleworker",
    "io blocked",
    "back range",
    "forward range",
    "rback range",
    "tick range",
    "break limit",
    "loop steps",
]
ANSWERED = ["back at", "forward at", "break ok", "step break at", "rback break at", "bad command"]
WALKS = ["idle", "prepare", "check", "async", "closing", "done"]
WHERE = [
    "entry",
    "first collect",
    "first fire",
    "poll number",
    "poll infinite",
    "timers collect",
    "timers fire",
    "pending",
    "polled",
    "polled woken",
    "done unwoken",
] + WALKS
# (a timer that is called straight from the heap is called while the section collects; and the others of these are of I/O)
BODIES = [
    "first fire + on",
    "timers fire + on",
    "idle + on",
    "prepare + on",
    "check + on",
    "async + on",
    "done + after",
    "closing + closed",
    "first collect + on",
    "timers collect + on",
    "pending + on",
    "polled + on",
    "polled woken + on",
    "done + on",
    "done unwoken + on",
]
SLOTS = ["timer", "idle", "prepare", "check", "async", "io", "waiting", "running", "done", "cancelled", "empty", "retired"]
FLAGS = ["stop 1", "idled 1", "ref 0", "ref 1", "active 0", "active 1", "closing 1", "begun 1", "pending 1", "name none", "unused 0"]
LISTS = ["free", "timers", "ready", "idle", "prepare", "check", "async", "closing", "waiting", "running", "done"]
LISTS += [walk + "-yet" for walk in WALKS]


def wanted():
    """All that is to be seen, each named with the kind of what it is."""
    rows = [("answer", "%s = %s" % (op, code)) for op, codes in CODES_OF.items() for code in codes.split()]
    rows += [("of I/O", "%s = %s" % (op, code)) for op, codes in IO_CODES.items() for code in codes.split()]
    for op in CODES_OF:
        if op[:4] != "out ":
            rows += [("where", "%s in %s" % (op, body)) for body in (["main"] if op == "closeloop" else ["main", "on", "after", "closed"])]
    rows += [("line", line) for line in LINES] + [("refused", line) for line in REFUSED] + [("answered", line) for line in ANSWERED]
    rows += [("place", mode) for mode in ("main", "default", "once", "nowait")] + [("place", where) for where in WHERE + BODIES]
    rows += [("slot", what) for what in SLOTS] + [("flag", what) for what in FLAGS]
    return rows + [("list", what) for what in LISTS]


def kind_of(value):
    if re.fullmatch("[0-9]+", value):
        return "number"
    return "id" if re.fullmatch(r"[0-9]+\.[0-9]+", value) else value


def see_answer(seen, line, body, kinds):
    op, answer = line.rsplit(" = ", 1)
    words = op.split(" ")
    word = words[0]
    if word == "start":
        word = "start timer" if len(words) == 4 else "start watcher"
    if word == "out":
        word = "out " + words[1]
    shown = answer if word in ("hasref", "active", "closing", "alive") else kind_of(answer)
    seen["answer", "%s = %s" % (word, shown)] += 1
    if kinds.get(words[2 if word[:4] == "out " else 1] if len(words) > 1 else "") == "io":
        seen["of I/O", "%s = %s" % (word, shown)] += 1
    if body and word[:4] != "out ":
        seen["where", "%s in %s" % (word, body)] += 1


def see_line(seen, line, body, kinds):
    """A line of a step. BODY is where the step began: the main program or a callback's list; None where that isn't known. KINDS has the kind of
    what each name stood for before it, where that is known."""
    words = line.split(" ")
    if " = " in line:
        see_answer(seen, line, body, kinds)
    elif words[0] == "poll":
        seen["line", "poll " + ("0" if words[1] == "0" else kind_of(words[1]))] += 1
    elif words[0] == "after":
        seen["line", "after " + words[3]] += 1
    elif words[0] in ("run", "end", "out"):
        seen["line", " ".join(words[:2])] += 1
    else:
        seen["line", words[0]] += 1


def see_reply(seen, command, lines, body, kinds):
    word = command.split(" ")[0]
    if word in ("trace", "walk", "record"):
        return
    for line in lines:
        if line.startswith("refused "):
            seen["refused", "%s %s" % (word, line[8:])] += 1
        elif line == "bad command" or line == "break ok":
            seen["answered", line] += 1
        elif line.startswith("break at "):
            seen["answered", ("rback" if word == "rback" else "step") + " break at"] += 1
        elif word in ("back", "forward"):
            seen["answered", word + " at"] += 1
        else:
            see_line(seen, line, body if command == "loop" else None, kinds if word in ("loop", "cancel", "send") else {})
            seen["line", "io call"] += word == "io"
    if command == "loop" and not lines:
        seen["line", "no line"] += 1


def see_place(seen, line):
    """Where the state stands; gives the list whose line is next, or `main`, or None."""
    at, _, body = line.partition(" + ")
    words = at.split(" ")[1:]
    seen["place", words[0]] += 1
    if words[0] == "main":
        return "main"
    where = " ".join(words[2:])
    if where.startswith("poll "):
        where = "poll " + kind_of(words[3])
    seen["place", where + (" + " + body.split(" ")[0] if body else "")] += 1
    return body.split(" ")[0] if body else None


def see_flags(seen, words):
    for name, value in zip(words[::2], words[1::2]):
        if "%s %s" % (name, value) in FLAGS:
            seen["flag", "%s %s" % (name, value)] += 1


def see_slot(seen, words):
    what = words[4] if words[2] == "work" else words[2]
    seen["slot", what] += 1
    if what in ("timer", "idle", "prepare", "check", "async", "io"):
        see_flags(seen, words[4:])


def see_state(seen, lines):
    body = None
    for line in lines:
        word = line.split(" ")[0]
        if word == "steps":
            see_flags(seen, line.split(" "))
        elif word == "place":
            body = see_place(seen, line)
        elif word == "slot":
            see_slot(seen, line.split(" "))
        elif word == "name" and line.split(" ")[2] == "none":
            seen["flag", "name none"] += 1
        elif word == "unused":
            see_flags(seen, line.split(" "))
        elif " " in line:
            seen["list", word] += 1
    return body


def kinds_of(lines):
    """What each name stands for in a state."""
    ids = {words[1]: words[2] for words in (line.split(" ") for line in lines if line.startswith("name "))}
    slots = [line.split(" ") for line in lines if line.startswith("slot ")]
    return {words[3]: words[2] for words in slots if len(words) > 3 and ids[words[3]] == words[1]}


def parts_of(text):
    """The output cut into replies and states: a state is from its line `steps` to its line `done-yet`."""
    reply: list[str] = []
    state: list[str] = None
    parts = []
    for line in text.split("\n")[:-1]:
        if state is None and re.match("steps [0-9]+ now ", line):
            state = []
        if state is None:
            reply.append(line)
            continue
        state.append(line)
        if re.match("done-yet( |$)", line):
            parts.append((reply, state))
            reply, state = [], None
    return parts


def see_session(asked, output):
    """What a session showed; None if its output isn't a state, and then a reply and a state for each command."""
    parts = parts_of(output)
    if len(parts) != len(asked) + 1 or parts[0][0]:
        return None
    seen: Counter[str] = Counter()
    body, kinds = see_state(seen, parts[0][1]), kinds_of(parts[0][1])
    for command, (reply, state) in zip(asked, parts[1:]):
        see_reply(seen, command, reply, body, {} if command.startswith("loop ") else kinds)
        body, kinds = see_state(seen, state), kinds_of(state)
    return seen
