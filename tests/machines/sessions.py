"""Random sessions: a script that uses each op and each kind of handle, and commands, each with `state` behind it."""

KINDS = ["timer", "idle", "prepare", "check", "async"]
# What is started by `start NAME`.
STARTED = ["idle", "prepare", "check", "io"]
MODES = ["default", "default", "once", "nowait"]
CODES = ["ok", "EINVAL", "EBUSY", "ECANCELED", "EBOUND", "EFULL", "ESTALE", "EKIND"]
SECTIONS = ["pending", "idle", "prepare", "poll", "done", "async", "check", "closing", "timers"]
NAMES = ["a", "b1", "c_", "d", "e", "f", "none", "timer", "run", "on", "idle", "w_0" + "x" * 29]
TIMES = [0, 0, 1, 1, 2, 3, 5, 10]
FAR = [2147483647, 2147483648, 2**62, 2**64 - 1]
BAD = ["loop 0", "loop 16777217", "take 65536", "back", "state all", "cancel nobody", "send", "break code EBAD", "tick -1", "what"]
MOODS = {
    "walk": [("loop", 30), ("loops", 8), ("tick", 4), ("take", 4), ("finish", 4), ("cancel", 1), ("send", 3), ("io", 2), ("back", 3), ("forward", 2)],
    "run": [("loop", 8), ("loops", 20), ("tick", 6), ("take", 3), ("finish", 3), ("cancel", 1), ("send", 4), ("io", 2), ("back", 2), ("forward", 1)],
    "work": [
        ("loop", 14),
        ("loops", 12),
        ("tick", 1),
        ("take", 9),
        ("finish", 9),
        ("cancel", 3),
        ("send", 1),
        ("io", 2),
        ("back", 3),
        ("forward", 2),
    ],
    "undo": [
        ("loop", 12),
        ("loops", 10),
        ("tick", 3),
        ("take", 3),
        ("finish", 2),
        ("cancel", 1),
        ("send", 2),
        ("io", 2),
        ("back", 10),
        ("forward", 8),
    ],
    "breaks": [
        ("loop", 6),
        ("loops", 14),
        ("tick", 3),
        ("take", 3),
        ("finish", 2),
        ("cancel", 2),
        ("send", 3),
        ("io", 3),
        ("back", 1),
        ("forward", 2),
        ("break", 8),
        ("rback", 6),
    ],
    "io": [("loop", 20), ("loops", 6), ("tick", 3), ("take", 3), ("finish", 3), ("cancel", 1), ("send", 5), ("io", 16), ("back", 2), ("forward", 2)],
}


def number(draw):
    return draw.choice(FAR) if draw.random() < 0.03 else draw.choice(TIMES)


def text_of(draw):
    length = draw.choice([0, 0, 1, 2, 3, 64])
    return " " + "".join(draw.choice("abc 0~#") for _ in range(length)) if length else ""


def queue(draw, name):
    return "queue %s %d%s" % (name, draw.choice([1, 1, 1, 2, 3, 20]), text_of(draw))


def init(draw, name, kind):
    return queue(draw, name) if kind == "request" else "init %s %s" % (name, kind)


def start(draw, name, kind):
    if kind == "timer":
        return "start %s %d %d" % (name, number(draw), number(draw))
    return "start %s" % name if kind in STARTED else "send %s" % name if kind == "async" else "cancel %s" % name


def other_kind(draw, names):
    """Any kind: that of I/O only where the script may have it."""
    return draw.choice(KINDS + ["request"] + ["io"] * ("io" in names.values()))


def op_of(draw, names):
    """An op, mostly one that fits the kind for which its name is meant."""
    name = draw.choice(list(names))
    kind = names[name] if draw.random() < 0.9 else other_kind(draw, names)
    rows = [
        (5, lambda: init(draw, name, kind)),
        (7, lambda: start(draw, name, kind)),
        (3, lambda: "stop " + name),
        (6, lambda: "close " + name),
        (1, lambda: "ref " + name),
        (3, lambda: "unref " + name),
        (2, lambda: "hasref " + name),
        (2, lambda: "active " + name),
        (2, lambda: "closing " + name),
        (1, lambda: "stoploop"),
        (1, lambda: "updatetime"),
        (1, lambda: "now"),
        (1, lambda: "alive"),
        (1, lambda: "timeout"),
    ]
    if kind == "timer":
        rows += [(4, lambda: "again " + name), (3, lambda: "repeat %s %d" % (name, number(draw))), (3, lambda: "due " + name)]
    if kind == "io":
        rows += [
            (2, lambda: "again " + name),
            (2, lambda: "repeat %s %d" % (name, number(draw))),
            (2, lambda: "due " + name),
            (2, lambda: "start %s %d 0" % (name, number(draw))),
            (2, lambda: "unref " + name),
            (3, lambda: "hasref " + name),
        ]
    if kind in ("async", "request"):
        rows += [(2, lambda: "send " + name), (2, lambda: "cancel " + name)]
    return draw.choices([row[1] for row in rows], [row[0] for row in rows])[0]()


def main_of(draw, names):
    """The main program: handles and requests are made and started, the loop runs, and this up to three times."""
    lines = []
    for turn in range(draw.choice([1, 2, 2, 3])):
        made = draw.sample(list(names), draw.randint(1 if turn else len(names) // 2, len(names)))
        # (a step of I/O is taken only while its handle is active)
        for name in made + [name for name in names if names[name] == "io" and not turn and name not in made]:
            kind = names[name] if draw.random() < 0.95 else other_kind(draw, names)
            lines.append(init(draw, name, kind))
            if draw.random() < 0.8:
                lines.append(start(draw, name, kind) if kind != "request" or draw.random() < 0.2 else op_of(draw, names))
            if kind == "io" and draw.random() < 0.2:
                lines.append("unref " + name)
            if kind != "request" and draw.random() < 0.15:
                lines.append("close " + name)
        lines += [op_of(draw, names) for _ in range(draw.choice([0, 1, 1, 3]))]
        lines += ["closeloop"] * (draw.random() < 0.2)
        lines.append("run " + draw.choice(MODES))
    return lines + ["closeloop"] * (draw.random() < 0.5)


def bodies_of(draw, names):
    lines = []
    for name, kind in names.items():
        for _ in range(draw.choice([0, 1, 2, 3])):
            fits = ["after"] if kind == "request" else ["on", "closed"]
            which = draw.choice(fits if draw.random() < 0.95 else ["on", "after", "closed"])
            call = "@%d " % draw.choice([1, 1, 2, 3]) if draw.random() < 0.6 else ""
            own = {name: kind} if draw.random() < (0.5 if which == "on" else 0.2) else names
            lines.append("%s %s %s%s" % (which, name, call, op_of(draw, own)))
    return lines


def script(draw):
    """A script's lines, its names with the kind for which each is meant, and how many workers it has."""
    has_io = draw.random() < 0.5
    kinds = KINDS + ["timer", "request", "request"] + ["io"] * (4 * has_io)
    names = {name: draw.choice(kinds) for name in draw.sample(NAMES, draw.randint(2, 6))}
    workers = draw.choice([None, 1, 1, 2, 3, 1024])
    order = draw.choice([None, "1.44", "1.45"])
    head = ([] if order is None else ["order " + order]) + ([] if workers is None else ["workers %d" % workers])
    head += ["io"] * has_io + ["timers heap"] * (draw.random() < 0.3)
    slots = draw.choice([None, None, 1, 2, 3, 4, 6, 65535, 65536])
    if slots:
        last = draw.choice(["", "", " 0", " 1", " 2", " 4294967295"])
        head.append("slots %d%s" % (slots, last))
    lines = ["main " + line for line in main_of(draw, names)]
    # the lists keep the order of their lines, wherever these stand
    for line in bodies_of(draw, names) + ["# said in passing", ""] * (draw.random() < 0.1):
        lines.insert(draw.randint(0, len(lines)), line)
    if draw.random() < 0.1:
        lines.append("thread %d send %s" % (draw.randint(0, 63), draw.choice(list(names))))
    return head + ["var " + name for name in names] + lines, names, workers or 4


def break_of(draw, names):
    word = draw.choice(["call", "call", "code", "section", "section", "clear"])
    said = {"call": list(names), "code": CODES, "section": SECTIONS, "clear": None}[word]
    return ["break clear"] if said is None else ["break %s %s" % (word, draw.choice(said))]


def command(draw, what, names, workers):
    """The commands that stand for this word: mostly one."""
    worker = draw.randrange(min(workers, 4)) if draw.random() < 0.93 else draw.choice([workers, 65535])
    likely = [name for name in names if names[name] == {"cancel": "request", "send": "async", "io": "io"}.get(what)]
    name = draw.choice(likely if likely and draw.random() < 0.7 else list(names))
    if what == "loop":
        return ["loop"]
    if what == "loops":
        # most of these show each step's state
        return ["loop"] * draw.randint(2, 6) if draw.random() < 0.7 else ["loop %d" % draw.randint(2, 20)]
    if what == "tick":
        return ["tick %d" % (draw.choice([2**62, 2**62 - 20, 2**64 - 1]) if draw.random() < 0.04 else draw.choice(TIMES))]
    if what == "break":
        return break_of(draw, names)
    if what in ("take", "finish"):
        return ["%s %d" % (what, worker)]
    if what in ("cancel", "send"):
        return ["%s %s" % (what, name)]
    if what == "io":
        # most of them come where the loop waits
        return ["loop 40"] * (draw.random() < 0.5) + ["io " + name] + ["loop", "io " + name] * (draw.random() < 0.4)
    if what in ("back", "forward"):
        return ["%s %d" % (what, draw.choice([0, 1, 1, 1, 1, 2, 3, 5, 10, 40]))]
    return [what]


def commands(draw, names, workers):
    mood = MOODS[draw.choice([it for it in MOODS if it != "io"] + ["io"] * (3 * ("io" in names.values())))]
    rows = []
    if mood is MOODS["breaks"]:
        rows += ["break section " + draw.choice(SECTIONS), "break call " + draw.choice(list(names)), "break code " + draw.choice(CODES)]
    # the main program begins mostly undisturbed
    rows += ["loop"] * draw.choice([0, 3, 10, 20])
    for what in draw.choices([row[0] for row in mood], [row[1] for row in mood], k=draw.randint(20, 60)):
        rows += command(draw, what, names, workers)
    if draw.random() < 0.05:
        rows.insert(draw.randint(0, len(rows)), draw.choice(BAD))
    if draw.random() < 0.01:
        at = draw.randint(0, len(rows))
        rows[at:at] = ["break code ECANCELED"] * 257
    if draw.random() < 0.3:
        rows += ["back 1"] * draw.randint(1, 40)
    return rows + draw.choice([["trace"], ["trace", "record"], ["walk"], ["trace", "back 9", "trace", "forward 9", "trace"]])


def session(draw):
    """A session: the script's lines, and the commands; behind each command `state` is asked."""
    lines, names, workers = script(draw)
    return lines, commands(draw, names, workers)


def input_of(lines, asked):
    rows = lines + ["begin", "state"]
    for row in asked:
        rows += [row, "state"]
    return ("\n".join(rows) + "\n").encode()
