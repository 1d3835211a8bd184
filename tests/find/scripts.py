"""Random scripts with few names, and what a search is asked of them: bounds so that there are few places, and each kind of question."""
from random import Random
from typing import Dict, List

from tests.find.asked import Asked
from tests.find.recording import Recorded

KINDS = ["timer", "timer", "timer", "async", "async", "request", "request", "request", "prepare", "check", "idle", "io", "io"]
POOL_KINDS = ["timer", "timer", "async", "request", "request", "request", "request", "prepare", "check", "idle", "io"]
CODES = ["ok", "EINVAL", "EBUSY", "ECANCELED", "EBOUND", "EFULL", "ESTALE", "EKIND"]
SECTIONS = ["pending", "idle", "prepare", "poll", "done", "async", "check", "closing", "timers"]
QUESTIONS = ["call", "nth call", "on", "after", "closed", "code", "code of", "section", "never", "stuck", "late", "before", "behind"]
TIMES = [0, 1, 3, 5, 5, 10]


def init(name: str, kind: str) -> str:
    return "queue %s 1 %s" % (name, name) if kind == "request" else "init %s %s" % (name, kind)


def start(draw: Random, name: str, kind: str) -> str:
    if kind == "timer":
        return "start %s %d %d" % (name, draw.choice(TIMES), draw.choice([0, 0, 0, 5]))
    return {"async": "send %s", "request": "cancel %s"}.get(kind, "start %s") % name


def op_of(draw: Random, kinds: Dict[str, str]) -> str:
    name = draw.choice(list(kinds))
    kind = kinds[name]
    end = "cancel " + name if kind == "request" else "close " + name
    rows = [
        (4, start(draw, name, kind)),
        (5, end),
        (2, init(name, kind)),
        (1, "close " + name),
        (1, "stop " + name),
        (1, "unref " + name),
        (1, "stoploop"),
        (1, "updatetime"),
        (1, "active " + name),
    ]
    if kind == "timer":
        rows += [(1, "again " + name), (1, "due " + name)]
    return draw.choices([row[1] for row in rows], [row[0] for row in rows])[0]


def main_of(draw: Random, kinds: Dict[str, str]) -> List[str]:
    lines = []
    for name, kind in kinds.items():
        lines.append(init(name, kind))
        if kind in ("timer", "prepare", "check", "idle", "io") and draw.random() < 0.9:
            lines.append(start(draw, name, kind))
    lines += ["run " + draw.choice(["default", "default", "default", "once", "nowait"])] * (draw.random() < 0.93)
    if draw.random() < 0.2:
        lines += [op_of(draw, kinds), "run once"]
    return lines


def bodies_of(draw: Random, kinds: Dict[str, str]) -> List[str]:
    lines = []
    for name, kind in kinds.items():
        for _ in range(draw.choice([0, 1, 1, 2])):
            word = "after" if kind == "request" else "on" if draw.random() < 0.85 else "closed"
            lines.append("%s %s%s %s" % (word, name, draw.choice(["", "", " @1", " @2"]), op_of(draw, kinds)))
        if kind in ("async", "timer", "idle", "prepare", "check", "io") and draw.random() < 0.6:
            lines.append("on %s%s close %s" % (name, draw.choice(["", " @1", " @2"]), name))
    return lines


def again(draw: Random, name: str, kinds: Dict[str, str]) -> List[str]:
    """What a name does ends, and something begins again, perhaps under another name in its slot: so a script may go on for ever."""
    kind, other = kinds[name], draw.choice(list(kinds))
    if kind == "timer" and draw.random() < 0.3:
        return ["on %s start %s %d 0" % (name, name, draw.choice([3, 5, 10]))]
    end = "after" if kind == "request" else "closed"
    lines = ["%s %s %s" % (end, name, init(other, kinds[other]))] + ["on %s close %s" % (name, name)] * (kind != "request")
    return lines + ["%s %s %s" % (end, name, start(draw, other, kinds[other]))] * (kinds[other] != "request")


def offers_of(draw: Random, kinds: Dict[str, str], question: str) -> List[str]:
    lines = []
    for name, kind in kinds.items():
        if kind == "async" and draw.random() < 0.8:
            jobs = [one for one in kinds if kinds[one] == "request"] * (draw.random() < 0.4)
            lines.append("may send %s %d" % (name, draw.choice([1, 1, 2])) + "".join(" during " + one for one in jobs[:1]))
        if kind == "io" and draw.random() < 0.8:
            lines.append("may io %s %d" % (name, draw.choice([1, 1, 2])))
        if kind == "request" and draw.random() < 0.3:
            lines.append("may cancel %s 1" % name)
    if draw.random() < (0.8 if question.startswith("late ") else 0.3):
        lines.append("may tick %d %d" % (draw.choice([1, 5, 7]), draw.choice([1, 2])))
    if draw.random() < 0.3:
        lines.append("may wait %d %d" % (draw.choice([1, 3, 6]), draw.choice([1, 2])))
    return lines + ["may wait"] * (draw.random() < 0.8) + takes_of(draw, kinds, question)


def takes_of(draw: Random, kinds: Dict[str, str], question: str) -> List[str]:
    lines = []
    for name in kinds:
        if draw.random() < (0.5 if question.startswith("late ") else 0.2):
            lines.append("takes %s %d" % (name, draw.choice([1, 3, 6])))
        if draw.random() < 0.1:
            lines.append("takes %s @%d %d" % (name, draw.choice([1, 1, 2]), draw.choice([0, 2, 9])))
    return lines


def bounds_of(draw: Random, kinds: Dict[str, str]) -> List[str]:
    lines = ["most clock %d" % draw.choice([7, 10, 20])] * (draw.random() < 0.4)
    lines += ["most %s %d" % (name, draw.choice([1, 2, 2])) for name, kind in kinds.items() if kind == "idle" or draw.random() < 0.6]
    return lines + ["most states %d" % draw.choice([5, 50, 300])] * (draw.random() < 0.15) + ["full"] * (draw.random() < 0.3)


def question_of(draw: Random, kinds: Dict[str, str]) -> str:
    name = draw.choice(list(kinds))
    what = draw.choice(QUESTIONS)
    if what == "late":
        name = draw.choice([one for one in kinds if kinds[one] == "timer"] or [name])
        return "late %s %d" % (name, draw.choice([0, 1, 1, 2, 5]))
    if what in ("before", "behind") and len(kinds) > 1:
        return {"before": "%s before %s", "behind": "%s after %s"}[what] % tuple(draw.sample(list(kinds), 2))
    return {
        "call": "call " + name,
        "on": "on " + name,
        "after": "after %s %d" % (name, draw.choice([1, 1, 2])),
        "closed": "closed " + name,
        "nth call": "call %s %d" % (name, draw.choice([1, 2, 3])),
        "code": "code " + draw.choice(CODES),
        "code of": "code %s of %s" % (draw.choice(CODES), name),
        "section": "section " + draw.choice(SECTIONS),
        "never": "never " + name,
        "stuck": "stuck",
    }.get(what, "stuck")


def question_kind(question: str) -> str:
    """Which of the kinds a question is."""
    words = question.split()
    if words[1:2] in (["before"], ["after"]):
        return {"before": "before", "after": "behind"}[words[1]]
    return {("call", 3): "nth call", ("code", 4): "code of"}.get((words[0], len(words)), words[0])


def of_pool(draw: Random, kinds: Dict[str, str]) -> List[str]:
    """What is asked where moves are held back: nothing comes but of the pool, of the clock and of I/O."""
    lines = ["may io %s %d" % (name, draw.choice([1, 1, 2])) for name, kind in kinds.items() if kind == "io" and draw.random() < 0.9]
    lines += ["most %s %d" % (name, draw.choice([1, 2, 2])) for name in kinds if draw.random() < 0.15]
    lines += ["may tick %d %d" % (ms, draw.choice([1, 1, 2])) for ms in draw.sample([1, 5, 7], draw.choice([0, 0, 1, 1, 2]))]
    lines += ["may wait %d %d" % (ms, draw.choice([1, 1, 2])) for ms in draw.sample([1, 3, 6], draw.choice([0, 0, 0, 1, 2]))]
    lines += ["may wait"] * (draw.random() < 0.9) + ["most clock %d" % draw.choice([7, 10, 20])] * (draw.random() < 0.2)
    lines += ["most states %d" % draw.choice([5, 50, 300])] * (draw.random() < 0.1)
    question = question_of(draw, kinds)
    if question.startswith("late "):
        question = "call " + question.split()[1]
    return lines + ["find " + question]


def script(draw: Random, is_of_pool: bool = False) -> str:
    """A script, the line `begin`, and what is asked."""
    names = ["a", "b", "c", "d"][: draw.choice([1, 2, 2, 3, 3, 4])]
    kinds = {name: draw.choice(POOL_KINDS if is_of_pool else KINDS) for name in names}
    lines = ["workers %d" % draw.choice([1, 1, 2])] + ["order 1.44"] * (draw.random() < 0.15) + ["slots %d" % len(names)] * (draw.random() < 0.1)
    lines += ["io"] * ("io" in kinds.values())
    lines += ["var " + name for name in names] + ["main " + line for line in main_of(draw, kinds)]
    is_endless = draw.random() < 0.25
    lines += [line for name in kinds for line in again(draw, name, kinds)] if is_endless else bodies_of(draw, kinds)
    if is_of_pool:
        return "\n".join(lines + ["begin"] + of_pool(draw, kinds)) + "\n"
    question = question_of(draw, kinds)
    asked = offers_of(draw, kinds, question) + ([] if is_endless else bounds_of(draw, kinds)) + ["find " + question]
    return "\n".join(lines + ["begin"] + asked) + "\n"


def shared_body(draw: Random, kinds: Dict[str, str], same: List[str]) -> List[str]:
    """The lines of one callback, which all of these names have, some with its own name; seldom one of them has them not, or one more."""
    own = ["queue NAME 1 x", "queue NAME 1 x", "active NAME", "close NAME"]
    ops = [draw.choice(own) if draw.random() < 0.35 else op_of(draw, kinds) for _ in range(draw.choice([1, 1, 2]))]
    body = ["%s%s" % (draw.choice(["", "", "", "@1 ", "@2 "]), op) for op in ops if not op.startswith("cancel ")]
    lines = ["after %s %s" % (name, line.replace("NAME", name)) for name in same for line in body]
    if lines and draw.random() < 0.15:
        other = draw.choice(same)
        lines = [line for line in lines if line.split()[1] != other] if draw.random() < 0.5 else lines + ["after %s alive" % other]
    return lines


def alike(draw: Random) -> str:
    """The same of a pool: half of its requests, or more, are alike, so that their callbacks mostly do the same, or nothing, and mostly nothing is
    asked of them."""
    same = ["p", "q", "r"][: draw.choice([2, 2, 3])]
    kinds = {name: draw.choice(["timer", "timer", "async", "request", "request", "idle"]) for name in ["a", "b"][: draw.choice([1, 1, 2])]}
    names = list(kinds)
    at = draw.randrange(len(names) + 1)
    names[at:at] = same
    if draw.random() < 0.1:
        draw.shuffle(names)
    main = main_of(draw, kinds)
    begins = next((number for number, line in enumerate(main) if line.startswith("run ")), len(main))
    for name in same:
        queue = "queue %s %d %s" % (name, draw.choice([1, 1, 1, 2]), draw.choice(["x", "y", name]))
        main.insert(draw.randrange((begins if draw.random() < 0.9 else len(main)) + 1), queue)
        begins += 1
    lines = ["workers %d" % draw.choice([1, 2, 2, 3])] + ["order 1.44"] * (draw.random() < 0.15)
    lines += ["var " + name for name in names] + ["main " + line for line in main]
    lines += [line for line in bodies_of(draw, kinds) if " cancel " not in line or draw.random() < 0.3]
    lines += shared_body(draw, kinds, same) if draw.random() < 0.6 else []
    asked = ["may send %s %d" % (name, draw.choice([1, 1, 2])) for name, kind in kinds.items() if kind == "async" and draw.random() < 0.8]
    asked += ["may tick %d 1" % draw.choice([1, 5, 7])] * (draw.random() < 0.3) + ["may wait"] * (draw.random() < 0.9)
    asked += ["most %s %d" % (name, draw.choice([1, 2])) for name, kind in kinds.items() if kind == "idle" or draw.random() < 0.4]
    asked += ["most %s 1" % draw.choice(same)] * (draw.random() < 0.05)
    kinds.update({name: "request" for name in same} if draw.random() < 0.15 else {})
    return "\n".join(lines + ["begin"] + asked + ["find " + question_of(draw, kinds)]) + "\n"


def steps_of(draw: Random, asked: Asked) -> List[str]:
    """The steps from outside of which a recording of this script may have some: workers take and finish, and what the script offers."""
    offered = ["%s %s" % (offer.word, offer.argument) for offer in asked.offers if offer.word != "wait"]
    workers = [word % worker for worker in range(asked.workers) for word in ("take %d", "finish %d")]
    return workers + offered + ["tick %d" % draw.choice([1, 3, 5])]


def of_recording(draw: Random, text: str, came: List[Recorded]) -> str:
    """The same script and question, asked of the orders that differ from this recording."""
    front, behind = text.split("begin\n")
    lines = [line for line in behind.splitlines() if not line.startswith("may ")]
    lines = [line for line in lines if not line.startswith("takes ") or draw.random() < 0.7] + ["may wait"] * (draw.random() < 0.6)
    recorded = ["recorded %d %d %s" % one for one in came]
    return "\n".join([front + "begin", "may differ %d" % draw.choice([0, 1, 1, 1, 2])] + recorded + lines) + "\n"
