"""What `uvt view --trace-event` writes, by the rules of the Trace Event Format; and a few runs whose events are known by hand."""

from __future__ import annotations

import collections
import json
import os
import tempfile
from pathlib import Path

ROOT = Path(__file__).resolve().parent.parent.parent
from tests.helper import Check, Tries, limited, log_at
from uvt.record.log import read_log
from uvt.record.run import from_data

EXAMPLES = ROOT / "crates" / "examples" / "data"
HERE = Path(__file__).resolve().parent
VIEW = str(ROOT / "tools" / "uvt" / "uvt-view")
# Of each phase the fields that it has to have beside ph, ts, pid, tid and name.
FIELDS = {
    "B": ("cat",),
    "E": (),
    "X": ("dur", "cat"),
    "b": ("cat",),
    "e": ("cat",),
    "s": ("id", "cat"),
    "f": ("id", "cat", "bp"),
    "I": ("s", "cat"),
    "P": ("id", "cat", "args"),
    "M": ("args",),
}
METADATA = {"process_name": ("name", str), "thread_name": ("name", str), "thread_sort_index": ("sort_index", int)}


def is_number(it: object) -> bool:
    return isinstance(it, (int, float)) and not isinstance(it, bool)


def fields_wrong(event: dict) -> str:
    """What of an event isn't as the format has it."""
    ph = event.get("ph")
    if ph not in FIELDS:
        return f"no phase {ph}"
    missing = [it for it in ("ts", "pid", "tid", "name", *FIELDS[ph]) if it not in event]
    if missing:
        return f"without {missing}"
    if ph in "be" and "id" not in event and not isinstance(event.get("id2", {}).get("local"), str):
        return "without an id"
    if not is_number(event["ts"]) or event["ts"] < 0 or ("dur" in event and (not is_number(event["dur"]) or event["dur"] < 0)):
        return "a time that is none"
    if not all(isinstance(event[it], int) for it in ("pid", "tid")) or not isinstance(event["name"], str) or not event["name"]:
        return "a pid, tid or name that is none"
    if "args" in event and not isinstance(event["args"], dict):
        return "args that are none"
    if ph == "M":
        known = METADATA.get(event["name"])
        return "" if known and isinstance(event["args"].get(known[0]), known[1]) else "metadata that is none"
    return "bp is none" if ph == "f" and event["bp"] != "e" else ""


def slices_of(events: list[dict]) -> tuple[dict[tuple[int, int], list[tuple[float, float, str]]], list[str]]:
    """The slices of each track, and what is wrong with how they begin and end: of `B` and `E` the last that began ends first; none of a track ends
    while a later one is under way."""
    found: dict[tuple[int, int], list[tuple[float, float, str]]] = collections.defaultdict(list)
    open: dict[tuple[int, int], list[dict]] = collections.defaultdict(list)
    last: dict[tuple[int, int], float] = {}
    wrong = []
    for it in events:
        track = it["pid"], it["tid"]
        if it["ph"] in "BE":
            if it["ts"] < last.get(track, 0):
                wrong.append(f"{it} goes back in time")
            last[track] = it["ts"]
        if it["ph"] == "B":
            open[track].append(it)
        elif it["ph"] == "E":
            begun = open[track].pop() if open[track] else None
            if begun is None or begun["name"] != it["name"]:
                wrong.append(f"{it} ends {begun}")
            else:
                found[track].append((begun["ts"], it["ts"], it["name"]))
        elif it["ph"] == "X":
            found[track].append((it["ts"], it["ts"] + it["dur"], it["name"]))
    wrong += [f"{track}: {[it['name'] for it in rows]} never ended" for track, rows in open.items() if rows]
    for track, rows in found.items():
        ends: list[float] = []
        for begin, end, name in sorted(rows, key=lambda it: (it[0], -it[1])):
            while ends and ends[-1] <= begin:
                ends.pop()
            if ends and end > ends[-1] + 0.01:
                wrong.append(f"{track}: {name} from {begin} to {end} isn't within one that ends at {ends[-1]}")
            ends.append(end)
    return found, wrong


def pairs_wrong(events: list[dict], slices: dict[tuple[int, int], list[tuple[float, float, str]]]) -> list[str]:
    """What is wrong with async events, of which each beginning has one end behind it, and with arrows, whose ends lie in slices."""
    wrong = []
    spans: dict[tuple, list[dict]] = collections.defaultdict(list)
    arrows: dict[tuple, list[dict]] = collections.defaultdict(list)
    for it in events:
        if it["ph"] in "be":
            spans[it["pid"], it["cat"], it.get("id") or it["id2"]["local"]].append(it)
        elif it["ph"] in "sf":
            arrows[it["cat"], it["name"], it["id"]].append(it)
    for key, rows in spans.items():
        if [it["ph"] for it in rows] != ["b", "e"] or rows[0]["name"] != rows[1]["name"] or rows[0]["ts"] > rows[1]["ts"]:
            wrong.append(f"{key}: {rows}")
    for key, rows in arrows.items():
        if [it["ph"] for it in rows] != ["s", "f"] or rows[0]["ts"] > rows[1]["ts"]:
            wrong.append(f"{key}: {rows}")
        for it in rows:
            if not any(begin <= it["ts"] <= end for begin, end, _ in slices[it["pid"], it["tid"]]):
                wrong.append(f"{it} is in no slice")
    return wrong


def wrong_of(text: str) -> tuple[list[dict], list[str]]:
    """The events of a file, and what is wrong with it."""
    whole = json.loads(text)
    events = whole.get("traceEvents")
    if not isinstance(events, list) or whole.get("displayTimeUnit") != "ms":
        return [], ["no trace"]
    wrong = [f"{it}: {why}" for it in events if (why := fields_wrong(it))]
    if wrong:
        return events, wrong
    slices, wrong = slices_of(events)
    named = {(it["pid"], it["tid"]) for it in events if it["name"] == "thread_name"}
    wrong += [f"track {it} has no name" for it in {(it["pid"], it["tid"]) for it in events if it["ph"] != "M"} - named]
    return events, wrong + pairs_wrong(events, slices)


def traced(path: Path) -> str:
    return limited([VIEW, "--trace-event", str(path)], capture_output=True, text=True, env=os.environ).stdout


def slice_of(events: list[dict], name: str) -> list[tuple[float, float]]:
    """When the slices of that name on the loop's track begin and end."""
    rows = [it for it in events if it["ph"] in "BE" and it["name"] == name]
    return [(begin["ts"], end["ts"]) for begin, end in zip(rows[::2], rows[1::2])]


def try_known(check: Check) -> None:
    """By hand. In late-timer.uvt `save` is called at 10 ms, as the 8th step of that ms, and 40 ms go by; `beat`, due at 15, is called as the 14th
    step of 50 ms."""
    events, _ = wrong_of(traced(EXAMPLES / "late-timer.uvt"))
    check("trace events, a callback that took long", slice_of(events, "save") == [(10007, 50001)], slice_of(events, "save"))
    late = [(it["ph"], it["ts"]) for it in events if it["name"] == "beat is due"]
    check("trace events, a timer that was late", late == [("b", 15000), ("e", 50013)], late)
    events, _ = wrong_of(traced(EXAMPLES / "sends-are-one.uvt"))
    arrows = [it for it in events if it["ph"] in "sf"]
    check("trace events, three sends and one call", len(arrows) == 6 and len({it["ts"] for it in arrows if it["ph"] == "f"}) == 1, arrows)
    events, _ = wrong_of(traced(EXAMPLES / "done-out-of-order.uvt"))
    ran = {(it["name"], it["tid"]): it["dur"] for it in events if it["ph"] == "X" and it["cat"] == "pool"}
    # (worker 0 has `long` from step 4 to 7, and worker 1 `short` from 5 to 6)
    check("trace events, the workers", ran == {("long", 10): 3, ("short", 11): 1}, ran)
    asked = sorted(it["name"] for it in events if it["ph"] == "b" and it["cat"] == "request")
    check("trace events, the requests", asked == ["long", "short"], asked)


def profile_wrong(nodes: list[dict], samples: list[int], deltas: list[int]) -> list[str]:
    """What is wrong with a profile of V8's: each node but the root has a parent in front of it, each sample a node, and no time is below 0."""
    wrong: list[str] = []
    known: set[int] = set()
    for it in nodes:
        if it["id"] in known or (known and it.get("parent") not in known):
            wrong.append(f"{it} has no parent, or another one's number")
        known.add(it["id"])
        if not {"functionName", "scriptId", "url", "lineNumber", "columnNumber"} <= it["callFrame"].keys():
            wrong.append(f"{it} is no function")
    if len(samples) != len(deltas) or min(deltas, default=0) < 0 or not set(samples) <= known:
        wrong.append("samples without a time or a node")
    return wrong


def try_javascript(check: Check, folder: str) -> None:
    """Recordings of node: what DevTools and Perfetto get of their JavaScript."""
    for name in ("json", "server", "pool", "nested"):
        data = log_at(HERE / "javascript" / "node20" / f"{name}.log").read_bytes()
        from_data(data, read_log(data), str(Path(folder) / f"js-{name}"))
        path = next(it for it in (Path(folder) / f"js-{name}.rec", Path(folder) / f"js-{name}.2.rec") if it.exists())
        events, wrong = wrong_of(traced(path))
        check(f"trace events of {name}.js in node", not wrong, wrong[:5])
        check(f"trace events of {name}.js, in order", [it["ts"] for it in events] == sorted(it["ts"] for it in events), "they aren't in order")
        mine = [it for it in events if it["pid"] == 2]
        (chunk,) = [it["args"]["data"] for it in mine if it["name"] == "ProfileChunk"]
        wrong = profile_wrong(chunk["cpuProfile"]["nodes"], chunk["cpuProfile"]["samples"], chunk["timeDeltas"])
        check(f"samples of {name}.js", not wrong and len(chunk["cpuProfile"]["samples"]) > 20, wrong[:5])
        installed = {it["args"]["data"]["timerId"] for it in mine if it["name"] == "TimerInstall"}
        fired = {it["args"]["data"]["timerId"] for it in mine if it["name"] == "TimerFire"}
        check(f"each timer of {name}.js that is called was started", fired and fired <= installed, (fired, installed))
        late = [json.loads(it["args"]["detail"])["devtools"] for it in mine if it["ph"] == "b" and it["name"].rpartition(" is late by ")[1]]
        said = limited([str(ROOT / "tools" / "uvt" / "uvt-why"), str(path)], capture_output=True, text=True, env=os.environ).stdout
        said = " ".join(said.split())
        # (of calls that are alike the latest one is told without a name)
        for it in sorted(late, key=lambda it: -int(it["tooltipText"].split(" ")[2]))[:1]:
            check(f"why a timer of {name}.js was late", dict(it["properties"])["why"][:60] in said, (it, said[:2000]))
        check(f"late timers of {name}.js", bool(late) == ("the latest timers of JavaScript" in said), late)
        arrows = {it["id"]: it["ph"] for it in mine if it["ph"] in "sf"}
        check(f"who asked for what in {name}.js", len(arrows) > 0 and set(arrows.values()) == {"f"}, arrows)
        ran = limited([VIEW, "--cpuprofile", str(path)], capture_output=True, text=True, env=os.environ)
        profile = json.loads(ran.stdout)
        children = {child for it in profile["nodes"] for child in it["children"]}
        hits = sum(it["hitCount"] for it in profile["nodes"])
        good = children == {it["id"] for it in profile["nodes"]} - {1} and hits == len(profile["samples"]) == len(profile["timeDeltas"])
        check(
            f"the profile of {name}.js",
            good and profile["endTime"] - profile["startTime"] == sum(profile["timeDeltas"]) and profile["startTime"] > 0,
            ran.stdout[:300],
        )


def try_changed(check: Check) -> None:
    """A file with a fault is one: an end that is left out, an arrow that ends nowhere, a phase that is none, an end before its beginning."""
    whole = json.loads(traced(EXAMPLES / "sends-are-one.uvt"))
    events = whole["traceEvents"]
    end = next(at for at, it in enumerate(events) if it["ph"] == "E")
    arrow = next(at for at, it in enumerate(events) if it["ph"] == "f")
    for what, changed in (
        ("without an end", events[:end] + events[end + 1 :]),
        ("with an arrow to nowhere", [*events[:arrow], events[arrow] | {"ts": 1e12}, *events[arrow + 1 :]]),
        ("with a phase that is none", [*events, events[end] | {"ph": "Z"}]),
        ("with an end that is too early", [*events[:end], events[end] | {"ts": 0}, *events[end + 1 :]]),
    ):
        check(f"trace events {what}", wrong_of(json.dumps(whole | {"traceEvents": changed}))[1], "nothing is wrong")


def try_trace_events(tries: Tries) -> None:
    check = tries.check
    try_changed(check)
    for path in sorted([*EXAMPLES.glob("*.uvt"), *EXAMPLES.glob("*.rec")]):
        events, wrong = wrong_of(traced(path))
        check(f"trace events of {path.name}", events and not wrong, wrong[:5])
    try_known(check)
    with tempfile.TemporaryDirectory() as folder:
        try_javascript(check, folder)
        logs = [f"truths/{it}" for it in ("pool", "watched", "starve", "chat")] + [
            f"logs/{it}" for it in ("threads", "node-late", "uvloop-echo", "starved")
        ]
        for log in (log_at(HERE / f"{it}.log") for it in logs):
            data = log.read_bytes()
            from_data(data, read_log(data), str(Path(folder) / log.stem))
            for path in sorted(Path(folder).glob(f"{log.stem}*.rec")):
                events, wrong = wrong_of(traced(path))
                calls = path.read_text().partition("\ncalls\n")[2].count("\n") - 1
                begun = sum(it["ph"] == "B" and it["cat"] in ("callback", "after callback", "close callback") for it in events)
                check(f"trace events of {path.name}", not wrong and begun == calls, (begun, calls, wrong[:5]))
