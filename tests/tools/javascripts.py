"""What `why` says of programs in node whose causes are known: javascript/ has their sources, and logs that were recorded with node 18, whose
libuv is a library, and with node 20, which has it within it, each with what the program said of itself.

Each question has by hand which function and line are at fault, read off the source. Without the lines J, as a recorder without the hook
writes the log, no answer names them; and the recording is the same. Each time in ms is held against what the program printed.
"""

from __future__ import annotations

import base64
import os
import re
import subprocess
import tempfile
from dataclasses import replace
from pathlib import Path
from typing import Any

ROOT = Path(__file__).resolve().parent.parent.parent
from tests.helper import Tries, limited, log_at
from uvt.inputs import read_input
from uvt.javascript_pieces import fitted
from uvt.notes_read import read_notes
from uvt.overview import Overview, long_callbacks
from uvt.record.javascript import ended
from uvt.record.log import read_log
from uvt.record.maps import Maps, lines_of, numbers
from uvt.record.run import from_data
from uvt.record.started import name_for
from uvt.view import Page
from uvt.walk import Walk
from uvt.why import why
from uvt.why_javascript import WhyJavaScript

FOLDER = Path(__file__).resolve().parent / "javascript"
NODES = ("node18", "node20")
# (the clock of a log has whole milliseconds, and a timer says what its work took, without what comes before and behind it)
ALLOWED = 3
# What is said by looks alone, `about`, may be off by this part of it; and anything in a log of a busy machine, where others may have the processor
# between the recorder's look at the clock and the program's.
OF_LOOKS = 0.1
BUSY = 0.03
COLUMNS = 120
# Of each program whom somebody asks about, whom of the loop he would have to ask about without the hook, and what is to be said.
TIMERS = "environment_runtimers"
QUESTIONS = {
    "json": (
        "beat",
        TIMERS,
        r"late by \d+ ms: load \(json\.js:6\) took (?:about )?\d+ ms, nearly all of it at line 8: `const users = JSON\.par.*"
        r"load \(json\.js:6\): a timer of 33 ms, started at json\.js:18",
    ),
    "syncfs": (
        "poll",
        TIMERS,
        r"readConfig \(syncfs\.js:6\) took (?:about )?\d+ ms, nearly all of it in readFileSync, which it calls.*"
        r": a timer of 20 ms, started at syncfs\.js:19",
    ),
    "crypto": (
        "heartbeat",
        TIMERS,
        r"login \(crypto\.js:14\), from an event, took (?:about )?\d+ ms, (?:nearly all|most) of it in check \(crypto\.js:7\), "
        r"in its call of pbkdf2Sync",
    ),
    "nested": ("answer", TIMERS, r"refresh \(nested\.js:21\).* took (?:about )?\d+ ms, nearly all of it in score \(nested\.js:5\), at line 8"),
    "promise": (
        "beat",
        TIMERS,
        r"migrate \(promise\.js:5\), from a promise, took (?:about )?\d+ ms, (?:nearly all|most) of it in convert \(promise\.js:15\), at line 17",
    ),
    "ticks": ("save", TIMERS, r"drain \(ticks\.js:6\), from process\.nextTick, took (?:about )?\d+ ms"),
    "server": (
        "timeout",
        TIMERS,
        r"handle \(server\.js:16\), from an event, took (?:about )?\d+ ms, .* of it in render \(server\.js:6\), at line 10",
    ),
    "immediate": (
        "save",
        TIMERS,
        r"flush \(immediate\.js:6\) took (?:about )?\d+ ms, (?:nearly all|most) of it at line 9.*: an immediate, started at immediate\.js:\d+",
    ),
    "pool": (
        "fs_stat",
        "fs_stat",
        r"ms it waited for a worker.*the workers had \d requests, asked for at pool\.js:8, in hash.*asked for at pool\.js:12, in readSettings",
    ),
    "unref": ("cleanup", TIMERS, r"never called: `unref` at unref\.js:13 "),
    "drift": (
        "sample",
        TIMERS,
        r"compact \(drift\.js:14\) took (?:about )?\d+ ms.*compact \(drift\.js:14\): an interval of 70 ms, started at drift\.js:22.*"
        r"drift: call 20 came",
    ),
}


def made(name: str, data: bytes) -> Path:
    """The recording of the loop that has the program's JavaScript."""
    lines, whole = from_data(data, read_log(data), name)
    assert whole, lines
    return Path(f"{name}.rec") if Path(f"{name}.rec").is_file() else Path(f"{name}.2.rec")


def answer(path: Path, name: str) -> str:
    script, commands = read_input(path)
    with Walk(script, commands) as walk:
        lines = why(walk, name) if name in script.names() else WhyJavaScript(walk).answer(name)
        return "\n".join(row for line in lines for row in (fitted(line) if script.notes.javascript else [line]))


def unfolded(said: str) -> str:
    """An answer in a line: where it is folded goes by how long the numbers in it are."""
    return re.sub(r"\n *", " ", said)


# ---- what the program said of itself


def said_by(path: Path) -> tuple[dict[str, list[float]], dict[tuple[str, int], tuple[float, float]]]:
    """By a name how long it took, each time; by a name and a call how late that was, the least and the most."""
    took: dict[str, list[float]] = {}
    late = {}
    for line in path.read_text().splitlines():
        match line.split(" "):
            case ["took", name, ms]:
                took.setdefault(name, []).append(float(ms))
            case ["late", name, call, least, most]:
                late[name, int(call)] = float(least), float(most)
    return took, late


def try_said(tries: Tries, what: str, name: str, said: str, path: Path, busy: float = 0) -> None:
    """Each time of an answer beside what the program printed: how late a call was, how long a function took, and the collector in it."""
    took, late = said_by(path)
    said = unfolded(said)
    for call, how in re.findall(r"call (\d+): (on time|late by \d+ ms)", said):
        least, most = late[name, int(call)]
        ms = int(how.split(" ")[2]) if how != "on time" else 0
        allowed = max(ALLOWED, busy * most)
        tries.check(f"{what}: how late call {call} was", least - allowed <= ms <= most + allowed, (how, least, most))
    for function, about, ms in re.findall(r"(\w+) \([^()]*\)(?:, from [a-zA-Z. ]+,)? took (about )?(\d+) ms", said):
        rows = took.get(function)
        if rows:
            # (looks come late on a busy machine)
            allowed = max(ALLOWED, int(ms) * (OF_LOOKS if about else busy))
            tries.check(f"{what}: how long {function} took", min(abs(it - int(ms)) for it in rows) <= allowed, (ms, rows))
    for ms in re.findall(r"(\d+) of \d+ ms in the collector", said)[:1] if "collector" in took else ():
        allowed = max(ALLOWED, int(ms) * busy)
        tries.check(f"{what}: how long the collector took", abs(took["collector"][0] - int(ms)) <= allowed, (ms, took["collector"]))
    for ms in re.findall(r"called (\d+) ms after it was asked for", said):
        tries.check(
            f"{what}: how long it was until its callback", min(abs(it - int(ms)) for it in took["settings"]) <= ALLOWED, (ms, took["settings"])
        )


def try_truth(tries: Tries, node: str) -> None:
    """When timers were due and how long they took, beside what they said themselves."""
    path = made("truth", log_at(FOLDER / node / "truth.log").read_bytes())
    javascript = read_notes(path, path.read_bytes()).javascript
    spans = {it.id: it for it in javascript.spans}
    rows = [[float(it) for it in line.split(" ")] for line in (FOLDER / node / "truth.said").read_text().splitlines()]
    tries.check(f"javascript {node} truth: forty timers", len(rows) == 40 and len(spans) == 40, len(spans))
    for (at, least, most, took), id in zip(sorted(rows), sorted(spans)):
        span = spans[id]
        late = span.begin - span.due
        tries.check(f"javascript {node} truth: how late timer {at:.0f} was", least - ALLOWED <= late <= most + ALLOWED, (least, late, most))
        tries.check(
            f"javascript {node} truth: how long timer {at:.0f} took", abs(span.end - span.begin - took) <= ALLOWED, (span.end - span.begin, took)
        )


def try_chain(tries: Tries) -> None:
    """Who asked for a timer, through two awaits and a request of the pool, back to the request of HTTP. (Of two functions in
    one line each is told.)"""
    path = made("chain", log_at(FOLDER / "node20" / "chain.log").read_bytes())
    said = unfolded(answer(path, "hello"))
    wanted = (
        r"asked for by greet \(chain\.js:16\), called by createUser \(chain\.js:21\), asked for by query \(chain\.js:13\), called by findUser"
        r" \(chain\.js:13\), called by createUser \(chain\.js:20\), in an HTTP request at step \d+"
    )
    tries.check("javascript node20 chain: who asked for hello", re.search(wanted, said), said)
    tries.check("javascript node20 chain: who was in its way", re.search(r"late by \d+ ms: .* took \d+ ms, .* in works \(chain\.js:7\)", said), said)
    (request,) = [it for it in read_notes(path, path.read_bytes()).javascript.asked if it[0].startswith("fs_open")]
    said = unfolded(answer(path, request[0]))
    tries.check(
        "javascript node20 chain: who asked for the file",
        re.search(r"asked for at chain\.js:13, in query, called by findUser .*, in an HTTP request at step \d+", said),
        said,
    )
    took, _ = said_by(FOLDER / "node20" / "chain.said")
    mine = re.findall(r"\(anonymous\) \(chain\.js:22\) took (\d+) ms", unfolded(answer(path, "hello")))
    tries.check("javascript node20 chain: how long it was in the way", mine and abs(int(mine[0]) - took["crowd"][0]) <= ALLOWED, (mine, took))


# Programs whose heartbeat waits for a call of node's or of V8's, and what is to be said.
STOOD_STILL = {
    "deploy": r"deploy \(deploy\.js:6\) took \d+ ms, nearly all of it in execSync, which it calls, (\d+) ms of that in a process that it waited for",
    "atomics": r"waitForValue \(atomics\.js:6\) took \d+ ms, nearly all of it at line 8(?:: `[^`]*`)?, (\d+) ms of that in pthread_cond_timedwait",
    "gzip": r"pack \(gzip\.js:7\) took (\d+) ms, nearly all of it in syncBufferWrapper, which it calls",
    "regexp": r"validate \(regexp\.js:6\) took (\d+) ms, nearly all of it at line 8",
}


def try_stood_still(tries: Tries) -> None:
    """What such a call took of the function: all but what node had to do beside it, by what the program printed."""
    for name, wanted in STOOD_STILL.items():
        said = unfolded(answer(made(name, log_at(FOLDER / "node20" / f"{name}.log").read_bytes()), "heartbeat"))
        ((took,),) = said_by(FOLDER / "node20" / f"{name}.said")[0].values()
        found = re.search(wanted, said)
        tries.check(f"javascript node20 {name}: what it waited for", found and took * 0.7 <= int(found[1]) <= took + ALLOWED, said)
        try_said(tries, f"javascript node20 {name}", "heartbeat", said, FOLDER / "node20" / f"{name}.said")


# Programs with one planted cause each, recorded with node 20: whom somebody asks about, and what is to be said. Each is as a program is that a
# person has: a server, a module, a worker. What took long is named by the function and the line of the source.
PLANTED = {
    "abort": (
        "abort.js:13",
        r"AbortSignal\.timeout \(abort\.js:13\).*late by \d+ ms: ask \(abort\.js:12\) took \d+ ms, [a-z ]+ of it"
        r" in parse \(abort\.js:6\), at line 8",
    ),
    "cloned": ("heartbeat", r"snapshot \(cloned\.js:6\) took \d+ ms, [a-z ]+ of it at line 8: `const copy = structuredClone\(store\);`"),
    "crowd": ("heartbeat", r"handle \(crowd\.js:14\), from an event, took about \d+ ms, .* of it in reckon \(crowd\.js:8\), at line 10"),
    "debounce": ("search", r"never called never called: cleared at debounce\.js:10, in type.*never called: cleared at debounce\.js:17, in leave"),
    "folders": ("heartbeat", r"sizes \(folders\.js:6\) took \d+ ms, [a-z ]+ of it in statSync, which it calls"),
    "garbage": ("heartbeat", r"grow \(garbage\.js:9\) took \d+ ms, [a-z ]+ of it at line 12: `[^`]*`, \d+ of \d+ ms in the collector"),
    "lines": ("heartbeat", r"readAll \(lines\.js:11\), from a promise, took \d+ ms, [a-z ]+ of it in count \(lines\.js:7\), at line 8"),
    "listeners": ("heartbeat", r"publish \(listeners\.js:12\) took \d+ ms, [a-z ]+ of it in onPrice \(listeners\.js:8\), at line 9"),
    "microtasks": ("deadline", r"drain \(microtasks\.js:10\), from a promise, took \d+ ms, [a-z ]+ of it at line 13: `while \(queue"),
    "printing": ("pipe", r"a write of \d+ bytes, .*, was done \d+ ms later, at step \d+: for \d+ of these ms the loop waited in the poll"),
    "proxy": ("heartbeat", r"rank \(proxy\.js:11\) took \d+ ms, [a-z ]+ of it in \(anonymous\) \(proxy\.js:8\), at line 8: `return row\.parts"),
    "refreshed": ("limit", r"put off by \d+ ms: it was started at \d+ ms, and again at \d+ ms \(timer\.refresh\(\)\)"),
    "required": ("heartbeat", r"convert \(required\.js:5\) took \d+ ms, [a-z ]+ of it in \(anonymous\) \(rates\.js:1\), at line 4"),
    "saved": ("heartbeat", r"\(saved\.mjs:1\), from a promise, took (?:about )?\d+ ms, [a-z ]+ of it in serialize \(saved\.mjs:7\), at line 10"),
    "small": ("save", r"step \(small\.js:6\) took \d+ ms in \d+ calls, [a-z ]+ of it at line 9"),
    "sorted": ("heartbeat", r"order \(sorted\.js:10\) took \d+ ms, [a-z ]+ of it in byName \(sorted\.js:6\), at line 7"),
    "stringify": ("limit", r"list \(stringify\.js:18\), from an event, took about \d+ ms, [a-z ]+ of it in toJSON \(stringify\.js:10\), at line 11"),
    "worker": (
        "limit",
        r"\(worker\.js:22\), from an event, took about \d+ ms, [a-z ]+ of it in (?:\(anonymous\) \(worker\.js:13\)|show \(worker\.js:11\)), at "
        r"line 13",
    ),
}


def try_planted(tries: Tries, name: str) -> None:
    """Its cause is named, and each time of the answer is what the program printed."""
    what, log = f"javascript node20 {name}", FOLDER / "node20" / f"{name}.log"
    whom, wanted = PLANTED[name]
    path = made(name, log_at(log).read_bytes())
    said = answer(path, whom)
    script, commands = read_input(path)
    with Walk(script, commands) as walk:
        # (nothing of these programs is called there: what V8 found before was over)
        told = [it for it in long_callbacks(walk) if "in V8's tasks" in it and "took" in it]
    tries.check(f"{what}: nothing of it in V8's tasks", not told, told)
    tries.check(what, re.search(wanted, unfolded(said)) is not None, said)
    tries.check(f"{what}: in so many columns", max(map(len, said.splitlines())) <= COLUMNS, said)
    try_said(tries, what, "limit" if name == "abort" else whom, said, log.with_suffix(".said"), BUSY)
    own = [it for it in re.findall(r"step (\d+), call", said) if re.search(rf"node's timers took \d+ ms[^;:]*, from step {it} to", unfolded(said))]
    tries.check(f"{what}: a callback isn't late by all that itself took", not own, (own, said))


def try_lacks(tries: Tries) -> None:
    """A node that lacks something of V8 that the recorder asks for: which, and what isn't known for that, is said at once."""
    data = log_at(FOLDER / "node20" / "json.log").read_bytes()
    lacks = (
        b"- J lacks _ZN2v811CpuProfiler19SetSamplingIntervalEi\n- J lacks _ZN2v811CpuProfiler7DisposeEv\n"
        b"- J lacks _ZN2v87Isolate21AddGCPrologueCallbackEPFvPS0_NS_6GCTypeENS_15GCCallbackFlagsEES2_\n"
        b"- J lacks _ZN2v87Isolate14GetStackSampleERKNS_13RegisterStateEPPvmPNS_10SampleInfoE\n"
    )
    head, rest = data.split(b"\n", 1)
    lines, whole = from_data(head + b"\n" + lacks + rest, read_log(head + b"\n" + lacks + rest), "json")
    due = [
        "this node has no v8::CpuProfiler::SetSamplingInterval, v8::CpuProfiler::Dispose: so which functions were under way isn't known",
        "this node has no v8::Isolate::AddGCPrologueCallback: so how long the collector took isn't known",
    ]
    tries.same("javascript, what a node lacks", ([it for it in lines if "this node" in it], whole), (due, True))


def try_ends(tries: Tries) -> None:
    """A look counts up to the next one, and where that comes late no farther than the callback of the loop in which it was; what is between two of
    these no farther than to the next one."""
    callbacks = [(1, 20), (40, 50)]
    for begin, end, due in ((5_000, 60_000, 21_000), (5_000, 9_000, 9_000), (30_000, 60_000, 41_000), (60_000, 61_000, 61_000), (0, 9_000, 2_000)):
        tries.same(f"javascript, where a look from {begin} to {end} ends", ended(begin, begin, end, callbacks), due)
    tries.same("javascript, where a look ends that began a callback before", ended(19_000, 20_600, 60_000, [(1, 20), (20, 50)]), 21_000)


def try_punctual(tries: Tries) -> None:
    """An interval of which each call came when it was due: nothing drifts, and nothing is late."""
    path = made("drift", log_at(FOLDER / "node20" / "drift.log").read_bytes())
    script, commands = read_input(path)
    with Walk(script, commands) as walk:
        asked = WhyJavaScript(walk)
        (sample,) = asked.js.named("sample")
        calls = asked.spans[sample.id]
        due = [calls[0].begin + sample.delay * number for number in range(len(calls))]
        asked.spans[sample.id] = [replace(it, due=at, begin=at, end=at) for it, at in zip(calls, due)]
        said = asked.answer("sample")
    drifts = [it for it in said if it.startswith("drift")]
    tries.check("javascript node20 drift: each on time", f"each on time, from {due[0]} ms to {due[-1]} ms" in said and not drifts, said)


def try_maps(tries: Tries) -> None:
    """Places are those of what a person wrote, where a file's map says so: of a program in TypeScript, and of maps made by hand."""
    wanted = r"close \(shop\.ts:24\) took \d+ ms, [a-z ]+ of it in (?:Shop\.)?total \(shop\.ts:13\), at line 1[56]: `[^`]*.*started at shop\.ts:34"
    log = FOLDER / "node20" / "shop.log"
    said = answer(made("shop", log_at(log).read_bytes()), "heartbeat")
    tries.check("javascript node20 shop, in TypeScript", re.search(wanted, unfolded(said)) and "shop.js" not in said, said)
    try_said(tries, "javascript node20 shop", "heartbeat", said, log.with_suffix(".said"), BUSY)
    # (as it is without its map)
    Path("shop.js.map").rename("shop.map")
    said = answer(made("shop", log_at(log).read_bytes()), "heartbeat")
    tries.check("javascript node20 shop, without its map", "close (shop.js:16)" in said and "shop.ts" not in said, said)
    Path("shop.map").rename("shop.js.map")
    tries.same("javascript, numbers of a map", numbers("AAgBC2F"), [0, 0, 16, 1, 91])
    # (line 2 comes from lines 3 and 4 of the source, and line 3 from line 5 of another one)
    for mappings, due in (("AAAA;AAEA,CACA;ACCA", {1: (0, 1), 3: (1, 5)}), ("", {}), (";;AACA", {3: (0, 2)})):
        tries.same(f"javascript, the map {mappings}", lines_of(mappings), due)
    for text in ("{}", '{"sources": [1], "mappings": 7}', '{"sources": ["a.ts"], "mappings": "!"}', "[" * 100_000, "{"):
        Path("bad.js").write_text("1;\n//# sourceMappingURL=bad.js.map\n")
        Path("bad.js.map").write_text(text)
        tries.same(f"javascript, a bad map {text[:20]}", Maps().place("bad.js:1"), "bad.js:1")
    data = base64.b64encode(b'{"sources": ["a.ts"], "mappings": "AAGA"}').decode()
    Path("bad.js").write_text(f"1;\n//# sourceMappingURL=data:application/json;base64,{data}\n")
    tries.same("javascript, a map within the file", Maps().place("bad.js:1"), "a.ts:4")


def try_exits(tries: Tries) -> None:
    """A program that ends before its loop calls anything, as a compiler does: what took its time is said, and that there is no recording."""
    data = log_at(FOLDER / "node20" / "exits.log").read_bytes()
    lines, whole = from_data(data, read_log(data), "exits")
    said = " ".join(it.strip() for it in lines)
    wanted = (
        r"loop 2: it called nothing, so there is no recording: the program ended before its loop began"
        r" exits\.js, from the main program, took about \d+ ms, [a-z ]+ of it in (?:compile \(exits\.js:5\)|\(anonymous\) \(exits\.js:8\)), at line 8"
    )
    tries.check("javascript node20 exits", whole and re.search(wanted, said) and not Path("exits.rec").exists(), lines)


# ---- a recording with a handle for each timer


def called(data: bytes) -> list[tuple[str, str]]:
    """Which timers and immediates were called, in order, by the log's own lines: where the function of each begins, and where it was started."""
    places: dict[str, str] = {}
    asked: dict[str, tuple[str, str]] = {}
    found = []
    for line in data.decode().splitlines():
        words = line.split(" ")
        if line.startswith("- J place "):
            places[words[3]] = words[-1].rpartition("/")[2]
        elif words[1:2] == ["J"] and words[4:5] == ["new"]:
            asked[words[5]] = places.get(words[7], "-"), places.get(words[8].split("<")[0], "-")
        elif words[1:2] == ["J"] and words[4:5] == ["run"]:
            found.append(asked[words[5]])
    return found


def try_lifted(tries: Tries, node: str, name: str) -> None:
    """A second recording in which each timer and immediate is a handle: it goes to its end, and calls what the program called."""
    data, what = log_at(FOLDER / node / f"{name}.log").read_bytes(), f"javascript {node} {name}, lifted"
    log = read_log(data)
    lines, whole = from_data(data, log, name, lifts=True)
    tries.check(f"{what}: same to its end", whole and any("lifted: " in it for it in lines), lines)
    path = next(Path().glob(f"{name}*.lift.rec"))
    recording, notes = path.read_text(), read_notes(path, path.read_bytes())
    calls = [it.split(" ")[1] for it in recording.partition("\ncalls\n")[2].splitlines() if it.startswith("call ")]
    counts: dict[str, int] = {}
    said = []
    for call in calls:
        counts[call] = counts.get(call, 0) + 1
        if "of JavaScript" in notes.names[call][1]:
            said.append(re.search(r"\((?:.*/)?([^/]*:\d+)\)$", notes.function("on", call, counts[call])))
    wanted = called(data)
    functions = [it[1] if it else "-" for it in said]
    agrees = len(wanted) == len(functions) and all(have in one or have == "-" for have, one in zip(functions, wanted))
    tries.check(f"{what}: its calls are the program's", agrees, (functions, wanted))
    verdict = limited([os.environ["UVT"], "replay"], input=path.read_bytes(), capture_output=True).stdout.decode().strip()
    tries.check(f"{what}: replay", verdict == "same", verdict)
    path.unlink()


def try_find(tries: Tries) -> None:
    """The search is asked by a line of the program, as docs/NODE.md does. Time goes by once, by 100 ms, or where the loop waits for it: so who
    waits is late by these."""
    data = log_at(FOLDER / "node20" / "app.log").read_bytes()
    from_data(data, read_log(data), "app", lifts=True)
    for late, wanted in ((100, r"found in \d+ steps"), (101, r"never within clock 3000: \d+ states, every order")):
        words = ["app.lift.rec", "may tick 100 1", "may wait", "most clock 3000", f"find late app.js:19 {late}"]
        ran = limited([str(ROOT / "tools" / "uvt" / "uvt-find"), *words], capture_output=True, text=True)
        tries.check(f"javascript, find late app.js:19 {late}", re.match(wanted, ran.stdout) is not None, ran)
        whom = "app.js:19 is `remind`: remind (app.js:19), a timer of JavaScript, started at app.js:19\n"
        tries.check("javascript, find: whom it is about", whom in ran.stderr, ran.stderr)
    ran = subprocess.run([str(ROOT / "tools" / "uvt" / "uvt-find"), "app.lift.rec", "find call app.js:3"], capture_output=True, text=True)
    tries.check(
        "javascript, find: a line of nobody's", ran.returncode == 70 and "no timer and no immediate was started at app.js:3" in ran.stderr, ran
    )


# ---- each program, and what else is told


def try_one(tries: Tries, node: str, name: str) -> None:
    try_asked(tries, f"javascript {node} {name}", FOLDER / node / f"{name}.log", *QUESTIONS[name], ".js:")


def try_asked(tries: Tries, what: str, log: Path, function: str, handle: str, wanted: str, source: str, timer: str = "") -> None:
    """One question about a log, and what its program said of that; `timer` is its name there, where that is another one."""
    name, data = log.stem, log_at(log).read_bytes()
    path = made(name, data)
    said = answer(path, function)
    tries.check(what, re.search(wanted, unfolded(said)) is not None, said)
    tries.check(f"{what}: in so many columns", max(map(len, said.splitlines())) <= COLUMNS, said)
    try_said(tries, what, timer or function, said, log.with_suffix(".said"))
    steps = path.read_text().split("begin\n")[1]
    # (as a recorder without the hook has it)
    bare = b"".join(it for it in data.splitlines(keepends=True) if not re.match(rb"(-|\d+) J ", it))
    for it in (path, path.with_suffix(".notes")):
        it.unlink()
    path = made(name, bare)
    said = answer(path, handle)
    tries.check(f"{what}: without the hook nobody knows", re.search(wanted, unfolded(said)) is None and source not in said, said)
    tries.check(f"{what}: the recording is the same", path.read_text().split("begin\n")[1] == steps, "other steps")
    path.unlink()


def try_notes(tries: Tries, node: str) -> None:
    """What is written is what is read; and the page and the overview have the functions, and not what node has for itself."""
    path = made("json", log_at(FOLDER / node / "json.log").read_bytes())
    recording = path.read_bytes()
    notes = read_notes(path, recording)
    tries.check("javascript: notes are read as they were written", notes.text(recording) == path.with_suffix(".notes").read_text(), "")
    script, commands = read_input(path)
    with Walk(script, commands) as walk:
        told = "\n".join(Overview(walk).answer("why NAME"))
        own = [it for it in (TIMERS, "perisolateplatformdata", "lambda_", "async", "idle") if it in told]
        tries.check(
            f"javascript {node}: the overview",
            "the latest timers of JavaScript\n    beat (json.js:13)" in told and "functions of JavaScript: beat, load" in told,
            told,
        )
        tries.check(f"javascript {node}: the overview has nothing of node's own", not own, (own, told))
        tries.check(f"javascript {node}: in so many columns", max(map(len, told.splitlines())) <= COLUMNS, told)
        page: dict[str, Any] = Page(walk).values()
        lanes = {it["name"] for it in page["lanes"]}
        tries.check(f"javascript {node}: lanes", {"beat", "load"} <= lanes and not {"perisolateplatformdata_flu", "async", "idle"} & lanes, lanes)
        tries.check(f"javascript {node}: a long callback", any(it[2] == "load (json.js:6)" for it in page["long"]), page["long"])


def try_names(tries: Tries) -> None:
    """What the files of a recording are called, and that two wishes don't go together."""
    for words, wanted in (
        (["node", "json.js"], "json"),
        (["node", "--no-warnings", "json", "x"], "json"),
        (["/usr/bin/node", "-e", "1"], "node"),
        (["node", "nowhere.js"], "node"),
        (["./json.js"], "json.js"),
        (["python3.11", "said.js"], "said"),
        (["late", "json.js"], "late"),
    ):
        tries.check(f"javascript, the name of {words}", name_for(words) == wanted, name_for(words))
    ran = limited([str(ROOT / "tools" / "uvt" / "uvt-record"), "--bare", "--lift", "node", "json.js"], capture_output=True, text=True)
    tries.check("javascript, --bare and --lift", ran.returncode == 2 and "--lift takes what --bare leaves out" in ran.stderr, ran)


def try_killed(tries: Tries) -> None:
    """A program that was in a `for (;;)` for some seconds, and was ended by SIGKILL: its looks are there, up to its last second."""
    path = made("forever", log_at(FOLDER / "node20" / "forever.log").read_bytes())
    said = unfolded(answer(path, "spin"))
    found = re.search(r"never ended: it was under way for (\d+) ms as the log ends, nearly all of it at line 6: `for \(;;\) count\+\+;`", said)
    tries.check("javascript, killed: what never ended", found is not None and 2000 <= int(found[1]) <= 4500, said)
    script, commands = read_input(path)
    with Walk(script, commands) as walk:
        told = unfolded("\n".join(Overview(walk).answer("why NAME")))
        tries.check(
            "javascript, killed: what it was at",
            re.search(r"ENDED BY SIGKILL: .*; spin \(forever\.js:5\) took \d+ ms, .* by then", told) is not None,
            told,
        )
        tries.check("javascript, killed: nothing of node's own", "never called" not in told, told)


def try_shell(tries: Tries) -> None:
    """A step shows where JavaScript is, and a break stops there: load begins at line 6, and took its time at line 8."""
    made("json", log_at(FOLDER / "node20" / "json.log").read_bytes())
    here = r"    found most in load \(json\.js:6\), at line 8: `const users = JSON\.parse\(text\);`"
    for lines, wanted in (
        (["run", "break json.js:8", "continue"], [here, r"break javascript json\.js:8, #1, at \d+", r"    load \(json\.js:8\)"]),
        (["run", "tbreak json.js:9", "continue", "info breaks"], ["nothing was seen at line 9: the break is at line 8", "no breaks"]),
        (["break json.js:6", "reverse-continue"], ["break ok", r"break javascript json\.js:6, #1, at \d+"]),
        (["break other.js:6"], [r"no function of other\.js was seen under way in a callback"]),
        (["run", "break json.js:8", "continue", "step", "where"], [r"    in load \(json\.js:8\)"]),
        (["why load"], [r"load \(json\.js:6\): a timer of 33 ms, started at json\.js:18, 1 call"]),
        (["why laod"], ["no name `laod`, and no function or line of JavaScript that was seen: did you mean `load`\\?"]),
    ):
        ran = limited([str(ROOT / "tools" / "uvt" / "uvt-shell"), "json.rec"], input="\n".join(lines) + "\n", capture_output=True, text=True)
        found = all(re.search(f"^{it}$", ran.stdout, re.MULTILINE) for it in wanted)
        tries.check(f"javascript, shell, {lines}", found and "Traceback" not in ran.stderr, ran)


def try_page(tries: Tries) -> None:
    """The page names each program whose cause is planted, and says how many there are."""
    page = (ROOT / "docs" / "NODE.md").read_text()
    planted = {*QUESTIONS, *STOOD_STILL, *PLANTED, "app", "chain"}
    found = re.search(r"Of (\d+) programs with a planted cause `why` names (\d+),", page)
    tries.check("javascript, NODE: how many", found and int(found[1]) == int(found[2]) == len(planted), (found, len(planted)))
    table = page.partition("| What held it up, or why it never came |")[2].partition("\n\n")[0]
    rows = [row.rpartition("| ")[2] for row in table.splitlines()]
    named = [it for row in rows for it in re.findall(r"`(\w+)`", row)]
    tries.check("javascript, NODE: which", sorted(named) == sorted(planted), set(named) ^ planted)


def try_javascript(tries: Tries) -> None:
    before = os.getcwd()
    with tempfile.TemporaryDirectory() as folder:
        os.chdir(folder)
        try:
            for source in (it for it in FOLDER.iterdir() if it.is_file()):
                # (the lines of the program are read from its files, as they lie where it was started)
                Path(source.name).write_bytes(source.read_bytes())
            for node in NODES:
                for name in QUESTIONS:
                    try_one(tries, node, name)
                for name in [*QUESTIONS, "truth"]:
                    try_lifted(tries, node, name)
                try_notes(tries, node)
                try_truth(tries, node)
            for name in PLANTED:
                try_planted(tries, name)
            try_exits(tries)
            try_maps(tries)
            try_lacks(tries)
            try_ends(tries)
            try_punctual(tries)
            try_chain(tries)
            try_stood_still(tries)
            try_find(tries)
            try_shell(tries)
            try_killed(tries)
            try_names(tries)
            try_page(tries)
        finally:
            os.chdir(before)
