"""Tries the debug adapter (tools/uvt/uvt-dap) by a client that holds each message against the protocol's published shapes."""

from __future__ import annotations

import json
import os
import shutil
import subprocess
import tempfile
import time
from pathlib import Path

from tests.helper import Check, Tries, log_at
from uvt.conversation import Conversation
from uvt.inputs import read_input

ROOT = Path(__file__).resolve().parent.parent.parent
EXAMPLES = ROOT / "crates" / "examples" / "data"
CONVERSATIONS = ROOT / "tests" / "program" / "conversations"
# An async handle that a callback of I/O sends to, in a poll that nobody woke.
BEFORE_SENDS = "what-a-callback-of-i-o-sends-to-in-a-poll-that-nobody-woke-is-called-an-iteration-later"
ADAPTER = str(ROOT / "tools" / "uvt" / "uvt-dap")
RECORD = str(ROOT / "tools" / "uvt" / "uvt-record")
# (for an adapter that hangs)
SECONDS = 600

# The shapes of the protocol (its JSON schema), of what the adapter sends: a field's type, `?` where it may be missing; a list has
# the shape of its items.
SOURCE = {"name": str, "path": str}
BREAKPOINT = {"verified": bool, "line?": int, "message?": str}
BODIES: dict[str, dict | None] = {
    "initialize": {
        "supportsConfigurationDoneRequest": bool,
        "supportsFunctionBreakpoints": bool,
        "supportsStepBack": bool,
        "supportsConditionalBreakpoints": bool,
        "supportsHitConditionalBreakpoints": bool,
        "supportsLogPoints": bool,
        "supportsTerminateRequest": bool,
        "supportsGotoTargetsRequest": bool,
        "exceptionBreakpointFilters": [{"filter": str, "label": str}],
    },
    "launch": None,
    "configurationDone": None,
    "disconnect": None,
    "terminate": None,
    "setExceptionBreakpoints": None,
    "pause": None,
    "next": None,
    "stepIn": None,
    "stepOut": None,
    "stepBack": None,
    "reverseContinue": None,
    "continue": {"allThreadsContinued": bool},
    "setBreakpoints": {"breakpoints": [BREAKPOINT]},
    "setFunctionBreakpoints": {"breakpoints": [BREAKPOINT]},
    "threads": {"threads": [{"id": int, "name": str}]},
    "stackTrace": {"stackFrames": [{"id": int, "name": str, "line": int, "column": int, "source?": SOURCE}], "totalFrames": int},
    "scopes": {"scopes": [{"name": str, "variablesReference": int, "expensive": bool}]},
    "variables": {"variables": [{"name": str, "value": str, "variablesReference": int}]},
    "gotoTargets": {"targets": [{"id": int, "label": str, "line": int}]},
    "goto": None,
    "evaluate": {"result": str, "variablesReference": int},
}
EVENTS: dict[str, dict] = {
    "initialized": {},
    "stopped": {"reason": str, "threadId": int, "allThreadsStopped": bool},
    "output": {"category": str, "output": str},
}


def fits(value: object, shape: object) -> bool:
    if isinstance(shape, dict):
        if not isinstance(value, dict) or not value.keys() <= {it.rstrip("?") for it in shape}:
            return False
        return all(fits(value[name.rstrip("?")], it) if name.rstrip("?") in value else name.endswith("?") for name, it in shape.items())
    if isinstance(shape, list):
        return isinstance(value, list) and all(fits(it, shape[0]) for it in value)
    return type(value) is shape


def is_message(message: dict) -> bool:
    """Whether it is a response or an event as the protocol has them."""
    if type(message.get("seq")) is not int:
        return False
    if message.get("type") == "event":
        return message.keys() == {"seq", "type", "event", "body"} and fits(message["body"], EVENTS.get(message["event"]))
    head = {"seq": int, "type": str, "request_seq": int, "command": str, "success": bool}
    rest = {it: message[it] for it in message.keys() - {"body", "message"}}
    if message.get("type") != "response" or not fits(rest, head):
        return False
    if not message["success"]:
        return fits(message.get("message"), str) and fits(message.get("body"), {"error": {"id": int, "format": str}})
    shape = BODIES.get(message["command"])
    return "message" not in message and ("body" not in message if shape is None else fits(message.get("body"), shape))


class Client:
    """A client with an adapter of its own."""

    def __init__(self, check: Check, adapter: str = ADAPTER) -> None:
        self.check = check
        self.process = subprocess.Popen([adapter], stdin=subprocess.PIPE, stdout=subprocess.PIPE, stderr=subprocess.PIPE, env=os.environ)
        self.number = 0
        self.events: list[dict] = []

    def write(self, text: bytes) -> None:
        self.process.stdin.write(text)
        self.process.stdin.flush()

    def message(self, command: str, arguments: dict[str, object]) -> bytes:
        self.number += 1
        body = json.dumps({"seq": self.number, "type": "request", "command": command, "arguments": arguments}).encode()
        return b"Content-Length: %d\r\n\r\n" % len(body) + body

    def send(self, command: str, **arguments: object) -> None:
        self.write(self.message(command, arguments))

    def read(self) -> dict:
        length = 0
        while (line := self.process.stdout.readline().strip()) != b"":
            length = int(line.split(b":")[1])
        message = json.loads(self.process.stdout.read(length))
        self.check("adapter, the shape of a message", is_message(message), message)
        return message

    def ask(self, command: str, **arguments: object) -> dict:
        """The response's body; that of a refusal is its message."""
        self.send(command, **arguments)
        while (found := self.read())["type"] == "event":
            self.events.append(found)
        self.check("adapter, the response to its request", found["request_seq"] == self.number and found["command"] == command, found)
        return found.get("body", {}) if found["success"] else {"refused": found["message"]}

    def until(self, event: str) -> dict:
        while True:
            found = self.events.pop(0) if self.events else self.read()
            if found["type"] == "event" and found["event"] == event:
                return found["body"]

    def go(self, command: str) -> str:
        """Goes on or back, and answers why it stopped."""
        self.events.clear()
        self.ask(command, threadId=1)
        return self.until("stopped")["reason"]

    def begin(self, path: Path) -> None:
        self.ask("initialize", adapterID="uvt")
        self.ask("launch", program=str(path))
        self.until("initialized")

    def stack(self) -> list[tuple[str, int]]:
        return [(it["name"], it["line"]) for it in self.ask("stackTrace", threadId=1)["stackFrames"]]

    def length(self) -> int:
        rows = self.ask("variables", variablesReference=1)["variables"]
        return int(next(it["value"] for it in rows if it["name"] == "steps"))

    def children(self) -> list[int]:
        return [int(it) for it in Path(f"/proc/{self.process.pid}/task/{self.process.pid}/children").read_text().split()]

    def end(self) -> tuple[int, str]:
        self.process.stdin.close()
        told = self.process.stderr.read().decode()
        return self.process.wait(SECONDS), told


def try_breakpoints(check: Check) -> None:
    client = Client(check)
    client.begin(EXAMPLES / "late-timer.uvt")
    path = {"path": str(EXAMPLES / "late-timer.uvt")}
    shown = client.ask("setBreakpoints", source=path, breakpoints=[{"line": 17}, {"line": 1}, {"line": 7}])["breakpoints"]
    check("adapter, breakpoints on lines", [it["verified"] for it in shown] == [True, False, False], shown)
    shown = client.ask("setFunctionBreakpoints", breakpoints=[{"name": "save"}, {"name": "nobody"}])["breakpoints"]
    check("adapter, breakpoints on names", [it["verified"] for it in shown] == [True, False], shown)
    client.ask("setExceptionBreakpoints", filters=["section check"])
    client.ask("configurationDone")
    check("adapter, the entry", client.until("stopped")["reason"] == "entry" and client.length() == 0)
    # by hand, from the example's output: steps 16 and 28 are `check`, 20 is `call save`, and 34 is `call beat`
    stops = [(client.go("continue"), client.length()) for _ in range(4)]
    check("adapter, on", stops == [("exception", 16), ("function breakpoint", 20), ("exception", 28), ("breakpoint", 34)], stops)
    check("adapter, a stack", client.stack() == [("on beat now", 17), ("call 1 of `on beat`", 0), ("run default: timers fire", 0)], client.stack())
    rows = {it["name"]: it["value"] for it in client.ask("variables", variablesReference=1)["variables"]}
    check("adapter, the loop's numbers", (rows["now"], rows["clock"]) == ("50", "50"), rows)
    check("adapter, evaluate", client.ask("evaluate", expression="trace")["result"].endswith("call beat 2.0"))
    check("adapter, step out", (client.go("stepOut"), client.length()) == ("step", 35))
    client.ask("evaluate", expression="back 5")
    targets = client.ask("gotoTargets", source=path, line=17)["targets"]
    check("adapter, where a line comes next", targets == [{"id": 34, "label": "at 34", "line": 17}] and client.length() == 30, targets)
    client.ask("goto", threadId=1, targetId=34)
    check("adapter, goto", client.stack()[0] == ("on beat now", 17), client.stack())
    client.go("stepIn")
    backs = [(client.go("reverseContinue"), client.length()) for _ in range(len(stops) + 1)]
    check("adapter, back", backs == [*reversed(stops), ("entry", 0)], backs)
    ended = client.end()
    check("adapter, the end of the input", ended == (0, ""), ended)


def try_conditions(check: Check) -> None:
    """Conditions, counts of hits and messages; and what isn't known is refused."""
    client = Client(check)
    path = EXAMPLES / "falls-behind.uvt"
    client.begin(path)
    asked = [{"name": "beat", "condition": "now > 10"}, {"name": "beat", "condition": "what > 1"}, {"name": "beat", "hitCondition": "often"}]
    shown = client.ask("setFunctionBreakpoints", breakpoints=asked)["breakpoints"]
    check("adapter, a condition, and two that are none", [it["verified"] for it in shown] == [True, False, False], shown)
    check("adapter, why a condition is none", "a condition is" in shown[1]["message"] and "a hit condition is" in shown[2]["message"], shown)
    client.ask("configurationDone")
    client.until("stopped")
    # by hand: its calls come at 35 and 45 ms, the first one late by 25
    client.go("continue")
    rows = {it["name"]: it["value"] for it in client.ask("variables", variablesReference=1)["variables"]}
    check("adapter, on to where a condition holds", rows["now"] == "35", rows)
    client.ask("evaluate", expression="goto 0")
    client.until("stopped")
    client.ask("setFunctionBreakpoints", breakpoints=[{"name": "beat", "hitCondition": "2"}])
    client.go("continue")
    rows = {it["name"]: it["value"] for it in client.ask("variables", variablesReference=1)["variables"]}
    check("adapter, on to the second hit", rows["now"] == "45", rows)
    told = client.ask("evaluate", expression="why beat")["result"]
    check("adapter, why", "late by 25 ms" in told and "2 repeats lost" in told, told)
    check("adapter, why of no name", "refused" in client.ask("evaluate", expression="why nobody"))
    client.ask("evaluate", expression="goto 0")
    client.until("stopped")
    client.ask("setFunctionBreakpoints", breakpoints=[])
    line = next(number for number, it in enumerate(path.read_text().splitlines(), 1) if it.startswith("on beat"))
    shown = client.ask("setBreakpoints", source={"path": str(path)}, breakpoints=[{"line": line, "logMessage": "due {beat.due} at {now}"}])
    check("adapter, a message in place of a stop", shown["breakpoints"][0]["verified"], shown)
    client.events.clear()
    client.ask("continue", threadId=1)
    seen = list(client.events)
    while seen[-1:] == [] or seen[-1]["event"] != "stopped":
        seen.append(client.read())
    said = [it["body"]["output"] for it in seen if it["event"] == "output" and it["body"]["output"].startswith("due ")]
    # (the op stands in the second call: at 45 ms, when the timer is due again 10 ms later)
    check("adapter, the messages", said == ["due 55 at 45\n"] and seen[-1]["body"]["reason"] == "pause", (said, seen[-1]))
    check("adapter, the end behind conditions", client.end() == (0, ""))


def try_io(check: Check) -> None:
    """A callback of I/O is one of the steps of what was launched: a breakpoint on its name stops there, and another one may be done by hand."""
    client = Client(check)
    client.begin(CONVERSATIONS / f"{BEFORE_SENDS}.uvt")
    client.ask("setFunctionBreakpoints", breakpoints=[{"name": "r", "condition": "a.pending == 0"}, {"name": "a"}])
    client.ask("configurationDone")
    client.until("stopped")
    # by hand, from the conversation's output: step 9 is `call r`, which sends to `a`, and 24 is `call a`
    stops = [(client.go("continue"), client.length()) for _ in range(2)]
    check("adapter, on to a callback of I/O", stops == [("function breakpoint", 9), ("function breakpoint", 24)], stops)
    check("adapter, back to it", (client.go("reverseContinue"), client.length()) == ("function breakpoint", 9))
    wanted = [("on r @1 send a", 9), ("call 1 of `on r`", 0), ("run once: polled (a callback of I/O left the poll, and nobody had woken it)", 0)]
    check("adapter, the stack in it", client.stack() == wanted, client.stack())
    check("adapter, over it", (client.go("stepBack"), client.go("next"), client.length()) == ("step", "function breakpoint", 9))
    client.go("stepOut")
    again = client.ask("evaluate", expression="io r")["result"]
    # (its condition doesn't hold any more, but the program's own break does)
    check("adapter, I/O by hand", again == "call r 0.0\nbreak at 11", again)
    check("adapter, and on", client.ask("evaluate", expression="loop 3")["result"] == "done\nasync\ncheck")
    check("adapter, where none may come", client.ask("evaluate", expression="io r")["result"] == "refused blocked")
    told = client.ask("evaluate", expression="why a")["result"]
    waits = "the callback of r left the poll of step 8 at step 9, and nobody had woken it"
    check("adapter, who waits since nobody woke the poll", waits in told, told)
    check("adapter, the end of I/O", client.end() == (0, ""))


def try_stacks(check: Check) -> None:
    """Step by step to the end, and back to the start: the same stacks."""
    client = Client(check)
    client.begin(EXAMPLES / "sent-session.rec")
    client.ask("configurationDone")
    client.until("stopped")
    on = [client.stack()]
    while (reason := client.go("stepIn")) == "step":
        on.append(client.stack())
    check("adapter, the end of a recording", reason == "pause" and len(on) == 37, (reason, len(on)))
    back = [client.stack()]
    while client.go("stepBack") == "step":
        back.append(client.stack())
    check("adapter, the same stacks back", on == back[::-1])
    # by hand: it is the seventh line of the recording
    check("adapter, the first op", on[0] == [("main init early timer", 7), ("the main program", 0)], on[0])
    client.ask("disconnect")
    check("adapter, disconnect", client.end() == (0, ""))


def try_faults(check: Check) -> None:
    client = Client(check)
    check("adapter, nothing was launched", "refused" in client.ask("threads"))
    check("adapter, an unknown request", "refused" in client.ask("what"))
    check("adapter, launch without a program", "refused" in client.ask("launch"))
    check("adapter, launch of no file", "No such file" in client.ask("launch", program="/nowhere.uvt")["refused"])
    client.begin(EXAMPLES / "two-timers.uvt")
    check("adapter, no such variables", "refused" in client.ask("variables", variablesReference=99))
    check("adapter, no such command", "refused" in client.ask("evaluate", expression="what"))
    check("adapter, no such length", "refused" in client.ask("evaluate", expression="goto 99"))
    for wrong in (
        b"Content-Length: x\r\n\r\n",
        b"Content-Length: 3\r\n\r\n{{{",
        b"Content-Length: 2\r\n\r\n[]",
        b"Content-Length: 100000\r\n\r\n" + b"[" * 100000,
    ):
        other = Client(check)
        other.write(wrong)
        status, told = other.end()
        check("adapter, a wrong message", status == 1 and told.startswith("uvt-dap: what came is no ") and told.count("\n") == 1, told)
    children = client.children()
    ended = client.end()
    check("adapter, it ends with its program", ended == (0, "") and len(children) == 1 and are_gone(children), (ended, children))


ODD: list[object] = [None, 5, -1, True, "x", "\0", "\n", [], [5], [{}], [None], [[]], {}, {"path": 5}, 1 << 70, "\u00e9", "x" * 300]


def try_odd(check: Check) -> None:
    """Requests with arguments of no sense: each is answered, and nothing ends."""
    client = Client(check)
    client.begin(EXAMPLES / "two-timers.uvt")
    fields = ["breakpoints", "filters", "source", "line", "targetId", "variablesReference", "startFrame", "levels", "expression", "program"]
    asked = [it for it in BODIES if it not in ("disconnect", "terminate", "launch", "continue")]
    for command in asked:
        for odd in ODD:
            client.ask(command, **{it: odd for it in fields})
        client.ask(command)
    client.ask("initialize", linesStartAt1=False, columnsStartAt1=False)
    client.ask("evaluate", expression="goto 0")
    frames = client.ask("stackTrace", threadId=1)["stackFrames"]
    check("adapter, lines from 0", (frames[0]["line"], frames[0]["column"]) == (9, 0), frames)
    for odd in ODD:
        client.ask("launch", program=odd)
    check("adapter, odd arguments", client.end() == (0, ""))


def are_gone(children: list[int]) -> bool:
    ends = time.monotonic() + SECONDS
    while time.monotonic() < ends:
        if not any(Path(f"/proc/{it}").exists() for it in children):
            return True
        time.sleep(0.05)
    return False


def try_gone(check: Check) -> None:
    """A client that goes away, and one that asks for a pause, while the loop goes on without an end; and a long script."""
    with tempfile.TemporaryDirectory() as folder:
        spin, long = Path(folder) / "spin.uvt", Path(folder) / "long.uvt"
        spin.write_text("var i\nmain init i idle\nmain start i\nmain run default\n")
        long.write_text("var a\n" + "main now\n" * 65534)
        client = Client(check)
        client.begin(spin)
        client.ask("continue", threadId=1)
        client.send("pause", threadId=1)
        check("adapter, a pause", client.until("stopped")["reason"] == "pause")
        client.read()
        client.ask("continue", threadId=1)
        children = client.children()
        client.process.stdout.close()
        status, told = client.end()
        check("adapter, a client that goes away", status == 0 and not told and are_gone(children), (status, told))
        client = Client(check)
        client.begin(long)
        shown = client.ask("setBreakpoints", source={"path": str(long)}, breakpoints=[{"line": 12}, {"line": 65535}])["breakpoints"]
        check("adapter, a long script, its last line", [it["verified"] for it in shown] == [True, True], shown)
        check("adapter, a long script, to a line", (client.go("continue"), client.stack()[0]) == ("breakpoint", ("main now", 12)))
        check("adapter, a long script, back", client.go("reverseContinue") == "entry")
        check("adapter, a long script, its end", client.end() == (0, ""))


SPIN = ["var i", "main init i idle", "main start i", "main run default"]


def try_long(check: Check) -> None:
    """A `loop N` that is evaluated answers as the program does, however long it is; of a very long one the last lines."""
    with tempfile.TemporaryDirectory() as folder:
        spin = Path(folder) / "spin.uvt"
        spin.write_text("".join(f"{it}\n" for it in SPIN))
        cases = [
            (spin, ["loop 1000", "loop 1001", "loop 2500"]),
            (spin, ["break section check", "loop 5000", "loop 5000"]),
            (spin, ["loop 11000"]),
            (EXAMPLES / "late-timer.uvt", ["loop 5000", "tick 20", "loop 5000", "loop 16777217", "loop 05000"]),
        ]
        for path, commands in cases:
            client = Client(check)
            client.begin(path)
            with Conversation(read_input(path)[0]) as talk:
                for it in commands:
                    lines, found = talk.ask(it), client.ask("evaluate", expression=it)
                    shown = lines if len(lines) <= 10000 else [f".. {len(lines) - 10000} lines before these", *lines[-10000:]]
                    wanted = {"refused": f"`{it}` is no command of the program"} if lines == ["bad command"] else "\n".join(shown)
                    check(f"adapter, `{it}`", found in (wanted, {"result": wanted, "variablesReference": 0}), (path.name, str(found)[:300]))
                    check(f"adapter, where `{it}` ends", client.length() == talk.length, (client.length(), talk.length))
                # what was evaluated is what steps back and on again go by
                end = client.length()
                while client.length() > max(0, end - 3):
                    client.go("stepBack")
                on = [client.go("stepIn") for _ in range(end - client.length())]
                trace = client.ask("evaluate", expression="trace")["result"].split("\n")
                check("adapter, on again", client.length() == end and trace == talk.trace(), on)
            check("adapter, the end behind a long one", client.end() == (0, ""))
        try_mixed(check, spin)


def try_mixed(check: Check, path: Path) -> None:
    """Steps of the editor, and then one that is evaluated: from the start they come again, each in its place."""
    client = Client(check)
    client.begin(path)
    for _ in range(3):
        client.go("stepIn")
    client.ask("evaluate", expression="tick 5")
    client.go("stepIn")
    trace = client.ask("evaluate", expression="trace")["result"].split("\n")
    check("adapter, a tick among steps", len(trace) == 5 and trace[3] == "out tick 5", trace)
    client.ask("evaluate", expression="goto 0")
    client.until("stopped")
    for _ in range(5):
        client.go("stepIn")
    again = client.ask("evaluate", expression="trace")["result"].split("\n")
    check("adapter, a tick in its place again", again == trace, again)
    check("adapter, the end of mixed steps", client.end() == (0, ""))


def paused(client: Client, command: str, wait: float, **arguments: object) -> dict:
    """Sends a request that takes long, and a while later a pause: the first one's response, once all that comes of the two is there."""
    client.events.clear()
    asked, first = client.message(command, arguments), client.number
    if wait:
        client.write(asked)
        time.sleep(wait)
        asked = b""
    # (without a wait both at once: the way back has an end)
    client.write(asked + client.message("pause", {"threadId": 1}))
    responses: dict[int, dict] = {}
    while len(responses) < 2:
        found = client.read()
        if found["type"] == "response":
            responses[found["request_seq"]] = found
        else:
            client.events.append(found)
    taken = all(it["success"] for it in responses.values())
    client.check(f"adapter, a pause of {command}", taken and client.until("stopped")["reason"] == "pause", responses)
    return responses[first]


def try_pause(check: Check) -> None:
    """A long `loop N`, `continue` and `reverseContinue` end at a pause, and the session goes on from there."""
    with tempfile.TemporaryDirectory() as folder:
        spin = Path(folder) / "spin.uvt"
        spin.write_text("".join(f"{it}\n" for it in SPIN))
        client = Client(check)
        client.begin(spin)
        result = paused(client, "evaluate", 0.3, expression="loop 16777216")["body"]["result"]
        length = client.length()
        check("adapter, where a long loop is paused", 1000 <= length < 16777216 and result.count("\n") <= 10000, (length, result[:100]))
        moves = [(client.go(it), client.length()) for it in ("stepBack", "stepIn")]
        check("adapter, and back and on", moves == [("step", length - 1), ("step", length)], moves)
        paused(client, "continue", 0.3, threadId=1)
        further = client.length()
        check("adapter, where `continue` is paused", further > length, (length, further))
        client.ask("setBreakpoints", source={"path": str(spin)}, breakpoints=[{"line": 2}])
        paused(client, "reverseContinue", 0, threadId=1)
        check("adapter, where `reverseContinue` is paused", 0 < client.length() < further, client.length())
        client.ask("evaluate", expression="goto 500")
        client.until("stopped")
        check("adapter, on back from there", (client.go("reverseContinue"), client.length()) == ("breakpoint", 0))
        client.send("evaluate", expression="loop 16777216")
        children = client.children()
        client.send("disconnect")
        told = client.process.communicate(timeout=SECONDS)[1]
        check("adapter, a disconnect in a long loop", client.process.returncode == 0 and not told and are_gone(children), told)
        client = Client(check)
        client.begin(spin)
        client.send("evaluate", expression="loop 16777216")
        client.write(b"Content-Length: 3\r\n\r\n{{{")
        status, said = client.end()
        check("adapter, a wrong message in a long loop", status == 1 and said == "uvt-dap: what came is no message: its body is no JSON\n", said)


def try_javascript(check: Check) -> None:
    """Of a program in node its own source: a breakpoint in it, and frames with its lines. What took the time in json.js is its line 8, in `load`,
    which begins at line 6."""
    with tempfile.TemporaryDirectory() as folder:
        sources = Path(__file__).resolve().parent / "javascript"
        for path in (sources / "json.js", log_at(sources / "node20" / "json.log")):
            shutil.copy(path, folder)
        subprocess.run([RECORD, "--log", "json.log"], cwd=folder, capture_output=True, check=True, env=os.environ)
        source = {"path": str(Path(folder) / "json.js")}
        client = Client(check)
        client.begin(Path(folder) / "json.rec")
        wanted = [{"verified": True, "line": 8}, {"verified": True, "line": 8}]
        shown = client.ask("setBreakpoints", source=source, breakpoints=[{"line": 8}, {"line": 9}])["breakpoints"]
        check("adapter, breakpoints in JavaScript", shown == wanted, shown)
        shown = client.ask("setBreakpoints", source={"path": "/tmp/other.js"}, breakpoints=[{"line": 6}])["breakpoints"]
        check("adapter, no breakpoint in another file", [it["verified"] for it in shown] == [False], shown)
        client.ask("configurationDone")
        client.until("stopped")
        check("adapter, on to a line of JavaScript", client.go("continue") == "breakpoint")
        frames = client.ask("stackTrace", threadId=1)["stackFrames"]
        first = frames[0]["name"], frames[0]["line"], frames[0].get("source", {}).get("path")
        check("adapter, the program's source", first == ("load", 8, source["path"]), frames)
        below = [it["name"] for it in frames[1:] if it["name"].startswith("call ")]
        check("adapter, below it the loop's callback", len(below) == 1 and below[0].endswith(" of `on environment_runtimers`"), frames)
        told = client.ask("evaluate", expression="why beat")["result"]
        check("adapter, why a timer of JavaScript was late", "load (json.js:6) took" in told and "at line 8" in told, told)
        client.go("stepOut")
        check("adapter, behind it", client.stack()[0][0] != "load", client.stack())
        check("adapter, back to it", client.go("reverseContinue") == "breakpoint" and client.stack()[0] == ("load", 8), client.stack())
        client.ask("setBreakpoints", source=source, breakpoints=[{"line": 13}])
        check("adapter, back to another", client.go("reverseContinue") == "breakpoint" and client.stack()[0] == ("beat", 13), client.stack())
        check("adapter, the end of JavaScript", client.end() == (0, ""))


def try_adapter(tries: Tries) -> None:
    for part in (try_breakpoints, try_conditions, try_io, try_stacks, try_faults, try_odd, try_gone, try_long, try_pause, try_javascript):
        part(tries.check)
