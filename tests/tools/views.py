"""What the page of uvt-view is given, set beside the program's own states; and what the pages about the tools say."""

from __future__ import annotations

import json
import os
import re
import subprocess
import tempfile
from pathlib import Path

ROOT = Path(__file__).resolve().parent.parent.parent
from tests.helper import Check, Tries, limited, log_at
from tests.tools.whys import BEHIND
from uvt.conversation import Conversation
from uvt.inputs import read_input
from uvt.ways import longest_way

EXAMPLES = ROOT / "crates" / "examples" / "data"
VIEW = str(ROOT / "tools" / "uvt" / "uvt-view")
# What the page is given.
VALUES = re.compile(r'<script type="application/json" id="values">(.*)</script>')
# A page's blocks of text, each with what stands in it.
BLOCK = re.compile(r"^```text\n(.*?)^```$", re.MULTILINE | re.DOTALL)


def viewed(words: list[str]) -> subprocess.CompletedProcess[str]:
    return limited([VIEW, *words], capture_output=True, text=True, env=os.environ)


def text_at(run: dict, table: dict[int, int], length: int) -> list[str]:
    """The text of the state that the changes up to this length make: as the page does it."""
    for key, text in zip(run["changes"][length][::2], run["changes"][length][1::2]):
        table[key] = text
    head = 2 + len(run["names"])
    keys = [*range(head), *range(run["base"], max(table) + 1), *range(head, run["base"])]
    return [(f"steps {length} " if key == 0 else "") + run["texts"][table[key]] for key in keys]


def try_page(check: Check, name: str) -> None:
    """The states of the page at each length, its lines, and that it is one file."""
    page = viewed([str(EXAMPLES / name)]).stdout
    found = VALUES.search(page)
    check(f"the page of {name} has its values", found is not None, page[:200])
    if found is None:
        return
    run = json.loads(found[1])
    script, commands = read_input(EXAMPLES / name)
    table: dict[int, int] = {}
    wrong = []
    with Conversation(script) as talk:
        steps = longest_way(script, commands)
        for length in range(len(steps) + 1):
            if length:
                talk.ask(steps[length - 1])
            if text_at(run, table, length) != talk.ask("state"):
                wrong.append(length)
        lines = [run["texts"][it] for it in run["said"] if run["texts"][it]]
        check(f"the page of {name}, its lines", lines == talk.trace(), lines)
    check(f"the page of {name}, its states", not wrong, wrong)
    check(f"the page of {name} asks for nothing else", not re.search(r"https?://|<link|<img|src=", page), "")


def try_io(check: Check) -> None:
    """What came has a lane, and a callback that came behind another one of its poll is among the late ones."""
    with tempfile.NamedTemporaryFile("w", suffix=".uvt") as file:
        file.write(BEHIND)
        file.flush()
        run = json.loads(VALUES.search(viewed([file.name]).stdout)[1])
    lanes = {it["name"]: it for it in run["lanes"]}
    check("the lane of what came", lanes["what came"]["what"] == "came" and "sends" not in lanes, list(lanes))
    # by hand, from the steps that stand above the script
    wanted = [[0, "nothing"], [1, "inactive"], [4, "active"], [14, "callback"], [15, "active"], [20, "callback"], [21, "active"]]
    check("the lane of a handle of I/O", lanes["slow"]["parts"][: len(wanted)] == wanted, lanes["slow"]["parts"])
    check("the loop's lane behind such a poll", [12, "poll"] in lanes["loop"]["parts"] and [14, "polled"] in lanes["loop"]["parts"], lanes["loop"])
    behind = [
        [17, "fast", 30, "30 ms behind the end of the poll, at step 14"],
        [20, "slow", 32, "32 ms behind its last call, at step 14"],
        [29, "fast", 9, "9 ms behind its last call, at step 17"],
    ]
    check("the callbacks of I/O that came behind others", run["late"] == behind, run["late"])
    check("what came", run["came"] == [[14, "slow", ""], [17, "fast", ""], [20, "slow", ""], [29, "fast", ""]], run["came"])


def try_opening(check: Check) -> None:
    """A recording is opened at its latest call, with what stands out beside it; a script at its beginning. Where somebody asks for a step, there."""
    with tempfile.TemporaryDirectory() as folder:
        log = log_at(ROOT / "tests" / "tools" / "truths" / "debounced.log")
        limited([str(ROOT / "tools" / "uvt" / "uvt-record"), "-o", f"{folder}/debounced", "--log", str(log)], capture_output=True)
        pages = [viewed(words).stdout for words in ([f"{folder}/debounced.rec"], [f"{folder}/debounced.rec", "--at", "3"])]
    run, asked = (json.loads(VALUES.search(it)[1]) for it in pages)
    # (by its source the program calls two timers, and the second one was due before it was started)
    opened = run["texts"][run["said"][run["opens"]]]
    check("a recording is opened at its latest call", run["recorded"] and opened.startswith("call debounce "), opened)
    check("what stands out stands beside it", any(it.strip().startswith("debounce, step ") for it in run["overview"]), run["overview"])
    check("a page that is opened where somebody asked for", asked["opens"] == 3, asked["opens"])
    script = json.loads(VALUES.search(viewed([str(EXAMPLES / "late-timer.uvt")]).stdout)[1])
    check("a script is opened at its beginning", (script["opens"], script["recorded"]) == (0, False), script["opens"])


def try_requests(check: Check) -> None:
    """A stream's requests have a lane beside it: by its source the program writes twice in `main`, and the close callback cancels both."""
    with tempfile.TemporaryDirectory() as folder:
        log = log_at(ROOT / "tests" / "tools" / "truths" / "hangup.log")
        limited([str(ROOT / "tools" / "uvt" / "uvt-record"), "-o", f"{folder}/hangup", "--log", str(log)], capture_output=True)
        run = json.loads(VALUES.search(viewed([f"{folder}/hangup.rec"]).stdout)[1])
    lanes = {it["name"]: it for it in run["lanes"]}
    names, closed = list(lanes), next(step for step, what in lanes["line"]["parts"] if what == "callback")
    behind = names[names.index("line") + 1]
    check("a lane of requests stands behind its stream's", behind == "line: requests" and "patience: requests" not in names, names)
    wanted = [[0, f"2 writes {(8 << 20) + 5}"], [closed, ""]]
    check("the lane of a stream's requests", lanes["line: requests"]["parts"] == wanted, lanes["line: requests"])


def try_view(check: Check) -> None:
    for name in ("late-timer.uvt", "never-called.uvt", "stale-name.uvt", "io-before-sends.uvt", "sent-session.rec"):
        try_page(check, name)
    run = json.loads(VALUES.search(viewed([str(EXAMPLES / "late-timer.uvt")]).stdout)[1])
    # `ping` was due at 12 and `beat` at 15, and both were called at 50
    check("the late calls", run["late"] == [[33, "ping", 38, "late by 38 ms"], [34, "beat", 35, "late by 35 ms"]], run["late"])
    lane = next(it for it in run["lanes"] if it["name"] == "beat")
    wanted = [[0, "nothing"], [3, "inactive"], [6, "active"], [21, "due"], [32, "ready"], [34, "callback"], [35, "inactive"]]
    check("the lane of a timer", lane["parts"] == wanted, lane["parts"])
    try_io(check)
    try_opening(check)
    try_requests(check)
    ended = viewed([str(EXAMPLES / "nowhere.uvt")])
    check("the page of no file", ended.returncode == 1 and "No such file" in ended.stderr and "Traceback" not in ended.stderr, ended.stderr)


# ---- the pages


def calls_of(page: Path) -> list[tuple[str, str | None]]:
    """The calls of the tools that a page shows, each with the block behind it, unless that is a call too or the call writes to a file."""
    blocks = BLOCK.findall(page.read_text())
    found = []
    for block, behind in zip(blocks, [*blocks[1:], ""]):
        # (the two of --beside are the reader's own recordings)
        if re.match(r"(printf .* \| )?\./uvt (why|shell|view) (?!--beside)", block) and block.count("\n") == 1:
            is_call = re.match(r"(printf|\./uvt |cp |mkdir )", behind)
            found.append((block.strip(), None if is_call or " > " in block or not behind else behind))
    return found


def is_shown(shown: str, output: str) -> bool:
    """Whether the parts, with lines `..` between them, stand in the output one behind the other; all of it where there is no `..`."""
    if "\n..\n" not in "\n" + shown:
        return shown == output
    at = 0
    for part in filter(None, (it.strip("\n") for it in ("\n" + shown).split("\n..\n"))):
        at = ("\n" + output).find("\n" + part + "\n", at)
        if at < 0:
            return False
    return True


def try_pages(check: Check) -> None:
    for page in (ROOT / "README.md", ROOT / "docs" / "TOOLS.md"):
        calls = calls_of(page)
        check(f"{page.name} shows the tools", bool(calls))
        for call, shown in calls:
            with tempfile.TemporaryDirectory() as folder:
                for name in ("uvt", "examples"):
                    (Path(folder) / name).symlink_to(ROOT / name)
                ended = limited(["sh", "-c", call], cwd=folder, capture_output=True, text=True, env=os.environ)
            holds = ended.returncode == 0 and not ended.stderr and (shown is None or is_shown(shown, ended.stdout))
            check(f"{page.name}: {call}", holds, ended.stdout + ended.stderr)


def try_views(tries: Tries) -> None:
    try_view(tries.check)
    try_pages(tries.check)
