"""Orders that are forced upon real programs, and hunted: forces/ has C programs, and of some a session that the search has found.

The first five are those of docs/FIND.md. Where the found order is a fault, the program is built with a sanitizer, which has to see it. What takes
minutes is for the hand: tests/tools/hunts.
"""

from __future__ import annotations

import json
import os
import pty
import re
import shutil
import signal
import subprocess
import tempfile
import time
from collections.abc import Callable
from pathlib import Path
from unittest.mock import Mock, patch
from xml.etree import ElementTree

from tests.helper import SECONDS, Check, Tries, come_to, limited, talked, waited
from tests.tools.records import ROOT, archive, has_libuv
from uvt import forcing
from uvt.commands.hunt import prepare
from uvt.conversation import Fault
from uvt.hunting import BEFORE, BEHIND, Hunt, Wishes
from uvt.hunt_ends import Bad
from uvt.hunt_questions import Recorded

FOLDER = Path(__file__).resolve().parent / "forces"
PROGRAMS = ROOT / "tools" / "uvt" / "record" / "programs"
# What is said, once, of a program that isn't proved yet, or is compiled.
BUILDS = ("uvt: this is the program before its proofs", "uvt: compiling ")
# How force ends: all went as in the session, it departs, it could not be done, the program ended badly.
WELL, DEPARTS, FAULT, BADLY, SKIPPED = 0, 1, 2, 3, 77
REPORT = "heap-use-after-free"
# Of each whether it touches memory that is gone, and whether that is its last step.
FORCED = {
    "cancel": (False, False),
    "send": (True, True),
    "starve": (False, False),
    "retry": (True, False),
    "server": (True, False),
    "lookup": (True, False),
    "order": (True, False),
}
FLAGS = ["-O1", "-g", "-w"]


def compiled(name: str, folder: str, *more: str) -> str:
    program, source = f"{folder}/{name}", FOLDER / f"{name}.c"
    source = source if source.exists() else PROGRAMS / f"{name}.c"
    subprocess.run(["cc", *FLAGS, str(source), "-o", program, *more, "-ldl", "-lpthread"], check=True)
    return program


def has_sanitizer(folder: str) -> bool:
    words = ["cc", "-fsanitize=address", "-x", "c", "-", "-o", f"{folder}/none"]
    return subprocess.run(words, input="int main(void) { return 0; }", capture_output=True, text=True).returncode == 0


def tool(word: str, words: list[str], folder: str, seconds: float = SECONDS) -> tuple[int, str]:
    """Its status, and what it says. (That a program isn't proved yet, or is compiled, is no answer.)"""
    called = [str(ROOT / "tools" / "uvt" / f"uvt-{word}"), *words]
    ran = limited(called, seconds, capture_output=True, text=True, errors="replace", cwd=folder)
    said = ran.stdout + "".join(it for it in ran.stderr.splitlines(keepends=True) if not it.startswith(BUILDS))
    return ran.returncode, said


def forced(words: list[str], folder: str) -> tuple[int, str]:
    return tool("force", words, folder)


# How long it is hunted until something is found, on a machine that does much else; and that in seconds, with what comes behind it.
LONGEST, ENDED = "1h", 5400


def hunted(words: list[str], folder: str) -> tuple[int, str]:
    """Until it has found something: how many orders that takes is by lot."""
    return tool("hunt", ["--for", LONGEST, *words], folder, ENDED)


def is_whole(said: str) -> bool:
    return bool(re.search(r"^all \d+ steps, 0 departures, same$", said, re.MULTILINE))


def try_one(check: Check, name: str, folder: str, sanitizer: bool) -> None:
    gone, last = FORCED[name]
    program = compiled(name, folder, *(["-fsanitize=address"] if gone and sanitizer else []), "-luv")
    status, said = forced(["-o", f"{name}.forced", str(FOLDER / f"{name}.uvt"), program], folder)
    check(f"force, {name}: all steps, no departure, the same callbacks", is_whole(said), said)
    if gone and sanitizer:
        check(f"force, {name}: what the order does", REPORT in said and bool(re.search("^the program ended with status 1$", said, re.M)), said)
    if not gone or sanitizer:
        check(f"force, {name}: its status", status == (BADLY if gone else WELL), f"{status} {said}")


def try_faults(check: Check, folder: str) -> None:
    program = compiled("starve", folder, "-luv")
    status, said = forced(["-o", "other.forced", str(FOLDER / "cancel.uvt"), program], folder)
    check("force, another program departs, and it is said where", status == DEPARTS and "departs at step " in said, f"{status} {said}")
    check("force, another program: how far it came", bool(re.search(r"^\d+ of 19 steps, \d+ departures?, ", said, re.MULTILINE)), said)
    for words, why in (
        ([f"{folder}/nowhere.uvt", program], "nowhere.uvt: No such file"),
        ([str(FOLDER / "starve.uvt"), f"{folder}/missing"], "could not be started"),
        ([str(FOLDER / "starve.c"), program], "bad script line 1"),
    ):
        status, said = forced(words, folder)
        check(f"force, a fault: {why}", status == FAULT and why in said and "Traceback" not in said, f"{status} {said}")


def try_locked(check: Check, folder: str) -> None:
    """The loop's thread waits for a lock, which a thread has that waits for its step: that is let through, and it is said."""
    program = compiled("locked", folder, "-luv")
    status, said = forced(["-o", "locked.forced", str(FOLDER / "locked.uvt"), program], folder)
    why = "a thread sends to report, and the session has no send there: the loop's thread waits in the program's own code, and may wait for it"
    check("force, a thread that has a lock", status == DEPARTS and f": {why}\n" in said and "value 1\n" in said, f"{status} {said}")


def try_slow(check: Check, folder: str) -> None:
    """However long the loop's thread is at work, or gets no processor: who waits for its step waits on."""
    status, said = forced(["-o", "slow.forced", str(FOLDER / "slow.uvt"), compiled("slow", folder, "-luv")], folder)
    check("force, a callback of four seconds", status == WELL and is_whole(said) and "heard 0\n" in said, f"{status} {said}")


# What is said where the loop joins a thread that has sends left.
JOINED = "the session has no send there: the program waits for that thread"


def try_own(check: Check, folder: str) -> None:
    """Programs in the order of their own recordings."""
    for name in ("late", "mixed", "threads", "starved", "zero"):
        program = compiled(name, folder, "-luv")
        # (the loop of threads.c may join its senders before they are through: then its recording lacks sends, which is said. For this reason alone it
        # is recorded anew, twice at the most)
        for _ in range(3):
            tool("record", ["-o", name, program], folder)
            status, said = forced(["-o", f"{name}.forced", f"{name}.rec", program], folder)
            if JOINED not in said:
                break
        sends = [len(re.findall(pattern, Path(folder, f"{name}.{end}").read_text(), re.M)) for pattern, end in ((r"^0 S ", "log"), ("^send ", "rec"))]
        check(f"force, {name}: its recording has the sends of its threads", name != "threads" or sends[0] == sends[1] > 0, sends)
        check(f"force, {name}: its own recording", status == WELL and is_whole(said), f"{status} {said}")


def try_sanitizer(check: Check, folder: str) -> None:
    """Memory that is gone and that libuv looks at: no sanitizer sees that, and the recorder tells it."""
    program = compiled("late-send", folder, "-fsanitize=address", "-luv")
    alone = subprocess.run([program], capture_output=True, text=True, errors="replace")
    check("a sanitizer doesn't see into libuv by itself", alone.returncode == 0 and REPORT not in alone.stderr, alone.stderr)
    said = tool("record", ["-o", "late-send", program], folder)[1]
    check("record, a use after free in libuv", REPORT in said and bool(re.search(r"in main \S+late-send.c:11$", said, re.MULTILINE)), said)


def try_random(check: Check, folder: str) -> None:
    program = compiled("upload", folder, "-fsanitize=address", "-luv")
    status, said = forced(["--random", "200", "-o", "found", program], folder)
    check("force at random, until one ends badly", status == BADLY and REPORT in said and "its order: " in said, f"{status} {said}")
    status, said = forced(["-o", "again", "found.rec", program], folder)
    check("force, the recording of that run", status == BADLY and REPORT in said and is_whole(said), f"{status} {said}")
    counted = compiled("upload", folder, "-DCOUNTED", "-fsanitize=address", "-luv")
    status, said = forced(["--random", "30", "-o", "found", counted], folder)
    check("force at random, a healthy program", status == WELL and said == "30 runs, and each ended well\n", f"{status} {said}")


def try_kept(check: Check, folder: str) -> None:
    """What comes behind the step that is asked for belongs to an order as well. Here that is bad in each second run by itself: so in five of the ten
    further ones in the order that was found (alternates.uvt, in place of an answer of find), and in all ten in that of the whole run."""
    words = [compiled("alternates", folder, "-fsanitize=address", "-luv"), f"{folder}/runs"]
    hunt = Hunt(Wishes(words), prepare(), Path(folder), lambda what: None)
    with patch.object(hunt, "searched", lambda lines: (FOLDER / "alternates.uvt").read_text()):
        begun = hunt.begin()
        found = hunt.ask(begun, ["find section timers"], "find section timers") if isinstance(begun, Recorded) else begun
    check("hunt, alternates: a session that is bad", isinstance(found, Bad) and REPORT in found.how, found)
    check("hunt, alternates: its order is bad each time", isinstance(found, Bad) and (found.bad_again, found.again) == (10, 10), found)
    check("hunt, alternates: that is the order of all of the run", isinstance(found, Bad) and "\ncall message " in found.order, found)


def try_long_ones(check: Check, folder: str) -> None:
    """The same in programs that are hunted: what is bad comes behind several steps, or in threads that sleep meanwhile."""
    for name in ("closed-early", "three-parties"):
        program = compiled(name, folder, "-fsanitize=address", "-luv")
        status, said = hunted(["-o", name, program], folder)
        good = "(AddressSanitizer: " in said and ", and in 10 of 10 further runs in the same order\n" in said
        check(f"hunt, {name}: its order is bad each time", status == BADLY and good, f"{status} {said}")


def try_steady(check: Check, folder: str) -> None:
    """An order that is bad in each second run is not the answer where a further one is bad each time."""
    program = compiled("sometimes", folder, "-luv")
    for seed in range(1, 9):
        status, said = hunted(["--seed", str(seed), "-o", "sometimes", program, f"{folder}/counter-{seed}"], folder)
        good = said.startswith("the program ended with status 1, and in 10 of 10 further runs in the same order\n")
        check(f"hunt, sometimes: its order is bad each time, by seed {seed}", status == BADLY and good, f"{status} {said}")


def try_time(check: Check, folder: str, healthy: str) -> None:
    """A hunt of a healthy program takes the time that it is given. Without that it ends behind just so many orders at random, each time; with it a
    slow machine has fewer, and a quick one goes on. (One in between may have as many, once: then it is given another time.)"""
    for seconds in (6, 9, 14):
        began = time.monotonic()
        status, said = tool("hunt", ["--for", f"{seconds}s", healthy], folder)
        took, random = time.monotonic() - began, re.search(r", (\d+) at random", said)
        check("hunt, a healthy program", status == WELL and said.startswith("each run ended well\n    "), f"{status} {said}")
        check("hunt, no less than the time that is given", took > seconds - 1 and random, f"{took:.1f} s: {said}")
        if ended := not random or int(random[1]) != BEFORE + BEHIND:
            break
    check("hunt, the time that is given", ended, said)


def try_hunts(check: Check, folder: str) -> None:
    program = compiled("lookup", folder, "-fsanitize=address", "-luv")
    status, said = hunted(["-o", "found", program], folder)
    good = status == BADLY and REPORT in said and "in 10 of 10 further runs in the same order" in said
    check("hunt, an order with a use after free", good, f"{status} {said}")
    check("hunt, where that is", bool(re.search(r"^    in \w+ \(lookup\.c:\d+\)$", said, re.MULTILINE)), said)
    status, said = forced(["-o", "again", "found.uvt", program], folder)
    check("hunt, its order is forced again", status == BADLY and REPORT in said and ", 0 departures, " in said, f"{status} {said}")
    healthy = compiled("zero", folder, "-fsanitize=address", "-luv")
    try_time(check, folder, healthy)
    for words, why in (
        ([f"{folder}/missing"], "could not be started"),
        (["--part", "3/2", healthy], "a part is K/N"),
        (["--for", "soon", healthy], "a time is 60s"),
        (["--join", str(FOLDER / "lookup.c")], "no report of a part"),
        (["/bin/true"], "called nothing of libuv"),
    ):
        status, said = tool("hunt", words, folder)
        check(f"hunt, a fault: {why}", status == FAULT and why in said and "Traceback" not in said, f"{status} {said}")


# Of each how often it was the same in further runs, and what has to be said of who waits for whom.
LOCKED = (
    r"the loop's thread waits for a lock that thread \d+ has, in on_t \({name}\.c:{loop}\)",
    r"thread \d+ waits for a lock that the loop's thread has, in other \({name}\.c:{thread}\)",
)
HANGS = {
    "lost": (10, (r"the loop waits in its poll, with no time limit, in main \(lost\.c:31\)", r"workers 0, 1, 2, 3 wait for work")),
    "joins": (
        10,
        (
            r"the loop's thread waits for the end of thread \d+, in on_end \(joins\.c:10\)",
            r"thread \d+ waits for a semaphore, in thread \(joins\.c:9\)",
        ),
    ),
    "crosswise": (10, tuple(it.format(name="crosswise", loop=7, thread=9) for it in LOCKED)),
    "crosswise-work": (
        10,
        (
            # (whichever worker takes it)
            r"the loop's thread waits for a lock that worker \d has, in on_t \(crosswise-work\.c:9\)",
            r"worker \d waits for a lock that the loop's thread has, in works \(crosswise-work\.c:16\)",
        ),
    ),
    "beside-child": (
        2,
        (
            *(it.format(name="beside-child", loop=13, thread=23) for it in LOCKED),
            r"process \d+ \(cat\) waits for a file, a pipe or a socket",
        ),
    ),
    "livelock": (2, (r"the loop calls nothing but on_show \(livelock\.c:21\), in [\d,]+ turns", r"workers 0, 1, 2, 3 wait for work")),
}
# Nothing of these hangs: threads that wait until a time, a loop that never waits, 3,000 calls of a timer and nothing else, a child of three seconds,
# two locks in the same order.
MOVING = ("timed", "spins", "counts", "sleeping-child", "same-locks")


def try_hangs(check: Check, folder: str) -> None:
    """A run that hangs is ended at once, and it is said who waits for whom; who waits until a time, or for a child, doesn't hang."""
    for name, (times, lines) in HANGS.items():
        program = compiled(name, folder, "-luv")
        status, said = hunted(["-o", f"{name}.hung", program], folder)
        how = "hangs, its timers excepted" if name == "livelock" else "hangs"
        hung = re.search(rf"^the program {how}, and in {times} of {times} further runs in the same order$", said, re.M)
        check(f"hunt, {name}: it hangs", status == BADLY and bool(hung), f"{status} {said}")
        for it in lines:
            check(f"hunt, {name}: who waits for whom", bool(re.search(f"^    {it}$", said, re.M)), said)
    status, said = hunted(["--report", "hung.sarif", "-o", "joins.hung", f"{folder}/joins"], folder)
    found = json.loads(Path(folder, "hung.sarif").read_text())["runs"][0]["results"][0]
    place = found["locations"][0]["physicalLocation"]
    good = found["ruleId"] == "hangs" and place["artifactLocation"]["uri"].endswith("/joins.c") and place["region"]["startLine"] == 10
    check("hunt, a hang in SARIF", good, f"{found}")
    status, said = forced(["--test", "joins.hung.uvt", f"{folder}/joins"], folder)
    check("force --test, a hang", status == BADLY and "FAIL joins.hung.uvt: the program hangs\n    the loop's thread waits for the end" in said, said)
    for name in MOVING:
        status, said = forced(["--random", "4", "-o", f"{name}.random", compiled(name, folder, "-luv")], folder)
        check(f"force at random, {name}, which is healthy", status == WELL and said == "4 runs, and each ended well\n", f"{status} {said}")


def try_first(check: Check, folder: str) -> None:
    """The first run, which nobody forces, loses a race by itself, as on a busy machine: the others aren't measured by it."""
    program = compiled("first", folder, "-luv")
    for how, number in (("hangs", "0"), ("ended with status 1", "1")):
        status, said = hunted(["-o", "first.found", program, f"{folder}/{how}", number], folder)
        good = status == BADLY and said.startswith(f"the program {how}, and in 10 of 10 further runs in the same order\n")
        check(f"hunt, a first run that is bad by itself: {how}", good, f"{status} {said}")
    status, said = hunted(["--same-output", "-o", "first.found", program, f"{folder}/output", "-1"], folder)
    good = status == BADLY and said.startswith("the program said `too late`, where another run said `in time`, and in 10 of 10 further runs")
    check("hunt, a first run that says something else", good, f"{status} {said}")
    program = compiled("first", folder, "-DALWAYS=1", "-luv")
    status, said = tool("hunt", ["--for", "8s", program, f"{folder}/always", "1"], folder)
    check("hunt, a program that ends with status 1 each time", status == WELL and said.startswith("each run ended well\n"), f"{status} {said}")


def try_late_start(check: Check, folder: str) -> None:
    """A first run that has called nobody by the time that it may take is given more; of one that has no end, and calls nobody, that is said."""
    program, prepared = compiled("starts-late", folder, "-luv"), prepare()
    with patch.object(forcing, "FIRSTS", (1, SECONDS)):
        ran = forcing.first_run([program], f"{folder}/starts-late")
        check("hunt, a first run that begins late", not ran.late and Path(folder, "starts-late.rec").exists(), ran)
    # (a server has no end, however much it has of the processor; one that gets none is looked at for longer)
    serves = [compiled("serves-on", folder, "-luv")]
    for waited, begun in ((0, 1), (SECONDS, 2)):
        with patch.object(forcing, "FIRSTS", (2, 3)), patch.object(forcing, "waited_by", Mock(return_value=waited)) as asked:
            ran = forcing.first_run(serves, f"{folder}/serves-on")
        check(f"hunt, a first run without an end that waited {waited} s for a processor", ran.late and asked.call_count == begun, ran)
    # (in a folder of its own, where no other hunt has left its first run)
    sleeps = Path(folder, "sleeps")
    sleeps.mkdir()
    with patch.object(forcing, "FIRSTS", (1, 2)):
        try:
            told = str(Hunt(Wishes(["sleep", "1000"]), prepared, sleeps, lambda what: None).begin())
        except Fault as fault:
            told = str(fault)
        check("hunt, a first run that has no end, and calls nobody", "called nothing of libuv" in told, told)


def try_unwritten(check: Check, folder: str) -> None:
    """A run that ends before its log has a line: with the time of a hunt that is no fault, and else it is said."""
    program = compiled("unwritten", folder, "-rdynamic", "-luv")
    status, said = tool("hunt", ["--for", "3s", program, f"{folder}/unwritten-run"], folder)
    good = status == WELL and said.startswith("each run ended well\n") and ", 1 at random, " in said
    check("hunt, a run that is ended before its log has a line", good, f"{status} {said}")
    status, said = tool("record", [program, f"{folder}/unwritten-run", "ends"], folder)
    good = status == 2 and said.endswith("uvt-record: the program ended before the first line of its log\n")
    check("record, a program that ends before its log has a line", good, f"{status} {said}")


def try_results(check: Check, folder: str) -> None:
    """A wrong result, and a run that a command of the user's calls bad."""
    program = compiled("total", folder, "-luv")
    status, said = hunted(["--same-output", "-o", "other", program], folder)
    good = bool(re.match("the program said `total 100`, where (?:the first|another) run said `total 80`, and in 10 of 10 further runs", said))
    check("hunt, another output", status == BADLY and good, f"{status} {said}")
    judge = 'read it; test "$UVT_STATUS" = 0 && test "$it" = \'total 80\' || { echo not 80; exit 1; }'
    status, said = hunted(["--check", judge, "--report", "check.sarif", "-o", "judged", program], folder)
    good = said.startswith(f"the program is bad by `{judge}` (status 1: not 80), and in 10 of 10 further runs")
    check("hunt, what a command calls bad", status == BADLY and good, f"{status} {said}")
    rule = json.loads(Path(folder, "check.sarif").read_text())["runs"][0]["results"][0]["ruleId"]
    check("hunt, what a command calls bad, in SARIF", rule == "check", rule)
    status, said = forced(["--test", "--check", judge, "judged.uvt", program], folder)
    check("force --test, what a command calls bad", status == BADLY and "\nFAIL judged.uvt: the program is bad by `" in said, f"{status} {said}")
    status, said = forced(["--test", "judged.uvt", program], folder)
    check("force --test, where no command judges", status == WELL and "\nPASS judged.uvt: all " in said, f"{status} {said}")
    status, said = tool("hunt", ["--for", "8s", "--check", "exit 125", program], folder)
    check("hunt, a command that can't tell", status == WELL and said.startswith("each run ended well\n"), f"{status} {said}")
    status, said = tool("hunt", ["--check", "false", "-o", "first", program], folder)
    good = "(status 1), and in " in said and "    in the first run, which nobody forced\n" in said
    check("hunt, the first run is bad already", status == BADLY and good, f"{status} {said}")
    status, said = tool("hunt", ["--check", f"{folder}/no-judge", program], folder)
    check("hunt, a command that isn't there", status == FAULT and "which judges a run, could not be run: " in said and "Traceback" not in said, said)


def try_sarif(check: Check, path: Path, rule: str) -> None:
    """By SARIF 2.1.0: what has to be there, and what refers to what. (Its places are in upload.c: the order is bad where a file is used again.)"""
    text = json.loads(path.read_text())
    run = text["runs"][0]
    result = run["results"][0]
    place = result["locations"][0]["physicalLocation"]
    check("hunt, SARIF: its version", text["version"] == "2.1.0" and text["$schema"].endswith("sarif-2.1.0.json"), text)
    check("hunt, SARIF: its tool and rule", run["tool"]["driver"]["name"] and [it["id"] for it in run["tool"]["driver"]["rules"]] == [rule], run)
    check("hunt, SARIF: its result", result["ruleId"] == rule and result["level"] == "error" and result["message"]["text"], result)
    uri, line = place["artifactLocation"]["uri"], place["region"]["startLine"]
    check("hunt, SARIF: its place", uri.endswith("/upload.c") and 1 < line <= len((PROGRAMS / "upload.c").read_text().splitlines()), place)
    check("hunt, SARIF: its order", (path.parent / result["attachments"][0]["artifactLocation"]["uri"]).exists(), result)
    check("hunt, SARIF: how often", result["properties"]["badAgain"] == result["properties"]["again"] == 10, result)
    check("hunt, SARIF: how it ended", run["invocations"][0]["executionSuccessful"] and run["invocations"][0]["exitCode"] == BADLY, run)


def try_reports(check: Check, folder: str) -> None:
    """What machines read of a hunt, and an order as a test."""
    program = compiled("upload", folder, "-fsanitize=address", "-luv")
    status, said = hunted(["--seed", "7", "--report", "r.sarif", "--report", "r.xml", "--report", "r.json", "-o", "ci", program], folder)
    check("hunt, with reports", status == BADLY and REPORT in said, f"{status} {said}")
    number = re.search(r"^    in order (\d+) at random$", said, re.M)
    check("hunt, the first order's number", bool(number) and int(number[1]) >= 7, said)
    try_sarif(check, Path(folder, "r.sarif"), REPORT)
    suite = ElementTree.parse(f"{folder}/r.xml").getroot()[0]
    failure = suite.find("testcase/failure")
    good = (suite.get("tests"), suite.get("failures"), suite.get("errors")) == ("1", "1", "0") and float(suite.get("time")) > 0
    check("hunt, JUnit", good and failure is not None and failure.get("type") == REPORT and REPORT in failure.text, f"{suite.attrib}")
    check("hunt, JSON", json.loads(Path(folder, "r.json").read_text())["bad"]["bad_again"] == 10, "")
    words = ["--for", "3s", "--report", "well.sarif", "--report", "well.xml", compiled("zero", folder, "-luv")]
    status, said = tool("hunt", words, folder)
    run = json.loads(Path(folder, "well.sarif").read_text())["runs"][0]
    check("hunt, SARIF of a healthy program", status == WELL and run["results"] == [] and run["tool"]["driver"]["rules"] == [], f"{run}")
    suite = ElementTree.parse(f"{folder}/well.xml").getroot()[0]
    check("hunt, JUnit of a healthy program", suite.get("failures") == "0" and suite.find("testcase/failure") is None, f"{suite.attrib}")
    status, said = forced(["--test", "ci.uvt", program], folder)
    check("force --test, the race is there", status == BADLY and "\nFAIL ci.uvt: the program ended with status 1 (Addr" in said, f"{status} {said}")
    mended = compiled("upload", folder, "-DCOUNTED", "-fsanitize=address", "-luv")
    status, said = forced(["--test", "ci.uvt", mended], folder)
    check("force --test, it is mended", status == WELL and "\nPASS ci.uvt: all " in said, f"{status} {said}")
    status, said = forced(["--test", "ci.uvt", compiled("zero", folder, "-luv")], folder)
    check("force --test, another program", status == SKIPPED and "SKIP ci.uvt: " in said and "    departs at step " in said, f"{status} {said}")
    try_ctest(check, folder)


CMAKE = """cmake_minimum_required(VERSION 3.10)
project(race NONE)
enable_testing()
"""
TEST = """add_test(NAME {name} COMMAND {force} --test {folder}/ci.uvt {program})
set_tests_properties({name} PROPERTIES SKIP_RETURN_CODE 77)
"""


def try_ctest(check: Check, folder: str) -> None:
    """The same three as tests of CMake's: the race is there, it is mended, another program."""
    if not shutil.which("cmake"):
        print("tools: an order as a test of ctest: not tried, since there is no cmake", flush=True)
        return
    room = Path(folder, "ctest")
    room.mkdir()
    racing = compiled("upload", str(room), "-fsanitize=address", "-luv")
    programs = {"racing": racing, "mended": f"{folder}/upload", "other": f"{folder}/zero"}
    force = ROOT / "tools" / "uvt" / "uvt-force"
    tests = [TEST.format(name=name, force=force, folder=folder, program=program) for name, program in programs.items()]
    (room / "CMakeLists.txt").write_text(CMAKE + "".join(tests))
    limited(["cmake", "-S", str(room), "-B", str(room / "built")], capture_output=True)
    ran = limited(["ctest"], capture_output=True, text=True, cwd=room / "built")
    for name, end in (("racing", r"\*\*\*Failed"), ("mended", "Passed"), ("other", r"\*\*\*Skipped")):
        check(f"force --test in ctest, {name}", bool(re.search(rf"{name} \.+ *{end}", ran.stdout)), ran.stdout + ran.stderr)


def try_interrupt(check: Check, folder: str) -> None:
    """By an interrupt, and by the signal that ends a job of the background, where interrupts are passed over; once it is at an order at random."""
    words = [str(ROOT / "tools" / "uvt" / "uvt-hunt"), "--for", LONGEST, compiled("zero", folder, "-luv")]
    for number, passed_over in ((signal.SIGINT, signal.SIG_DFL), (signal.SIGTERM, signal.SIG_IGN)):
        ours, theirs = pty.openpty()
        hunting = subprocess.Popen(
            words,
            cwd=folder,
            stdout=subprocess.PIPE,
            stderr=theirs,
            text=True,
            preexec_fn=lambda: signal.signal(signal.SIGINT, passed_over),
        )
        told = come_to(ours, b": order 3 at random")
        hunting.send_signal(number)
        said, _ = talked(hunting)
        os.close(theirs)
        told += come_to(ours)
        os.close(ours)
        lines = [*said.splitlines(), ""]
        good = hunting.returncode == 130 and lines[0] == "each run ended well" and lines[-2] == "it was interrupted, and not at its end"
        check(f"hunt, {number.name}", good and b"Traceback" not in told, f"{hunting.returncode} {said} {told!r}")


def try_parts(check: Check, folder: str) -> None:
    """Three parts beside one another, each until it has found one, and what they found together."""
    program, hangs = compiled("lookup", folder, "-fsanitize=address", "-luv"), compiled("joins", folder, "-luv")
    words = [str(ROOT / "tools" / "uvt" / "uvt-hunt"), "--for", LONGEST, "-o", "parts", "--part"]
    parts = [subprocess.Popen([*words, f"{it}/3", program], cwd=folder, stdout=subprocess.DEVNULL, stderr=subprocess.DEVNULL) for it in (1, 2, 3)]
    ends = [waited(part, ENDED) for part in parts]
    reports = sorted(it.name for it in Path(folder).glob("parts.*.report"))
    check("hunt, a report of each part", reports == [f"parts.{it}-of-3.report" for it in (1, 2, 3)] and ends == [BADLY] * 3, f"{reports} {ends}")
    status, said = tool("hunt", ["-o", "joined", "--join", *reports], folder)
    check("hunt, the parts joined", status == BADLY and REPORT in said and said.rstrip().endswith("in 3 parts"), f"{status} {said}")
    status, said = tool("hunt", ["-o", "joined", "--join", *reports[:2]], folder)
    check("hunt, a part is missing", said.startswith("part 3 of 3 is missing\n"), f"{status} {said}")
    status, said = hunted(["-o", "hung.part", "--part", "1/1", "--report", "hung.report", hangs], folder)
    status, said = tool("hunt", ["-o", "joined", "--join", "hung.report"], folder)
    check("hunt, a part that hangs, joined", status == BADLY and "    the loop's thread waits for the end of thread " in said, f"{status} {said}")


Step = Callable[[Check, str], None]
HUNTS: tuple[Step, ...] = (try_sanitizer, try_random, try_hunts, try_kept, try_long_ones, try_interrupt)
HANGING: tuple[Step, ...] = (try_hangs, try_first)
STARTED: tuple[Step, ...] = (try_steady, try_late_start, try_unwritten)
TOLD: tuple[Step, ...] = (try_results, try_reports, try_parts)


def try_forces(tries: Tries) -> None:
    if not has_libuv():
        tries.leave_out("orders that are forced", "there is no C compiler `cc` with libuv's header")
        return
    with tempfile.TemporaryDirectory() as folder:
        sanitizer = has_sanitizer(folder)
        for name in FORCED:
            try_one(tries.check, name, folder, sanitizer)
        try_faults(tries.check, folder)
        try_locked(tries.check, folder)
        try_slow(tries.check, folder)
        try_own(tries.check, folder)
        if libuv := archive():
            status, said = forced(["-o", "within.forced", str(FOLDER / "starve.uvt"), compiled("starve", folder, libuv)], folder)
            tries.check("force, libuv within the program", status == WELL and is_whole(said), said)


def each_of(tries: Tries, steps: tuple[Step, ...]) -> None:
    """Hunts, in a folder that is theirs."""
    with tempfile.TemporaryDirectory() as folder:
        if not has_libuv() or not has_sanitizer(folder):
            tries.leave_out("orders that are hunted", "there is no C compiler `cc` with libuv's header and AddressSanitizer")
            return
        for step in steps:
            step(tries.check, folder)


def try_hunted(tries: Tries) -> None:
    each_of(tries, HUNTS)


def try_hanging(tries: Tries) -> None:
    each_of(tries, HANGING)


def try_started(tries: Tries) -> None:
    each_of(tries, STARTED)


def try_told(tries: Tries) -> None:
    each_of(tries, TOLD)
