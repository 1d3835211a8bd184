"""Is there an order of what comes from outside in which this happens? Every order is searched.

  ./uvt find FILE            a script, the line `begin`, what may come from outside, and one question
  ./uvt find FILE LINE..     the script or the recording in FILE, without the steps behind it, and these lines
  ./uvt find A.rec B.rec LINE..   several recordings of one program: each call of a callback does what the first of them has that has it
  ./uvt find FILE LINE.. --full   the same as with a line `full`
  ./uvt find FILE -o SESSION the session that is found goes to the file SESSION, and not to the output
  ./uvt find FILE LINE.. 'find ..' 'find ..' -j N   several questions, N of them at a time, each by itself: a line for each with its answer. With
                             -o the session of the K-th goes to SESSION.K

Of a recording that ./uvt record --lift made NAME may be a line of JavaScript, too (`app.js:12`): that of a timer's function or of its start.

The lines behind `begin` (docs/FIND.md has each):
  may send NAME N [during JOB], may cancel NAME N, may io NAME N, may tick MS N, may wait [MS N]   what may come, beside the workers, which take and
                                                                  finish at any time. Of a recording, without such a line: what came in it
  may differ K                                                    what came in the recording, at most K of it at another place
  takes NAME [@K] MS                                              how long a callback takes
  most clock MS, most NAME CALLS, most states N                   how far it is searched
  full                                                            each state is kept whole, with its times, counts and generations, and no
                                                                  move is held back
  find call NAME [N], find on NAME [N], find after NAME [N], find closed NAME [N], find code CODE [of NAME], find section WORD, find never NAME,
  find stuck, find late NAME MS, find latest NAME, find NAME before NAME, find NAME after NAME

Status 0: found; what stands behind the answer is a session, which debug, why, shell, view and libuv take. Status 1: never, in no
order. Status 3: not settled, since there are more states than may be kept, or memory was refused. Statuses 2 and 4 are those of uvt: a bad
line; a fault. An interrupt ends it with status 130, and a line that says within how many states nothing was settled.

The search is the program of crates/uvt_find. UVT_FIND names another one.
"""

from __future__ import annotations

import argparse
import re
import subprocess
import sys
import tempfile
from concurrent.futures import ThreadPoolExecutor
from pathlib import Path

from launch import bad_line
from launch.tool import START, run_tool
from uvt.conversation import INSTALLED, Fault, Script
from uvt.inputs import HOOKED, bytes_of, read_input
from uvt.find_javascript import named
from uvt.joined import Recorded, joined
from uvt.notes import harmless, some
from uvt.offered import Offered, never_called, offered, single
from uvt.searching import BAD_LINE, UNSETTLED, Search

FOUND, NEVER, OWN_FAULT = 0, 1, 70
# The line that is one word.
FULL = "full"
# So many names are listed at the most.
SHOWN = 8


def inquiry(paths: list[Path], lines: list[str]) -> tuple[bytes, list[str]]:
    """What is asked: the file as it stands, or its script with these lines behind it; and what is to be said of that, a sentence each."""
    if lines in ([], [FULL]):
        if len(paths) > 1:
            raise Fault("no line asks anything of these recordings: 'find call NAME' does")
        asked = bytes_of(paths[0])
        return with_full(asked) if lines else asked, []
    read = [(script, single(steps)) for script, steps in map(read_input, paths)]
    differing = next((it for it in lines if it.split(" ")[:2] == ["may", "differ"]), None)
    if differing and not read[0][1]:
        raise Fault(f"`{differing}`: no steps stand behind `begin` in {paths[0]} from which an order might differ")
    if not all(script.is_recorded() for script, _ in read):
        if len(paths) > 1:
            raise Fault(f"{next(path for path, (script, _) in zip(paths, read) if not script.is_recorded())} is no recording, and several files are")
        return text_of(read[0][0].lines, differed(offered(*read[0]), lines, differing) if differing else lines), []
    recordings = [Recorded(path, script, offered(script, steps)) for path, (script, steps) in zip(paths, read)]
    whole, said = joined(recordings)
    brought = [] if any(it.startswith("may ") for it in lines) else whole.offered.lines(lines)
    said += of_recording(whole, bool(brought))
    if differing:
        said.append(
            f"`{differing}`: so many of the steps from outside in {paths[0]} may come at another place, those of one name, of one worker or "
            "of the clock in their order; each other one comes at its place, or as soon after it as the loop accepts it"
        )
        lines = differed(recordings[0].offered, lines, differing)
    return text_of(whole.script.lines, brought + lines), said


def with_full(asked: bytes) -> bytes:
    """What a file asks, with the line `full`, if it isn't there."""
    lines = asked.split(b"\n")
    if b"begin" not in lines or FULL.encode() in lines[lines.index(b"begin") :]:
        return asked
    return asked.removesuffix(b"\n") + b"\n%s\n" % FULL.encode()


def is_line(word: str) -> bool:
    """Whether a word of the command is a line that asks, and no file: each has several words, except for `full`."""
    return " " in word or word == FULL


def differed(came: Offered, lines: list[str], differing: str) -> list[str]:
    """These lines, with what came behind `may differ`."""
    at = lines.index(differing) + 1
    return lines[:at] + came.near(lines) + lines[at:]


def text_of(script: list[str], lines: list[str]) -> bytes:
    return "".join(f"{it}\n" for it in [*script, "begin", *lines]).encode("ascii", "surrogateescape")


def of_recording(whole: Recorded, brings: bool) -> list[str]:
    """What an answer on a recording rests on, a sentence each."""
    said = [whole.offered.sentence()] if brings else []
    if brings and whole.offered.closed:
        said.append(f"close callbacks take no time here: they took {whole.offered.closed} ms")
    unknown = never_called(whole.script, whole.offered.calls)
    if unknown:
        whose = f"callback of {unknown[0]} does" if len(unknown) == 1 else f"callbacks of {some(unknown, SHOWN)} do"
        said.append(f"what the {whose} isn't known, since no call was recorded: here a call does nothing")
    return [*said, "each callback does what it did in the recording, also where the program would do something else"]


def explain(asked: bytes, said: bytes) -> None:
    """Says of the line that the program has named why it is bad."""
    named = re.search(rb"bad script line (\d+)", said)
    if not named:
        return
    lines = asked.split(b"\n")
    if lines[-1] == b"":
        lines.pop()
    number = int(named[1])
    if number <= len(lines):
        print(f"uvt: line {number} is: {harmless(lines[number - 1].decode('ascii', 'backslashreplace'))}", file=sys.stderr)
    why = bad_line.why("find", lines, number)
    if why:
        print(f"uvt: {why.sentence()}", file=sys.stderr)


def left_out(asked: bytes) -> list[str]:
    """What can come in no order, since no line offers it: a sentence for each."""
    lines = asked.decode("ascii", "replace").split("\n")
    begin = lines.index("begin") if "begin" in lines else len(lines)
    asks, ops = [it.split(" ") for it in lines[begin + 1 :]], Script(lines[:begin]).ops()
    made = dict.fromkeys((op[1], op[2]) for op in ops if op[:1] == ["init"] and len(op) == 3)
    sent = {op[1] for op in ops if op[:1] == ["send"] and len(op) > 1}
    differs = any(words[:2] == ["may", "differ"] for words in asks)
    offered = {tuple(words[:3]) for words in asks} | {("may", *words[3:]) for words in asks if words[0] == "recorded"}
    waiting = [name for name, kind in made if kind == "io" and ("may", "io", name) not in offered]
    unsent = [name for name, kind in made if kind == "async" and ("may", "send", name) not in offered and name not in sent]
    said = []
    if differs and (waiting or unsent):
        said.append(f"nothing came for {some(waiting + unsent, SHOWN)} in the recording: in each of these orders none of their callbacks is called")
        waiting, unsent = [], []
    if waiting:
        never = f"in each of these orders nothing comes for {some(waiting, SHOWN)}, and none of their callbacks is called"
        said.append(f"no line says `may io {waiting[0]} N`: {never}")
    if unsent:
        said.append(f"no line says `may send {unsent[0]} N`, and no op sends: in each of these orders {some(unsent, SHOWN)} is never called")
    said += [
        f"no line makes `{words[2]}` a handle of I/O, so nothing comes for it"
        for words in asks
        if words[:2] == ["may", "io"] and len(words) == 4 and (words[2], "io") not in made
    ]
    queued = {op[1] for op in ops if op[:1] == ["queue"] and len(op) > 1}
    said += [
        f"`{words[2]}` is no timer, no async handle and no request in any line, so it is never late"
        for words in asks
        if (
            words[:2] == ["find", "late"]
            and len(words) == 4
            and words[2] not in ("before", "after")
            or words[:2] == ["find", "latest"]
            and len(words) == 3
        )
        and not {(words[2], "timer"), (words[2], "async")} & set(made)
        and words[2] not in queued
    ]
    return said


def hint(session: Path) -> None:
    command = "uvt" if INSTALLED else "./uvt"
    print(f"    {command} shell {session}")


def answer(paths: list[Path], lines: list[str], session: Path | None) -> int:
    lines, said_of_lines = named(paths[0], lines)
    asked, known = inquiry(paths, lines)
    with tempfile.TemporaryFile() as output:
        search = Search(asked, output)
        try:
            status, said = search.settle()
        except KeyboardInterrupt:
            if search.past:
                print(f"not settled within {search.past} states: interrupted", flush=True)
            raise
        output.seek(0)
        if status == BAD_LINE:
            explain(asked, said)
        elif status != OWN_FAULT:
            for sentence in said_of_lines + left_out(asked) + known:
                print(f"uvt find: {harmless(sentence)}", file=sys.stderr)
        first = output.readline()
        sys.stdout.buffer.write(first)
        rest = output.read()
        if rest and read_input(paths[0])[0].notes.javascript:
            rest = f"{HOOKED}\n".encode() + rest
        if session and rest:
            session.write_bytes(rest)
            sys.stdout.flush()
            hint(session)
        else:
            sys.stdout.buffer.write(rest)
        sys.stdout.flush()
    return status if status >= 0 else OWN_FAULT


def ask_each(files: list[str], lines: list[str], questions: list[str], session: Path | None, jobs: int) -> int:
    """Asks each question by itself, so many at a time. The status is that of what went wrong; else found where one is found, never where each is
    never, and not settled where neither is so."""

    def ask(numbered: tuple[int, str]) -> subprocess.CompletedProcess[bytes]:
        number, question = numbered
        aside = [] if session is None else ["-o", f"{session}.{number}"]
        return subprocess.run(
            [sys.executable, START, "find", *files, *lines, question, *aside],
            stdin=subprocess.DEVNULL,
            stdout=subprocess.PIPE,
            stderr=subprocess.PIPE,
            check=False,
        )

    told: list[bytes] = []
    statuses = []
    with ThreadPoolExecutor(jobs) as pool:
        for question, ran in zip(questions, pool.map(ask, enumerate(questions, 1))):
            for line in ran.stderr.splitlines(True):
                if line not in told:
                    sys.stderr.buffer.write(line)
                    told.append(line)
            sys.stderr.flush()
            first = ran.stdout.decode("ascii", "replace").partition("\n")[0]
            print(f"{harmless(question)}: {first or 'no answer'}", flush=True)
            statuses.append(ran.returncode)
    wrong = [it for it in statuses if it not in (FOUND, NEVER, UNSETTLED)]
    return wrong[0] if wrong else FOUND if FOUND in statuses else max(statuses)


def main() -> int:
    reader = argparse.ArgumentParser(description=__doc__, formatter_class=argparse.RawDescriptionHelpFormatter)
    reader.add_argument("file", metavar="FILE", type=Path, help="a script or a recording")
    reader.add_argument("lines", metavar="LINE", nargs="*", help="a line that may stand behind `begin`, in quotes: 'may wait' 'find late beat 30'")
    reader.add_argument("--full", action="store_true", help="each state is kept whole and no move is held back, as with a line `full`")
    reader.add_argument("-j", dest="jobs", metavar="N", type=int, default=1, help="so many questions at a time, where several are asked")
    reader.add_argument("-o", dest="session", metavar="SESSION", type=Path, help="where the session that is found goes")
    asked = reader.parse_args()
    paths = [asked.file, *(Path(it) for it in asked.lines if not is_line(it))]
    lines = [it for it in asked.lines if is_line(it)]
    if asked.full and FULL not in lines:
        lines.append(FULL)
    questions = [it for it in lines if it.startswith("find ")]
    if asked.jobs < 1:
        reader.error("-j takes a number from 1 on")
    if len(questions) > 1:
        rest = [it for it in lines if it not in questions]
        return run_tool(
            "uvt-find", lambda: ask_each([str(it) for it in paths], rest, questions, asked.session, asked.jobs), failed=OWN_FAULT, what="the search"
        )
    return run_tool("uvt-find", lambda: answer(paths, lines, asked.session), failed=OWN_FAULT, what="the search")
