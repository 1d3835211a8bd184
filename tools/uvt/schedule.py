"""The session of which an order is forced, line by line: what the program is to show, and what comes from outside."""

from __future__ import annotations

import re
from pathlib import Path

from uvt.conversation import Conversation, Script
from uvt.offered import STEPS, single
from uvt.session_lines import LISTS, SECTIONS

ASKS = {"now", "alive", "timeout", "due", "hasref", "active", "closing"}


def row(kind: str, step: int, text: str, name: int = -1, number: int = 0, shown: tuple[str, str, str] = ("", "", "")) -> str:
    """SHOWN: the word of an op or a section, what stands behind it, and its answer."""
    return "\t".join([kind, str(step), str(name), str(number), *shown, text])


def has_wake(script: Script) -> bool:
    """Is there a handle `wake` that the program doesn't have? It stands for what woke the loop of a recording and called nobody."""
    return [it for it in script.lines if it.startswith("main ")][:2] == ["main init wake async", "main unref wake"]


def row_of(command: str, line: str, step: int, names: dict[str, int], unseen: str = "") -> str:
    """What the program is to show at this step, or what comes from outside. `unseen`: a handle that it doesn't have."""
    words = line.split(" ")
    if not line or (unseen and words[0] != "out" and words[1:2] == [unseen]):
        return row("silent", step, line or "a step without a line")
    if words[0] == "out":
        name = next((names[it] for it in words[2:] if it in names), -1)
        number = int(words[2]) if words[1] in ("tick", "take", "finish") else 0
        return row(words[1], step, line, name, number)
    if words[0] in LISTS and words[1] in names and " = " not in line and len(words) > 2:
        return row("io" if command.startswith("io ") else LISTS[words[0]], step, line, names[words[1]])
    if words[0] in ("run", "end"):
        return row(words[0], step, line)
    if words[0] == "poll":
        return row("poll", step, line, number=-1 if words[1] == "infinite" else int(words[1]))
    if words[0] in SECTIONS and len(words) == 1:
        return row("section", step, line, shown=(words[0], "", ""))
    op, _, code = line.partition(" = ")
    parts = op.split(" ", 2)
    if parts[0] in ASKS:
        return row("silent", step, line)
    name = names.get(parts[1], -1) if len(parts) > 1 else -1
    answer = "ok" if parts[0] in ("init", "queue") and re.fullmatch(r"\d+\.\d+", code) else code
    return row("op", step, line, name, shown=(parts[0], parts[2] if len(parts) > 2 else "", answer))


def schedule(script: Script, commands: list[str]) -> tuple[list[str], list[str]]:
    """What the program is to show and what comes from outside, line by line; and the lines of the session's run."""
    names = {it: at for at, it in enumerate(script.names())}
    rows: list[str] = []
    lines: list[str] = []
    steps = [it for it in single(commands) if it.split(" ")[0] in STEPS]
    unseen = "wake" if has_wake(script) else ""
    with Conversation(script) as talk:
        for command, answer in zip(steps, talk.ask_each(steps)):
            line = answer[0] if answer else ""
            if not line.startswith("refused"):
                lines.append(line)
                rows.append(row_of(command, line, len(lines), names, unseen))
    timers = [
        it
        for it in script.notes.javascript.resources.values()
        if it.kind in ("timer", "interval") and script.notes.javascript.language == "JavaScript"
    ]
    return [f"name\t{it}" for it in names] + [f"delay\t{it.id}\t{it.delay}" for it in timers] + seen_by_the_poll(rows), lines


def seen_by_the_poll(rows: list[str]) -> list[str]:
    """Sends that come behind the line `done`, before anything is called there: libuv sees them only if they wake the poll, so they come before
    that line. (What is called, and in which order, is the same.)"""
    kept: list[str] = []
    done = None
    for it in rows:
        parts = it.split("\t")
        if parts[0] == "section" and parts[4] == "done":
            done = len(kept)
        elif done is not None and parts[0] == "send":
            kept.insert(done, it)
            done += 1
            continue
        elif parts[0] not in ("section", "silent", "tick", "take", "finish") or (parts[0] == "section" and parts[4] != "async"):
            done = None
        kept.append(it)
    return kept


def workers_of(script: Script) -> int:
    return next((int(it.split(" ")[1]) for it in script.lines if it.startswith("workers ")), 4)


def called(lines: list[str]) -> list[tuple[str, ...]]:
    """Whose callbacks are called, in order. (`wake` is no handle of the program.)"""
    calls = [tuple(it.split(" ")[:2]) for it in lines if it.split(" ")[0] in LISTS and " = " not in it]
    return [it for it in calls if it[1] != "wake"]


def agreement(session: list[str], recording: Path) -> str:
    """Are the callbacks of the session the first ones of the recording, except for their names? `same`, or where they aren't."""
    if not recording.exists():
        return "nothing was recorded"
    text = recording.read_text(errors="replace").splitlines()
    want, have = called(session), called(text[text.index("calls") + 1 : -1])
    known: dict[str, str] = {}
    for at, ((kind, name), (kind2, name2)) in enumerate(zip(want, have), 1):
        if kind != kind2 or known.setdefault(name, name2) != name2:
            return f"callback {at} is `{kind} {name}` in the session, and `{kind2} {name2}` in the program"
    return "same" if len(have) >= len(want) else f"the program had {len(have)} of {len(want)} callbacks"
