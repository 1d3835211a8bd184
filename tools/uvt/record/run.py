"""Runs a program under the recorder, makes the recordings of its logs, and says what became of them."""

from __future__ import annotations

import glob
import re
import shutil
import sys
from pathlib import Path

from uvt.conversation import Fault, built_program
from uvt.inputs import bytes_of
from uvt.notes import signal_name
from uvt.record import ring
from uvt.record.compiled import compile_anew
from uvt.record.files import room_for, taken, write
from uvt.record.javascript import lacked
from uvt.record.lift import CantLift, NothingToLift, lift
from uvt.record.log import Log, read_log
from uvt.record.made import Made, make
from uvt.record.names import name_addresses, named_log
from uvt.record.noted import notes_of
from uvt.record.parts import Part
from uvt.record.started import Keep, ended, name_for, nothing_recorded, run_program
from uvt.record.told import folded, loop_of_javascript, of_main_alone, told, where_it_ended, whose, why_kept
from uvt.record.window import NoPart


def all_made(log: Log, part: Part) -> tuple[list[tuple[int, Made]], list[str]]:
    """The recordings of its loops; and of which loops none can begin where the part does. A fault where that is so of all of them."""
    made, faults = [], {}
    for loop in sorted(log.loops):
        try:
            if it := make(log, loop, part):
                made.append((loop, it))
        except NoPart as fault:
            faults[loop] = fault
    if faults and not made:
        raise faults[max(faults, key=lambda it: len(log.loops[it]))]
    return made, [f"loop {loop} is left out: {fault}" for loop, fault in faults.items()]


def put(path: Path, loop: int, made: Made, log: Log) -> None:
    """Writes the recording of a loop, and its notes."""
    recording = ("\n".join(made.outcome.recording) + "\n").encode()
    write(path, recording)
    notes = notes_of(made, log.note, where_it_ended(made, log, loop), why_kept(made, log, loop))
    notes.loop = loop
    write(path.with_suffix(".notes"), notes.text(recording).encode())


def lifted(log: Log, loop: int, path: Path, part: Part) -> tuple[list[str], bool]:
    """A second recording of a loop with JavaScript, in which each of its timers and immediates is a handle of its own."""
    try:
        other, handles = lift(log, loop)
        made = make(other, loop, part)
    except NothingToLift as fault:
        return [f"loop {loop} isn't lifted: {fault}"], True
    except (CantLift, NoPart) as fault:
        return [f"loop {loop} can't be lifted: {fault}"], False
    if not made:
        return [f"loop {loop} can't be lifted: it has no callback but node's own"], False
    put(path, loop, made, log)
    what = f"lifted: {handles} handle{'s' * (handles != 1)} for the timers and immediates of JavaScript, and node's own for them left out"
    return told(made, loop, path, log.note, what), made.is_whole()


def from_data(data: bytes, log: Log, name: str, part: Part = Part(), lifts: bool = False) -> tuple[list[str], bool]:
    """Makes the recordings of a log, and writes them. Answers what is to be said, and whether all go all the way."""
    made, lines = all_made(log, part)
    lines += lacked(log)
    whole = True
    first = loop_of_javascript(made)
    rows: list[tuple[int, list[str]]] = []
    for loop, it in made:
        path = Path(f"{name}.rec" if len(made) == 1 or loop == first else f"{name}.{loop}.rec")
        put(path, loop, it, log)
        kept = why_kept(it, log, loop)
        where = where_it_ended(it, log, loop) if log.copied is not None else f"it was kept apart, since {kept}" if kept else ""
        rows.append((loop, told(it, loop, path, log.note, whose(it.program, first is not None), where)))
        whole &= it.is_whole()
        if lifts and it.program.javascript.language != "JavaScript":
            rows[-1][1].append("--lift is for programs in node: there is no second recording")
        elif lifts and it.program.javascript:
            more, well = lifted(log, loop, path.with_suffix(".lift.rec"), part)
            rows[-1][1].extend(more)
            whole &= well
    lines += folded(rows) + [line for loop in sorted(log.loops) if loop not in dict(made) for line in of_main_alone(log, loop)]
    if not made:
        lines.append(f"no loop with callbacks in {log.lines} lines of the log" + (f": {log.note}" if log.note else ""))
        whole = False
    return lines, whole and not log.note


def from_log(path: Path, name: str | None, part: Part, lifts: bool = False) -> int:
    """A log, or a ring, that was kept."""
    if ring.is_ring(path):
        return 0 if from_fresh(ring.log_of(path), name or ring.name_of(path), False, part, "", lifts) else 1
    data = bytes_of(path)
    lines, whole = from_data(data, read_log(data), name or path.name.removesuffix(".log"), part, lifts)
    print("\n".join(lines), flush=True)
    return 0 if whole else 1


def from_process(process: int, name: str | None, part: Part, lifts: bool = False) -> int:
    """A copy of what a program that runs has kept."""
    built_program()
    living = ring.ring_of_process(process)
    return 0 if from_fresh(ring.of_process(living), name or f"{living.program}.{process}", False, part, "", lifts) else 1


def from_program(words: list[str], name: str | None, part: Part, bare: bool = False, lifts: bool = False) -> int:
    """Runs a program, and makes recordings of each of its processes that has a loop."""
    name = name or name_for(words)
    built_program()
    folder = room_for(name)
    try:
        pid, status = run_program(words, folder / "log", bare)
        said = ended(status)
        if said:
            print(said, flush=True)
        logs = sorted(folder.glob("log.*.log"), key=lambda it: it.stat().st_mtime_ns)
        if not logs:
            raise Fault(nothing_recorded(words[0], status))
        whole = True
        for path in logs:
            process = name if len(logs) == 1 else f"{name}.{path.name.split('.')[1]}"
            by = signal_name(-status) if status < 0 and path in last_of(logs, pid) else ""
            whole &= from_fresh(taken(path, Path(f"{process}.log")), process, len(logs) > 1, part, by, lifts)
        return 0 if whole else 1
    finally:
        shutil.rmtree(folder, ignore_errors=True)


def last_of(logs: list[Path], process: int) -> list[Path]:
    """The log of this process that was written last: where it replaced itself by exec there are several."""
    return [it for it in logs if it.name.split(".")[1].split("-")[0] == str(process)][-1:]


def kept_rings(prefix: Path) -> set[Path]:
    return {it for it in prefix.parent.glob(f"{glob.escape(prefix.name)}.*.ring") if ring.is_ring(it)}


def from_keeping(words: list[str], name: str | None, keep: Keep, part: Part, bare: bool = False, lifts: bool = False) -> int:
    """Runs a program of which the last windows are kept, and makes recordings of these, and of those that were kept apart."""
    name = name or name_for(words)
    built_program()
    prefix = Path(name).resolve()
    before = kept_rings(prefix)
    pid, status = run_program(words, prefix, bare, keep)
    if said := ended(status):
        print(said, flush=True)
    rings = sorted(kept_rings(prefix) - before, key=lambda it: it.stat().st_mtime_ns)
    if not rings:
        raise Fault(nothing_recorded(words[0], status))
    processes = {ring.words_of(it) for it in rings}
    whole = True
    for path in rings:
        late = re.search(r"\.(late-\d+)\.ring", path.name)
        process = path.name.removeprefix(f"{prefix.name}.").split(".")[0]
        called = ".".join(filter(None, [name, process if len(processes) > 1 else "", late[1] if late else ""]))
        if late:
            print(f"kept apart, since something took {keep.late} ms and longer:", flush=True)
        by = signal_name(-status) if status < 0 and not late and process.split("-")[0] == str(pid) else ""
        whole &= from_fresh(ring.log_of(path), called, len(processes) > 1 and not late, part, by, lifts)
    # (all of it stands in the logs now)
    for path in [*rings, *processes]:
        path.unlink(missing_ok=True)
    return 0 if whole else 1


def from_fresh(data: bytes, name: str, several: bool, part: Part, ended_by: str = "", lifts: bool = False) -> bool:
    """A log without its symbols. It gets them, and is kept with them."""
    kept = Path(f"{name}.log")
    if not data.strip(b"\0"):
        # (a window of the log is there before its first line is)
        early = data or ended_by
        raise Fault("the program ended before the first line of its log" if early else "the disk had no room for the log")
    data = data.rstrip(b"\0")
    if ended_by and data.endswith(b"\n"):
        data += f"- X {ended_by}\n".encode()
    log = read_log(data)
    if "capstone" in log.blind:
        compile_anew()
    if log.blind and not several:
        raise Fault(f"{log.program}: {log.blind}")
    name_addresses(log)
    try:
        write(kept, named_log(data, log))
    except Fault as fault:
        print(f"uvt-record: {fault}: the log has no symbols, or isn't there", file=sys.stderr)
    if several:
        print(f"process {log.process}, {log.program}", flush=True)
    lines, whole = from_data(data, log, name, part, lifts)
    print("\n".join(lines), flush=True)
    return whole
