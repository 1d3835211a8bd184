"""The recorder comes into a program that runs, and leaves it again.

A thread that waits is borrowed for a moment, and makes another one, which loads the recorder and has that make ready what is to be changed, while
all others run on. Then all stand still for some ms: where none is within bytes that are to be changed, these are written, and all go on.
"""

from __future__ import annotations

import contextlib
import json
import os
import struct
import time
from dataclasses import dataclass
from pathlib import Path
from typing import Callable

from uvt.conversation import Fault
from uvt.record import ring
from uvt.record.borrowed import STILL, NotStill, ahead_of_others, borrowed
from uvt.record.tracing import NONE, Borrowed, Gone, Loaded, Memory, Thread, check_machine, loaded_in, threads_of

# How often it is tried where no thread can be borrowed, not all stand still, or one is where it may not be; and how long it goes on between, in s.
TRIES, PAUSE = 60, 0.03
# So long the recorder may take to make ready what is to be changed, and for the hook of JavaScript, in s.
READY, HOOKS = 300.0, 120.0
MMAP, READ_WRITE_EXECUTE, PRIVATE_ANONYMOUS = 9, 7, 0x22
# What is laid out in its memory: a code, words, texts and a stack.
ROOM, WORDS, TEXTS, BEHIND, PAGE = 1 << 16, 0x100, 0x200, 0x4000, 4096
# (see there: struct patch, uvt_attachment)
PATCH = struct.Struct("<QII8s8s")
READY_AT, WHY, PATCHES, COUNT, ON, LEAVING, LEFT, HOOKED, HOOKING = range(0, 72, 8)
# What a thread does that is made: it loads the recorder, looks for uvt_attach and calls it, by the words to which rdi points:
# dlopen dlsym dlerror FILE NAME LINES, then what it finds: handle, error, done.
CODE = bytes.fromhex(
    "53 4889fb"  # push rbx; mov rbx, rdi
    "488b7b18 be02000000 ff13 48894330 4885c0 7419"  # dlopen(FILE, RTLD_NOW), kept; if it has none: to dlerror
    "4889c7 488b7320 ff5308 4885c0 740a"  # dlsym(handle, NAME); if there is none: to dlerror
    "488b7b28 ffd0 eb09 9090"  # call it with LINES; to the end
    "ff5310 48894338"  # dlerror(), kept
    "c7434001000000 31c0 5b c3"  # done = 1; return
)
TRAP = 0xF0


# ---- the recorder is loaded


class Patience:
    """How often it is tried in vain. A process that is just being started, or gets no processor on a busy machine, has done nothing since the last
    try: that one doesn't count. And none does in which threads weren't still in time."""

    def __init__(self, process: int) -> None:
        self.process, self.left, self.until = process, TRIES, time.monotonic() + READY
        self.ran = ran(process)

    def is_over(self, still: bool = True) -> bool:
        """Waits for the next try; is there none?"""
        before, self.ran = self.ran, ran(self.process)
        self.left -= still and (self.ran != before or not is_to_run(self.process))
        time.sleep(PAUSE)
        return self.left <= 0 or time.monotonic() > self.until


def stat_of(path: str) -> list[str]:
    """Behind the name; a fault where it is gone."""
    try:
        return Path(path).read_text().rpartition(")")[2].split()
    except OSError:
        raise Gone from None


def ran(process: int) -> int:
    """How long it was on a processor, in the system's ticks."""
    words = stat_of(f"/proc/{process}/stat")
    return int(words[11]) + int(words[12])


def is_to_run(process: int) -> bool:
    """Does a thread of it wait for a processor, or for the disk?"""
    found = []
    for it in threads_of(process):
        with contextlib.suppress(Gone):
            found.append(stat_of(f"/proc/{process}/task/{it}/stat")[0])
    return "R" in found or "D" in found


def function_of(files: list[Loaded], *names: str) -> int:
    found = next((it.base + it.symbols[name] for it in files for name in names if name in it.symbols), 0)
    if not found:
        raise Fault(f"its C library has no {names[0]} that can be called (one that is linked statically, or another one than glibc)")
    return found


CALLS = ("dlopen", "dlsym", "dlerror", "pthread_create")


def lent(process: int, memory: Memory, use: Callable[[Borrowed, list[int]], None]) -> float:
    """Has a thread do that, with what it may call of the C library: for how long it stood still, in s."""
    patience, fault = Patience(process), Fault("none of its threads waits, so none can be asked to load the recorder: try again")
    while True:
        still, why = True, fault
        try:
            files = loaded_in(process, "libc.so", "libc-", "libdl.so", "libdl-", "libpthread")
            calls = [function_of(files, it) for it in CALLS]
        except Fault as missing:
            why, calls = missing, []
        try:
            if calls and (took := borrowed(process, memory, lambda thread: use(thread, calls))) is not None:
                return took
        except NotStill:
            still = False
        if patience.is_over(still):
            raise why


def load(process: int, memory: Memory, recorder: Path, lines: str) -> float:
    """Has it loaded by a thread that is made for that: for how long the one that makes it stood still, in s."""
    at = 0

    def use(thread: Borrowed, calls: list[int]) -> None:
        nonlocal at
        *words, make = calls
        at = thread.of_system(MMAP, 0, ROOM, READ_WRITE_EXECUTE, PRIVATE_ANONYMOUS, NONE, 0)
        if at < 0:
            raise Fault(f"it can't have memory with code ({os.strerror(-at)})")
        texts, places = b"", []
        for text in (str(recorder), "uvt_attach", lines):
            places.append(at + TEXTS + len(texts))
            texts += os.fsencode(text) + b"\0"
        memory.write(at, CODE.ljust(TRAP, b"\xcc") + b"\xcc")
        memory.write(at + WORDS, struct.pack("<6Q", *words, *places))
        memory.write(at + TEXTS, texts)
        stack = at + ROOM - 0x108
        memory.write(stack, struct.pack("<Q", at + TRAP))
        if code := thread.call(make, stack, at + TRAP, at + WORDS + 0x80, 0, at, at + WORDS):
            raise Fault(f"it can't make a thread ({os.strerror(code)})")

    if len(lines) + len(str(recorder)) > BEHIND - TEXTS:
        raise Fault("the names of its files are too long")
    still = lent(process, memory, use)
    until = time.monotonic() + READY
    while not memory.words(at + WORDS, 9)[8] & 0xFFFFFFFF:
        if not os.path.exists(f"/proc/{process}"):
            raise Fault("it ended meanwhile")
        if time.monotonic() > until:
            raise Fault(f"the recorder isn't ready within {READY:.0f} s")
        time.sleep(0.002)
    if why := memory.words(at + WORDS, 8)[7]:
        raise Fault(f"the recorder can't be loaded: {memory.text(why)}")
    return still


# ---- all stand still


@dataclass
class Patch:
    at: int
    moved: int
    before: bytes
    behind: bytes


class Attachment:
    """What the recorder has made ready in it."""

    def __init__(self, process: int, memory: Memory, recorder: Path) -> None:
        files = [it for it in loaded_in(process, recorder.name) if "uvt_attachment" in it.symbols]
        if not files:
            raise Fault("the recorder isn't in it")
        self.memory = memory
        self.at = files[0].base + files[0].symbols["uvt_attachment"]

    def word(self, place: int) -> int:
        return self.memory.words(self.at + place, 1)[0]

    def patches(self) -> list[Patch]:
        count = self.word(COUNT)
        data = self.memory.read(self.word(PATCHES), PATCH.size * count)
        return [Patch(at, moved, before[:size], behind[:size]) for at, size, moved, before, behind in PATCH.iter_unpack(data)]


def is_between(guarded: set[int], memory: Memory, thread: Thread) -> bool:
    """Is it, or may it come back to, where it may not be? (A place to come back to lies on its stack, also one that a signal's handler comes back to.
    What lies on its stack from before may look like one: then it is tried again.)"""
    deep = 1 << 14
    registers = thread.registers()
    for _ in range(64):
        if registers["rip"] not in guarded:
            break
        registers = thread.step()
    stack = memory.read(registers["rsp"], deep)
    return registers["rip"] in guarded or not guarded.isdisjoint(word for word, in struct.iter_unpack("<Q", stack[: len(stack) & ~7]))


def all_still(process: int, threads: dict[int, Thread], until: float) -> bool:
    """Do all of them stand still by then, also those that are made meanwhile?"""
    while new := [it for it in threads_of(process) if it not in threads]:
        for number in new:
            try:
                threads[number] = Thread(number)
                threads[number].hurry()
                threads[number].interrupt()
            except Gone:
                threads.pop(number, None)
        for number in new:
            try:
                if number in threads and not threads[number].stops(until):
                    return False
            except Gone:
                threads.pop(number, None)
    return True


def write_once(process: int, memory: Memory, guarded: set[int], what: list[tuple[int, bytes]]) -> bool:
    """Writes it while all stand still; false where that can't be done just now."""
    threads: dict[int, Thread] = {}
    try:
        if not all_still(process, threads, time.monotonic() + STILL):
            raise NotStill
        if any(is_between(guarded, memory, it) for it in threads.values()):
            return False
        for at, data in what:
            memory.write(at, data)
    finally:
        for it in threads.values():
            it.leave()
    return True


def write(process: int, memory: Memory, patches: list[Patch], what: list[tuple[int, bytes]]) -> float:
    """For how long all stood still at the most, in s."""
    guarded = {it.at + more for it in patches for more in range(1, it.moved)}
    # (a page of its code becomes its own one with its first byte that is written, be that the one that stands there)
    for at in {it.at & -PAGE: it.at for it in patches if it.moved}.values():
        with contextlib.suppress(Fault):
            memory.write(at, memory.read(at, 1))
    longest, patience = 0.0, Patience(process)
    while True:
        done, still = False, True
        with ahead_of_others():
            begin = time.monotonic()
            try:
                done = write_once(process, memory, guarded, what)
            except NotStill:
                still = False
            longest = max(longest, time.monotonic() - begin)
        if done:
            return longest
        if patience.is_over(still):
            raise Fault("its threads can't be stopped where its code may be changed: try again")


# ---- what may be asked


def is_kept(process: int) -> bool:
    try:
        ring.ring_of_process(process)
    except Fault:
        return False
    return True


def status_of(process: int) -> dict[str, str]:
    try:
        lines = Path(f"/proc/{process}/status").read_text().splitlines()
    except OSError:
        raise Fault(ring.why_unseen(process)) from None
    return {name: text.strip() for name, _, text in (it.partition(":") for it in lines)}


def check_state(status: dict[str, str]) -> None:
    state = status.get("State", "")[:1]
    if state in "ZX":
        raise Fault("it has ended")
    if state in "Tt":
        raise Fault("it is stopped: it takes a thread of it that runs")
    if int(status.get("TracerPid", "0")):
        raise Fault("another debugger traces it")


def check_process(process: int, recorder: Path) -> None:
    """A fault where it can't be."""
    status = status_of(process)
    check_state(status)
    if int(status.get("Seccomp", "0")):
        raise Fault("it filters its calls of the system (seccomp), so nothing is loaded into it")
    there = Path(f"/proc/{process}/root{recorder}")
    try:
        seen = os.path.samefile(there, recorder)
    except OSError:
        seen = False
    if not seen:
        raise Fault(f"it doesn't see {recorder}: it has other folders (a container), or they can't be looked at")


def in_process(process: int, do: Callable[[], float]) -> float:
    """A fault says which process it is."""
    check_machine()
    try:
        return do()
    except Gone:
        raise Fault(f"process {process}: it ended meanwhile") from None
    except Fault as fault:
        text = str(fault)
        raise Fault(text if text.startswith("process ") else f"process {process}: {text}") from None


def script_of(recorder: Path, hook: Path) -> str:
    """What is run in it for the functions of JavaScript."""
    files = json.dumps({"UVT_LOG": "1", "UVT_RECORDER": str(recorder)})
    load = "process.getBuiltinModule ? process.getBuiltinModule('module').createRequire('/') : process.mainModule.require"
    key = "process[Symbol.for('uvt')]"
    return f"try {{ {key} = {files}; ({load})({json.dumps(str(hook))}); }} catch {{}} finally {{ delete {key}; }}"


def hooking(process: int, recorder: Path) -> float | None:
    """How long its JavaScript stood still for the hook, in ms; None where it came into no loop of it."""
    memory = Memory(process)
    try:
        attachment = Attachment(process, memory, recorder)
        until = time.monotonic() + HOOKS
        while not attachment.word(HOOKED) and time.monotonic() < until:
            time.sleep(0.01)
        return float(attachment.word(HOOKING)) if attachment.word(HOOKED) else None
    finally:
        memory.close()


def attached(process: int, recorder: Path, lines: dict[str, str]) -> float:
    """For how long its threads stood still, in s."""

    def do() -> float:
        check_process(process, recorder)
        if is_kept(process):
            raise Fault(f"it has the recorder already: ./uvt dump {process}")
        if "UVT_SCRIPT" in lines and any("uvt_attachment" in it.symbols for it in loaded_in(process, recorder.name)):
            raise Fault("it had the recorder before: into its JavaScript it comes the first time alone")
        memory = Memory(process)
        try:
            still = load(process, memory, recorder, "".join(f"{name}={text}\n" for name, text in lines.items()))
            attachment = Attachment(process, memory, recorder)
            if not attachment.word(READY_AT):
                raise Fault(memory.text(attachment.word(WHY)))
            patches = attachment.patches()
            if any(memory.read(it.at, len(it.before)) != it.before for it in patches):
                raise Fault("its code was changed by something else")
            what = [*((it.at, it.behind) for it in patches), (attachment.at + ON, struct.pack("<Q", 1))]
            return max(still, write(process, memory, patches, what))
        finally:
            memory.close()

    return in_process(process, do)


def left(process: int, recorder: Path) -> float:
    """The recorder leaves it: for how long its threads stood still, in s. (They are stopped a first time, so that loops that wait poll again.)"""

    def do() -> float:
        check_state(status_of(process))
        memory = Memory(process)
        try:
            attachment = Attachment(process, memory, recorder)
            if not attachment.word(ON):
                raise Fault("it has the recorder from its start, or not at all: there is nothing to leave")
            patches = attachment.patches()
            took = write(process, memory, [], [(attachment.at + LEAVING, struct.pack("<Q", 1))])
            patience = Patience(process)
            while attachment.word(LEFT) != 0 and not patience.is_over():
                pass
            back = [(it.at, it.before) for it in reversed(patches)]
            return max(took, write(process, memory, [], [*back, (attachment.at + ON, bytes(8))]))
        finally:
            memory.close()

    return in_process(process, do)
