"""A thread of a program that runs, borrowed for a moment: one that waits in a call of the system, where it has nothing in its hands."""

from __future__ import annotations

import contextlib
import os
import time
from pathlib import Path
from typing import Callable, Iterator

from uvt.record.tracing import Borrowed, Gone, Memory, Thread, threads_of

# Where not all stand still within so many s they go on, and it is tried again.
STILL = 0.03
# Calls of the system in which a thread may be borrowed: it waits there, and has nothing of the C library's in its hands. (Of a futex those waits
# alone that aren't for a lock.)
EPOLL_WAIT, EPOLL_PWAIT, EPOLL_PWAIT2, FUTEX = 232, 281, 441, 202
WAITS = {EPOLL_WAIT, EPOLL_PWAIT, EPOLL_PWAIT2, 7, 271, 23, 270, 35, 230, 34, 130}
WAIT_BITSET = 9


@contextlib.contextmanager
def ahead_of_others() -> Iterator[None]:
    """Others wait for this process: so it waits for none, where it may ask for that."""
    try:
        os.sched_setscheduler(0, os.SCHED_RR, os.sched_param(1))
    except OSError:
        yield
        return
    try:
        yield
    finally:
        os.sched_setscheduler(0, os.SCHED_OTHER, os.sched_param(0))


class NotStill(Exception):
    """Threads don't stand still in the time that they have for it: on a busy machine they wait for a processor."""


def waits_in(process: int, thread: int) -> bool:
    """Does it wait there, as far as can be seen from outside?"""
    try:
        words = Path(f"/proc/{process}/task/{thread}/syscall").read_text().split()
    except OSError:
        return False
    if not words or not words[0].isdigit():
        return False
    number = int(words[0])
    return number in WAITS or number == FUTEX and int(words[2], 16) & 0x7F == WAIT_BITSET


def may_be_borrowed(memory: Memory, thread: Thread) -> Borrowed | None:
    kept = thread.registers()
    number = kept["orig_rax"]
    in_wait = number in WAITS or number == FUTEX and kept["rsi"] & 0x7F == WAIT_BITSET
    return Borrowed(thread, kept) if in_wait and memory.read(kept["rip"] - 2, 2) == b"\x0f\x05" else None


def lends(memory: Memory, thread: Thread, use: Callable[[Borrowed], None]) -> bool:
    """Does it do that? (It has to be where it may be borrowed.)"""
    try:
        thread.hurry()
        thread.interrupt()
        if not thread.stops(time.monotonic() + STILL):
            raise NotStill
        if not (found := may_be_borrowed(memory, thread)):
            return False
        with found:
            use(found)
        return True
    except Gone:
        return False
    finally:
        thread.leave()


def borrowed(process: int, memory: Memory, use: Callable[[Borrowed], None]) -> float | None:
    """Has a thread that waits do that: for how long it stood still, in s; None where none waits. (One of a pool before one that may run a loop.)"""
    waiting, still = [it for it in threads_of(process) if waits_in(process, it)], True
    for number in sorted(waiting, key=lambda it: it == process):
        try:
            thread = Thread(number)
        except Gone:
            continue
        with ahead_of_others():
            begin = time.monotonic()
            try:
                if lends(memory, thread, use):
                    return time.monotonic() - begin
            except NotStill:
                still = False
    if not still:
        raise NotStill
    return None
