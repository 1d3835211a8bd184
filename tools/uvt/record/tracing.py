"""Threads of another process that stand still: the system's ptrace, on x86-64. What is read and written of the process goes by its /proc/PID/mem.

A thread that is seized runs on. One that is stopped goes on where it was, with all its registers, whatever it was made to call meanwhile.
"""

from __future__ import annotations

import contextlib
import ctypes
import errno
import os
import platform
import signal
import struct
import time
from dataclasses import dataclass, field
from pathlib import Path

from uvt.conversation import Fault

SINGLESTEP, GETREGS, SETREGS, DETACH, SYSCALL, GETREGSET, SETREGSET = 9, 12, 13, 17, 24, 0x4204, 0x4205
CONT, SEIZE, INTERRUPT, GETSIGMASK, SETSIGMASK = 7, 0x4206, 0x4207, 0x420A, 0x420B
XSTATE, ALL, SYSCALL_GOOD = 0x202, 0x40000000, 1
ORDER = "r15 r14 r13 r12 rbp rbx r11 r10 r9 r8 rax rcx rdx rsi rdi orig_rax rip cs eflags rsp ss fs_base gs_base ds es fs gs"
NAMES = ORDER.split(" ")
NONE = (1 << 64) - 1
# (the system's own number of a call that has to be made again: -ERESTARTSYS and its like)
STEP_AND_DIRECTION = 0x500
LENGTH = 2
# What a thread that calls something has blocked: all, except for what its own instructions raise, and glibc's own two.
LET = (signal.SIGTRAP, signal.SIGSEGV, signal.SIGBUS, signal.SIGILL, signal.SIGFPE, 32, 33)
BLOCKED = ((1 << 64) - 1) & ~sum(1 << (it - 1) for it in LET)

libc = ctypes.CDLL(None, use_errno=True)
libc.ptrace.restype = ctypes.c_long
libc.ptrace.argtypes = [ctypes.c_long, ctypes.c_long, ctypes.c_void_p, ctypes.c_void_p]


class Gone(Exception):
    """The thread isn't there any more."""


def ptrace(request: int, thread: int, address: int = 0, data: object = 0) -> int:
    ctypes.set_errno(0)
    got: int = libc.ptrace(request, thread, address, data)
    if got == -1 and (code := ctypes.get_errno()):
        if code == errno.ESRCH:
            raise Gone
        raise OSError(code, os.strerror(code))
    return got


def check_machine() -> None:
    if platform.machine() != "x86_64":
        raise Fault(f"it can be done on x86-64 alone, and this is {platform.machine()}")


def threads_of(process: int) -> list[int]:
    try:
        return sorted(int(it) for it in os.listdir(f"/proc/{process}/task"))
    except OSError:
        return []


@dataclass
class Registers:
    words: list[int]

    def __getitem__(self, name: str) -> int:
        return self.words[NAMES.index(name)]

    def with_words(self, **words: int) -> Registers:
        found = list(self.words)
        for name, word in words.items():
            found[NAMES.index(name)] = word & NONE
        return Registers(found)


class Thread:
    """One that was seized."""

    def __init__(self, number: int) -> None:
        self.number = number
        # a signal that is for it, and waits until it goes on
        self.signal = 0
        self.stopped = False
        # the way in which it gets a processor, where that is another one meanwhile
        self.policy: int | None = None
        try:
            ptrace(SEIZE, number, 0, SYSCALL_GOOD)
        except OSError as fault:
            raise Fault(
                f"the system doesn't let it be traced ({fault.strerror}): it takes root, or kernel.yama.ptrace_scope 0, and no other tracer"
            ) from None

    def interrupt(self) -> None:
        ptrace(INTERRUPT, self.number)

    def hurry(self) -> None:
        """Until it is left it waits for no processor, where that may be asked for: so it stands still at once, and not for long."""
        with contextlib.suppress(OSError):
            policy, plain = os.sched_getscheduler(self.number), (os.SCHED_OTHER, os.SCHED_BATCH, os.SCHED_IDLE)
            if policy & ~os.SCHED_RESET_ON_FORK in plain:
                os.sched_setscheduler(self.number, os.SCHED_RR | os.SCHED_RESET_ON_FORK, os.sched_param(1))
                self.policy = policy

    def looked(self, wait: bool) -> int | None:
        """What it stopped for, as waitpid has it; None where it hasn't yet."""
        try:
            number, status = os.waitpid(self.number, ALL | (0 if wait else os.WNOHANG))
        except ChildProcessError:
            raise Gone from None
        if not number:
            return None
        if not os.WIFSTOPPED(status):
            raise Gone
        self.stopped = True
        event, stop = status >> 16, os.WSTOPSIG(status)
        if not event and stop not in (signal.SIGTRAP, signal.SIGTRAP | 0x80):
            self.signal = stop
        return status

    def stops(self, until: float) -> bool:
        """Does it stop by then?"""
        while not self.stopped and self.looked(False) is None:
            if time.monotonic() > until:
                return False
            time.sleep(0.0001)
        return True

    def go_on(self, how: int = CONT) -> None:
        self.stopped = False
        passed, self.signal = self.signal, 0
        ptrace(how, self.number, 0, passed)

    def leave(self) -> None:
        """It isn't traced any more."""
        with contextlib.suppress(Gone, ProcessLookupError):
            if not self.stopped:
                self.interrupt()
                self.looked(True)
            if self.policy is not None:
                os.sched_setscheduler(self.number, self.policy, os.sched_param(0))
            ptrace(DETACH, self.number, 0, self.signal)

    # ---- registers

    def registers(self) -> Registers:
        words = (ctypes.c_uint64 * len(NAMES))()
        ptrace(GETREGS, self.number, 0, ctypes.addressof(words))
        return Registers(list(words))

    def set_registers(self, registers: Registers) -> None:
        words = (ctypes.c_uint64 * len(NAMES))(*registers.words)
        ptrace(SETREGS, self.number, 0, ctypes.addressof(words))

    def vectors(self, kept: bytes = b"") -> bytes:
        """Its further registers; sets them where some are given."""
        room = ctypes.create_string_buffer(kept, len(kept)) if kept else ctypes.create_string_buffer(1 << 14)
        part = (ctypes.c_uint64 * 2)(ctypes.addressof(room), len(room))
        ptrace(SETREGSET if kept else GETREGSET, self.number, XSTATE, ctypes.addressof(part))
        return room.raw[: part[1]]

    def mask(self, blocked: int | None = None) -> int:
        """The signals that it has blocked; sets them where some are given."""
        word = ctypes.c_uint64(blocked or 0)
        ptrace(GETSIGMASK if blocked is None else SETSIGMASK, self.number, 8, ctypes.addressof(word))
        return word.value

    # ---- what it is made to do

    def step(self, how: int = SINGLESTEP) -> Registers:
        """To its next instruction, or, with CONT, to where it traps. (A signal of the program's that comes meanwhile waits.)"""
        waiting = self.signal
        self.signal = 0
        while True:
            self.go_on(how)
            status = self.looked(True)
            if status is not None and not status >> 16 and os.WSTOPSIG(status) in (signal.SIGTRAP, signal.SIGTRAP | 0x80):
                self.signal = waiting
                return self.registers()
            waiting, self.signal = self.signal or waiting, 0
            if waiting in (signal.SIGSEGV, signal.SIGBUS, signal.SIGILL, signal.SIGFPE):
                raise Fault(f"what it was made to call ended in signal {waiting}")


@dataclass
class Borrowed:
    """A thread that stands in a call of the system: what it calls meanwhile it doesn't notice."""

    thread: Thread
    kept: Registers
    vectors: bytes = b""
    mask: int = 0

    def __enter__(self) -> Borrowed:
        self.vectors, self.mask = self.thread.vectors(), self.thread.mask()
        self.thread.mask(BLOCKED)
        return self

    def __exit__(self, *_: object) -> None:
        with contextlib.suppress(Gone):
            self.thread.set_registers(self.kept)
            self.thread.vectors(self.vectors)
            self.thread.mask(self.mask)

    def of_system(self, number: int, *words: int) -> int:
        """A call of the system, by the instruction at which it stands."""
        named = dict(zip(("rdi", "rsi", "rdx", "r10", "r8", "r9"), words))
        flags = self.kept["eflags"] & ~STEP_AND_DIRECTION
        at = self.kept["rip"] - LENGTH
        self.thread.set_registers(self.kept.with_words(rip=at, rax=number, orig_rax=NONE, eflags=flags, **named))
        answer = self.thread.step()["rax"]
        return answer if answer < 1 << 63 else answer - (1 << 64)

    def call(self, function: int, stack: int, back: int, *words: int) -> int:
        """A function, that comes back to an instruction that traps."""
        named = dict(zip(("rdi", "rsi", "rdx", "rcx", "r8", "r9"), words))
        flags = self.kept["eflags"] & ~STEP_AND_DIRECTION
        self.thread.set_registers(self.kept.with_words(rip=function, rsp=stack, rax=0, orig_rax=NONE, eflags=flags, **named))
        ended = self.thread.step(CONT)
        if ended["rip"] != back + 1:
            raise Fault("what it was made to call didn't come back")
        return ended["rax"] & 0xFFFFFFFF


# ---- its memory, and what is loaded in it


class Memory:
    def __init__(self, process: int) -> None:
        try:
            self.file = os.open(f"/proc/{process}/mem", os.O_RDWR | os.O_CLOEXEC)
        except OSError as fault:
            raise Fault(f"process {process}: its memory can't be written: {fault.strerror}") from None

    def read(self, at: int, size: int) -> bytes:
        try:
            return os.pread(self.file, size, at)
        except OSError:
            return b""

    def words(self, at: int, count: int) -> tuple[int, ...]:
        found = self.read(at, 8 * count)
        return struct.unpack(f"<{count}Q", found) if len(found) == 8 * count else (0,) * count

    def text(self, at: int, most: int = 300) -> str:
        return self.read(at, most).partition(b"\0")[0].decode("utf-8", "replace")

    def write(self, at: int, data: bytes) -> None:
        try:
            written = os.pwrite(self.file, data, at)
        except OSError as fault:
            raise Fault(f"its memory can't be written: {fault.strerror}") from None
        if written != len(data):
            raise Fault("its memory can't be written")

    def close(self) -> None:
        os.close(self.file)


@dataclass
class Loaded:
    """A file in its memory: where it was loaded, and its functions and variables that others may name."""

    path: Path
    base: int
    symbols: dict[str, int] = field(default_factory=dict)


def symbols_of(data: bytes) -> dict[str, int]:
    """Those of a file's table of dynamic symbols that it has itself."""
    found: dict[str, int] = {}
    if data[:5] != b"\x7fELF\x02":
        return found
    (sections,), (size, count) = struct.unpack_from("<Q", data, 0x28), struct.unpack_from("<HH", data, 0x3A)
    heads = [struct.unpack_from("<IIQQQQIIQQ", data, sections + size * it) for it in range(count)]
    for _, kind, _, _, at, length, link, _, _, _ in heads:
        if kind != 11:
            continue
        names = heads[link][4]
        for place in range(at, at + length, 24):
            name, info, _, section, value, _ = struct.unpack_from("<IBBHQQ", data, place)
            if section and info & 15 in (1, 2, 10):
                found[data[names + name : data.index(b"\0", names + name)].decode("ascii", "replace")] = value
    return found


def loaded_in(process: int, *names: str) -> list[Loaded]:
    """The files of these names that are loaded in it, as it sees them."""
    found: dict[str, Loaded] = {}
    try:
        lines = Path(f"/proc/{process}/maps").read_text().splitlines()
    except OSError as fault:
        raise Fault(f"process {process}: {fault.strerror}") from None
    for line in lines:
        words = line.split(maxsplit=5)
        if len(words) < 6 or int(words[2], 16) != 0 or words[5] in found or not any(Path(words[5]).name.startswith(it) for it in names):
            continue
        path = Path(f"/proc/{process}/root{words[5]}")
        try:
            found[words[5]] = Loaded(path, int(words[0].partition("-")[0], 16), symbols_of(path.read_bytes()))
        except (OSError, struct.error, ValueError, IndexError):
            continue
    return list(found.values())
