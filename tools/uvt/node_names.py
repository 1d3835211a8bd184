"""What a callback of the loop does in node, in a person's words: by the function of C++ that it calls. Nobody who writes JavaScript knows these.

Some node has for itself: timers and immediates of JavaScript are called in two of them, and the others see to V8's tasks and the like. They
are left out of lists and sentences where they took little.
"""

from __future__ import annotations

import re
from dataclasses import dataclass


@dataclass(frozen=True)
class InNode:
    """What a callback is called; and whether node has it for itself."""

    words: str
    own: bool


IMMEDIATES = "node's immediates"
# Of a function's name a part, what its callback is called, and whether node has it for itself.
FUNCTIONS = (
    ("Environment::RunTimers", "node's timers", True),
    ("Environment::CheckImmediate", IMMEDIATES, True),
    ("Environment::ToggleImmediateRef", "node's sign that there are immediates", True),
    ("Environment::StartProfilerIdleNotifier", "node's look at whether it is idle", True),
    ("Environment::InitializeLibuv", "node's own tasks", True),
    ("Environment::CloseHandle", "a close of node's own", True),
    ("PerIsolatePlatformData::", "V8's tasks", True),
    ("WorkerThreadsTaskRunner::", "V8's tasks", True),
    ("inspector::", "node's inspector", True),
    ("9inspector", "node's inspector", True),
    ("tracing::", "node's tracing", True),
    ("LibuvStreamWrap::ReadStart", "a read of a {}", False),
    ("LibuvStreamWrap::OnUvRead", "a read of a {}", False),
    ("ConnectionWrap", "a connection", False),
    ("UDPWrap::OnRecv", "a datagram", False),
    ("ProcessWrap::", "the end of a child", False),
    ("SignalWrap::", "a signal", False),
    ("FSEventWrap::", "a change of a watched file", False),
    ("ThreadPoolWork::ScheduleWork", "work of the pool", False),
    ("MessagePort::", "a message", False),
    ("Worker::", "a worker thread's end", False),
)
# JavaScript has no handles of these kinds: those whose function nobody knows are node's own.
KINDS = ("timer", "idle", "prepare", "check", "async")
VARIABLE = "_ZN4node"  # of node, in which a handle lies
UNKNOWN = "no symbol that tells more"
# What is told of a function without a symbol: the file that it is in.
FILE_ALONE = "a function of "
STREAMS = {"tcp": "socket", "pipe": "pipe", "tty": "terminal"}
# node's function around the callbacks of all requests: of a stream a write, a connect or a shutdown; of one of the pool its kind says which.
REQUEST = "MakeLibuvRequestCallback"


def in_node(kind: str, name: str, function: str) -> InNode | None:
    """What the callback of this handle or request is, by its function; None where that isn't one of node's. `kind` is that of the name."""
    if not function or UNKNOWN in function or function.startswith(FILE_ALONE):
        if kind in KINDS:
            return InNode("node's own", True)
        return InNode(f"a callback of a {STREAMS[kind]} ({name})", False) if kind in STREAMS else None
    if "node::" not in function and VARIABLE not in function:
        return None
    if REQUEST in function:
        what = f"{kind.replace('_', '.', 1)} of the pool" if kind not in STREAMS else f"a write or a connect of a {STREAMS[kind]}"
        return InNode(f"{what} ({name})", False)
    for part, words, own in FUNCTIONS:
        if part in function:
            return InNode(words if own else f"{words.format(STREAMS.get(kind, 'stream'))} ({name})", own)
    return InNode(f"{re.sub(r'^.*?node::', 'node::', function)} ({name})", False)
