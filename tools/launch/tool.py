"""How each tool begins and ends: whatever happens, a person reads a sentence or nothing, and never where in its sources that was.

tools/start.py imports this first. From then on an interrupt ends a tool without a word, also while Python still loads what it needs; what a
tool of uvt/ does stands within `run_tool`.
"""

from __future__ import annotations

import gc
import os
import signal
import sys
from pathlib import Path
from typing import Callable

INTERRUPTED = 130
# What starts each tool.
START = str(Path(__file__).resolve().parent.parent / "start.py")
# Whether interrupts are taken: a shell that starts a program in the background has it take none. The launcher has Python take none while it
# starts, and says here whether it took any itself.
_TAKES_INTERRUPTS = os.environ.pop("UVT_INTERRUPTS", "") == "1" or signal.getsignal(signal.SIGINT) is not signal.SIG_IGN
if _TAKES_INTERRUPTS:
    signal.signal(signal.SIGINT, signal.SIG_DFL)


def take_interrupts() -> None:
    """From here on an interrupt is an exception, if this process takes any."""
    if _TAKES_INTERRUPTS:
        signal.signal(signal.SIGINT, signal.default_int_handler)


def keeps_all() -> None:
    """From here on all that is made stays until it isn't used any more, or to the end: nobody looks for circles of what isn't. (A tool that reads
    something long makes none, and to look for them takes a sixth of its time.)"""
    gc.disable()


def run_tool(tool: str, work: Callable[[], int], failed: int, what: str = "the output") -> int:
    """The status of what a tool does. What goes wrong is said on the errors: a fault in its own words, one of the system with its file, or
    with `what` where it has none."""
    from uvt.conversation import Fault

    take_interrupts()
    try:
        status = work()
        if sys.stdout:
            sys.stdout.flush()
        return status
    except Fault as fault:
        print(f"{tool}: {fault}", file=sys.stderr)
    except BrokenPipeError:
        sys.stderr.close()
    except OSError as fault:
        print(f"{tool}: {fault.filename or what}: {fault.strerror}", file=sys.stderr)
    except MemoryError:
        print(f"{tool}: there is too little memory for {what}", file=sys.stderr)
    except KeyboardInterrupt:
        return INTERRUPTED
    return failed
