"""A run that ended well may have gone wrong all the same: what says so."""

from __future__ import annotations

import itertools
import os
import subprocess

from uvt.conversation import Fault
from uvt.forcing import Ran, end_all

# How long a command of the user's may take, in seconds; how much of what is said is shown, in characters; and the statuses by which a command says
# that it can't tell, and a shell that it couldn't be started.
JUDGE, SHOWN, UNTOLD, NOT_STARTED = 60, 60, 125, (126, 127)


def other_output(output: str, first: str) -> str:
    """The first line in which the two differ, `` where none does."""
    for one, two in itertools.zip_longest(output.splitlines(), first.splitlines()):
        if one != two:
            said = "has no more output" if one is None else f"said `{one[:SHOWN]}`"
            return f"{said}, where the first run {'said nothing more' if two is None else f'said `{two[:SHOWN]}`'}"
    return ""


def judged(command: str, ran: Ran) -> str:
    """What a command of the user's says of a run, of which it gets the output, and the status as UVT_STATUS: `` where that is well, or where it
    can't tell."""
    words = ["/bin/sh", "-c", command]
    environment = dict(os.environ, UVT_STATUS=str(ran.status))
    judge = subprocess.Popen(words, stdin=subprocess.PIPE, stdout=subprocess.PIPE, stderr=subprocess.STDOUT, env=environment, start_new_session=True)
    try:
        said = judge.communicate(ran.output.encode("utf-8", "replace"), timeout=JUDGE)[0].decode("utf-8", "replace")
    except subprocess.TimeoutExpired:
        raise Fault(f"`{command}`, which judges a run, took more than {JUDGE} s") from None
    finally:
        end_all(judge)
    line = next((it.strip() for it in said.splitlines() if it.strip()), "")
    if judge.returncode < 0 or judge.returncode in NOT_STARTED:
        raise Fault(f"`{command}`, which judges a run, could not be run: {line or f'status {judge.returncode}'}")
    if judge.returncode in (0, UNTOLD):
        return ""
    return f"is bad by `{command}` (status {judge.returncode}{f': {line[:SHOWN]}' if line else ''})"
