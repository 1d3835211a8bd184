"""Where in an iteration the loop of a program is, as far as the lines of its log say.

libuv calls I/O, async handles and after callbacks in the poll, and what it has put off in the section `pending`, before idle and prepare
handles. No line says which it is: a callback of I/O is of the poll if the loop has polled, and has called nobody of another section since.
"""

from __future__ import annotations

POLL, PENDING = "poll", "pending"
# Behind the callbacks of another section: the pending ones may come next.
BETWEEN = "between"
# Where libuv calls no I/O: behind idle and prepare handles. The log is wrong if it does.
NOWHERE = "nowhere"
# What libuv may put off, and it puts off nothing else.
PUT_OFF = {"write", "connect", "shutdown", "send"}
# What a line of a poll is: a poll; one more, behind callbacks, in the same one; or one without a callback between, in the same one.
NEW, MORE, LOOKED = "new", "more", "looked"


class Where:
    """Goes along the lines of a loop."""

    def __init__(self, has_polls: bool, says_put_off: bool) -> None:
        self.has_polls = has_polls
        self.at = BETWEEN
        # the loop's time behind that poll; None before its first callback
        self.now: int | None = None
        # was something put off as the last callback ended? (Logs that don't say so: it may always be)
        self.says_put_off, self.put_off = says_put_off, not says_put_off
        self.mode = ""
        self.polls = 0

    def see_put_off(self, put_off: bool) -> None:
        """A callback ends, or a run begins. (As the first of those that were put off is called, libuv has them all.)"""
        if self.at != PENDING:
            self.put_off = put_off or not self.says_put_off

    def see_run(self, mode: str, put_off: bool) -> None:
        self.at, self.mode, self.polls = BETWEEN, mode, 0
        self.see_put_off(put_off)

    def see_poll(self, again: bool) -> str:
        """Which of the three it is. (A run `once` or `nowait` polls once.)"""
        again |= self.mode != "default" and self.polls > 0
        if again and self.now is None:
            return LOOKED
        self.polls += not again
        self.at, self.now = POLL, None
        return MORE if again else NEW

    def see_op(self, op: str, now: int) -> None:
        if op == "updatetime" and self.now is not None:
            self.now = now

    def see_other(self, kind: str = "") -> None:
        """A callback of another section, or the end of a run."""
        self.at = NOWHERE if kind in ("idle", "prepare") else BETWEEN

    def see_call(self, now: int) -> str:
        """The callback of an async handle, or an after callback: it is of the poll."""
        if self.at != POLL:
            return NOWHERE if self.has_polls else POLL
        self.now = now if self.now is None else self.now
        return POLL

    def see_io(self, what: str, now: int) -> str:
        """A callback of I/O: in which section. (The next iteration may have another time, where the poll's are called with one.)"""
        may_be_put_off = what in PUT_OFF and self.put_off
        if self.at == BETWEEN and may_be_put_off or self.at == POLL and self.now not in (None, now) and may_be_put_off:
            self.at = PENDING
        if self.at == POLL:
            self.now = now
        elif self.at != PENDING or what not in PUT_OFF:
            return NOWHERE if self.has_polls else POLL
        return self.at
