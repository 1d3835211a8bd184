"""What a program of this folder says of itself, by its own clock, as it ends: how long something took (`took NAME MS`), and how late the call
of a timer was (`late NAME CALL MS MS`), between the least and the most that it may have been."""

import atexit
import contextlib
import time

rows = []


def now():
    return time.monotonic_ns() / 1e6


@contextlib.contextmanager
def took(name):
    begin = now()
    yield
    rows.append(f"took {name} {now() - begin:.1f}")


class Started:
    """A timer is started between `before` and `after`; `called` is told of each call."""

    def __init__(self, name, delay):
        self.name, self.delay, self.call = name, delay, 0
        self.least = self.most = now()

    def before(self):
        self.least = now()
        return self.delay / 1000

    def after(self):
        self.most = now()

    def called(self):
        time, self.call = now(), self.call + 1
        rows.append(f"late {self.name} {self.call} {time - self.most - self.delay:.1f} {time - self.least - self.delay:.1f}")


atexit.register(lambda: print("\n".join(rows)))
