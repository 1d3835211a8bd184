"""A function that never ends, in a program that kills itself a second later."""

import asyncio
import os
import signal
import threading
import time

import uvloop

begun = 0.0


def spin():
    global begun
    begun = time.monotonic()
    while True:
        pass


def end():
    print(f"took spin {1000 * (time.monotonic() - begun):.1f}", flush=True)
    os.kill(os.getpid(), signal.SIGKILL)


uvloop.install()
loop = asyncio.new_event_loop()
loop.call_later(0.02, spin)
threading.Timer(1, end).start()
loop.run_forever()
