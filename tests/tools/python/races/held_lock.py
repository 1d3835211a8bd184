"""A thread sends while the loop's thread is in a callback and sleeps, until it has. It works for some time before, and needs Python's lock for that.
Where sleeps take no time, the loop's thread goes on before that, and has the lock."""

import asyncio
import threading
import time

from jobs import run

# (in seconds: however busy the machine is)
SLEEPS = (0.5, 1, 2, 4, 8, 16, 32)


async def main():
    loop = asyncio.get_running_loop()
    sent = loop.create_future()
    timers = []
    done = []

    def send():
        for _ in range(5_000_000):
            pass
        loop.call_soon_threadsafe(sent.set_result, "sent")
        done.append(True)

    def on_timer():
        timers.append(loop.call_later(3600, print))
        threading.Thread(target=send).start()
        for seconds in SLEEPS:
            if not done:
                time.sleep(seconds)
        timers.append(loop.call_later(7200, print))

    loop.call_later(0.001, on_timer)
    print(await sent)
    for timer in timers:
        timer.cancel()


run(main)
