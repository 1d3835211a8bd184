"""A thread that says that it is through, while the loop has no time for it."""

import asyncio
import threading
import time

import uvloop
from said import Started, took


def through(loop):
    ends.called()
    loop.stop()


def index(rows):
    with took("index"):
        sorted(rows, key=lambda row: row * 7919 % 200003)


def work(loop):
    time.sleep(0.04)
    ends.before()
    loop.call_soon_threadsafe(through, loop)
    ends.after()


ends = Started("through", 0)
uvloop.install()
loop = asyncio.new_event_loop()
loop.call_later(0.03, index, list(range(300000)))
threading.Thread(target=work, args=(loop,)).start()
loop.run_forever()
loop.close()
