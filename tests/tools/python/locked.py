"""A timer that waits while another one waits for a lock that a thread has."""

import asyncio
import threading
import time

import uvloop
from said import Started, took

remind_at = Started("remind", 40)
lock = threading.Lock()
has_it = threading.Event()


def hold():
    with lock:
        has_it.set()
        time.sleep(0.13)


def take_stock():
    with took("take_stock"):
        with lock:
            pass


def remind(loop):
    remind_at.called()
    loop.stop()


uvloop.install()
loop = asyncio.new_event_loop()
thread = threading.Thread(target=hold)
thread.start()
has_it.wait()
loop.call_later(0.02, take_stock)
loop.call_later(remind_at.before(), remind, loop)
remind_at.after()
loop.run_forever()
loop.close()
thread.join()
