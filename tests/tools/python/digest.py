"""A timer that waits while a text is hashed again and again."""

import asyncio
import hashlib

import uvloop
from said import Started, took

remind_at = Started("remind", 40)


def digest_all():
    with took("digest_all"):
        data = b"x" * 1000000
        for _ in range(25):
            data = hashlib.sha256(data).digest() * 31250


def remind(loop):
    remind_at.called()
    loop.stop()


uvloop.install()
loop = asyncio.new_event_loop()
loop.call_later(0.02, digest_all)
loop.call_later(remind_at.before(), remind, loop)
remind_at.after()
loop.run_forever()
loop.close()
