"""A heartbeat, and a text of JSON that is read whole."""

import asyncio
import json

import uvloop
from said import Started, took

text = json.dumps([{"id": at, "name": f"user {at}"} for at in range(200000)])
beats = Started("beat", 20)


def load():
    with took("load"):
        json.loads(text)


def beat(loop):
    beats.called()
    if beats.call == 8:
        loop.stop()
        return
    start(loop)


def start(loop):
    loop.call_later(beats.before(), beat, loop)
    beats.after()


uvloop.install()
loop = asyncio.new_event_loop()
start(loop)
loop.call_later(0.033, load)
loop.run_forever()
loop.close()
