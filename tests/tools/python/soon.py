"""Slow callbacks by call_soon, one behind the other, and a timer meanwhile."""

import asyncio

import uvloop
from said import Started, took

rounds = 5


def flush(loop):
    global rounds
    with took("flush"):
        sum(at % 7 for at in range(1500000))
    rounds -= 1
    if rounds:
        loop.call_soon(flush, loop)


def save(loop):
    saves.called()
    loop.call_later(0.2, loop.stop)


saves = Started("save", 15)
uvloop.install()
loop = asyncio.new_event_loop()
loop.call_later(saves.before(), save, loop)
saves.after()
loop.call_soon(flush, loop)
loop.run_forever()
loop.close()
