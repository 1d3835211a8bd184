"""A coroutine that awaits nothing while it works, and another one that only sleeps."""

import asyncio

import uvloop
from said import Started, took


def score(row):
    return sum(row * at % 7 for at in range(20000))


async def import_all():
    await asyncio.sleep(0.03)
    with took("import_all"):
        found = [score(row) for row in range(60)]
    return found


async def beat():
    beats = Started("beat", 20)
    for _ in range(6):
        sleep = asyncio.sleep(beats.before())
        beats.after()
        await sleep
        beats.called()


async def main():
    await asyncio.gather(beat(), import_all())


uvloop.install()
asyncio.run(main())
