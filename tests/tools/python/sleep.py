"""A task that sleeps as a thread does, deep in what it calls, and so has the loop sleep."""

import asyncio
import time

import uvloop
from said import Started, took


def fetch(url):
    time.sleep(0.06)
    return url


async def refresh():
    with took("refresh"):
        return [fetch(url) for url in ("a", "b")]


def remind():
    reminders.called()


async def main():
    loop = asyncio.get_running_loop()
    loop.call_later(reminders.before(), remind)
    reminders.after()
    await asyncio.sleep(0.01)
    await asyncio.create_task(refresh())


reminders = Started("remind", 30)
uvloop.install()
asyncio.run(main())
