"""A timer that is never called, since somebody cancels it."""

import asyncio

import uvloop
from said import Started


def remind():
    print("never printed")


def answered(reminder):
    answers.called()
    reminder.cancel()


async def main():
    loop = asyncio.get_running_loop()
    reminder = loop.call_later(0.05, remind)
    loop.call_later(answers.before(), answered, reminder)
    answers.after()
    await asyncio.sleep(0.1)


answers = Started("answered", 20)
uvloop.install()
asyncio.run(main())
