"""A time limit and an answer both finish the request."""

import asyncio

from jobs import job, run


async def main():
    loop = asyncio.get_running_loop()
    finished = loop.create_future()

    def finish(text):
        finished.set_result(text)

    loop.set_exception_handler(lambda loop, context: loop.stop())
    loop.call_later(0.4, finish, "no answer")
    text = await job(0.001, "answer")
    finish(text)
    print(await finished)
    await asyncio.sleep(0)


run(main)
