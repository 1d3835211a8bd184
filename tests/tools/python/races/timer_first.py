"""A coroutine that sleeps until the configuration must have come."""

import asyncio

from jobs import job, run

config = None


async def load():
    global config
    config = await job(0.001, {"port": 80})


async def main():
    loading = asyncio.create_task(load())
    await asyncio.sleep(0.3)
    print("port", config["port"])
    await loading


run(main)
