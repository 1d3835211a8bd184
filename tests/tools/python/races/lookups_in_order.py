"""The first one of two lookups is thought to be through first."""

import asyncio
import socket

from jobs import run

primary = None


async def look_up(name):
    found = await asyncio.get_running_loop().getaddrinfo(name, 80, family=socket.AF_INET, type=socket.SOCK_STREAM)
    return found[0][4]


async def first():
    global primary
    primary = await look_up("localhost")


async def second():
    await asyncio.sleep(0.2)
    mirror = await look_up("localhost")
    print(primary[0] == mirror[0])


async def main():
    await asyncio.gather(first(), second())


run(main)
