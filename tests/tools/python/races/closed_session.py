"""The session is closed by a timer, long behind the name's lookup."""

import asyncio
import socket

from jobs import run


class Session:
    def __init__(self):
        self.seen = []

    def close(self):
        self.seen = None


async def main():
    loop = asyncio.get_running_loop()
    session = Session()
    loop.call_later(0.5, session.close)
    for _ in range(3):
        found = await loop.getaddrinfo("localhost", 80, family=socket.AF_INET, type=socket.SOCK_STREAM)
        session.seen.append(found[0][4])
    print(len(session.seen))


run(main)
