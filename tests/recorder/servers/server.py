"""An echo on uvloop with 20 clients of its own, and a heartbeat, for tests/recorder/flight: server.py SECONDS [STALL_MS STALL_AT_MS [PAUSE_MS]]"""

import asyncio
import sys
import time

import uvloop

SECONDS, STALL, STALL_AT, PAUSE = (float(it) for it in [*sys.argv[1:], "0", "0", "0"][:4])
begun, stalled = time.monotonic(), False


def rebuild_index() -> None:
    time.sleep(STALL / 1000)


async def serve(reader: asyncio.StreamReader, writer: asyncio.StreamWriter) -> None:
    global stalled
    while data := await reader.read(64):
        if STALL and not stalled and time.monotonic() >= begun + STALL_AT / 1000:
            stalled = True
            rebuild_index()
        writer.write(data)


async def ask(port: int) -> None:
    reader, writer = await asyncio.open_connection("127.0.0.1", port)
    while True:
        writer.write(b"get")
        await reader.read(64)
        if PAUSE:
            await asyncio.sleep(PAUSE / 1000)


async def heartbeat() -> None:
    while True:
        await asyncio.sleep(0.1)


async def main() -> None:
    server = await asyncio.start_server(serve, "127.0.0.1", 0)
    port = server.sockets[0].getsockname()[1]
    clients = [asyncio.create_task(ask(port)) for _ in range(20)]
    beat = asyncio.create_task(heartbeat())
    await asyncio.sleep(SECONDS)
    for it in [*clients, beat]:
        it.cancel()


uvloop.install()
asyncio.run(main())
