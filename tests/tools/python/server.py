"""A server that renders a long page as it is asked, and a timer meanwhile."""

import asyncio

import uvloop
from said import Started, took


def render(count):
    return "".join(f"<li>{at ** 0.5:.6f}</li>" for at in range(count)).encode()


class Pages(asyncio.Protocol):
    def connection_made(self, transport):
        self.transport = transport

    def data_received(self, data):
        with took("data_received"):
            self.transport.write(render(200000))
        self.transport.close()


def timeout():
    timeouts.called()


async def main():
    loop = asyncio.get_running_loop()
    server = await loop.create_server(Pages, "127.0.0.1", 0)
    reader, writer = await asyncio.open_connection(*server.sockets[0].getsockname())
    loop.call_later(timeouts.before(), timeout)
    timeouts.after()
    writer.write(b"page\n")
    await reader.read()
    writer.close()
    server.close()


timeouts = Started("timeout", 10)
uvloop.install()
asyncio.run(main())
