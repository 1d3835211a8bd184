"""An echo over loopback, with uvloop: echo.py [CLIENTS [ROUNDS]]"""

import asyncio
import sys

import uvloop

SECONDS = 60


async def serve(reader: asyncio.StreamReader, writer: asyncio.StreamWriter) -> None:
    while line := await reader.readline():
        writer.write(line)
        await writer.drain()
    writer.close()


async def ask(port: int, client: int, rounds: int) -> int:
    reader, writer = await asyncio.open_connection("127.0.0.1", port)
    right = 0
    for at in range(rounds):
        line = f"{client} {at}\n".encode()
        writer.write(line)
        right += await reader.readline() == line
        await asyncio.sleep(0.001 * (client % 5))
    writer.close()
    return right


async def all_of_them(clients: int, rounds: int) -> int:
    server = await asyncio.start_server(serve, "127.0.0.1", 0)
    port = server.sockets[0].getsockname()[1]
    right = await asyncio.gather(*(ask(port, it, rounds) for it in range(clients)))
    server.close()
    await server.wait_closed()
    return sum(right)


async def in_time(clients: int, rounds: int) -> int:
    return await asyncio.wait_for(all_of_them(clients, rounds), SECONDS)


def main() -> int:
    clients, rounds = [int(it) for it in sys.argv[1:3]] + [50, 10][len(sys.argv) - 1 :]
    uvloop.install()
    right = asyncio.run(in_time(clients, rounds))
    print(f"{right} answers")
    return 0 if right == clients * rounds else 1


if __name__ == "__main__":
    sys.exit(main())
