"""A timer that waits while another one reads from a socket that blocks."""

import asyncio
import socket
import threading
import time

import uvloop
from said import Started, took

remind_at = Started("remind", 40)
server = socket.create_server(("127.0.0.1", 0))


def serve():
    client, _ = server.accept()
    time.sleep(0.11)
    client.sendall(b"ok")
    client.close()


def fetch():
    with took("fetch"):
        with socket.create_connection(server.getsockname()) as peer:
            peer.recv(10)


def remind(loop):
    remind_at.called()
    loop.stop()


uvloop.install()
loop = asyncio.new_event_loop()
thread = threading.Thread(target=serve)
thread.start()
loop.call_later(0.02, fetch)
loop.call_later(remind_at.before(), remind, loop)
remind_at.after()
loop.run_forever()
loop.close()
thread.join()
