"""The messages of the Debug Adapter Protocol: how they come and go, and what answers each request."""

from __future__ import annotations

import json
import os
import re
import select
from collections.abc import Callable
from typing import Any, TypeVar

from uvt.conversation import Conversation, Fault

# An object of JSON.
Body = dict[str, Any]
# So long a message is at the most.
LONGEST = 1 << 24
Kind = TypeVar("Kind")


class Gone(Exception):
    """The client went away, or asked to end."""


class Refused(Exception):
    """A request that can't be done, with the sentence that says why."""


class Garbled(Fault):
    """What came is no message. Nothing can be read behind it."""


class Wire:
    """Messages over two file descriptors, each behind a header with its length."""

    def __init__(self, read_from: int, write_to: int) -> None:
        self.read_from = read_from
        self.write_to = write_to
        self.rest = b""
        self.number = 0

    def is_waiting(self) -> bool:
        return bool(self.rest) or bool(select.select([self.read_from], [], [], 0)[0])

    def more(self) -> None:
        part = os.read(self.read_from, 65536)
        if not part:
            raise Gone
        self.rest += part

    def receive(self) -> Body:
        while b"\r\n\r\n" not in self.rest:
            if len(self.rest) > 65536:
                raise Garbled("what came is no message: it has no header")
            self.more()
        head, _, self.rest = self.rest.partition(b"\r\n\r\n")
        found = re.search(rb"(?i)^content-length: *(\d{1,9})$", head.replace(b"\r\n", b"\n"), re.MULTILINE)
        if not found or int(found[1]) > LONGEST:
            raise Garbled("what came is no message: its header has no content-length, or a too large one")
        length = int(found[1])
        while len(self.rest) < length:
            self.more()
        body, self.rest = self.rest[:length], self.rest[length:]
        try:
            message = json.loads(body)
        except (ValueError, RecursionError):
            raise Garbled("what came is no message: its body is no JSON") from None
        if not isinstance(message, dict):
            raise Garbled("what came is no message: its body is no object")
        return message

    def send(self, message: Body) -> None:
        self.number += 1
        body = json.dumps({"seq": self.number, **message}).encode()
        text = b"Content-Length: %d\r\n\r\n" % len(body) + body
        try:
            while text:
                text = text[os.write(self.write_to, text) :]
        except BrokenPipeError:
            raise Gone from None


class Server:
    """What answers a client's requests, each by a method: `on_next` has `next`."""

    def __init__(self, wire: Wire) -> None:
        self.wire = wire
        self.running: Conversation | None = None
        # requests that came while another one was under way, and what is done behind an answer
        self.held: list[Body] = []
        self.later: list[Callable[[], None]] = []
        self.requests: dict[str, Callable[[Body], Body | None]] = {
            name.removeprefix("on_"): getattr(self, name) for name in dir(self) if name.startswith("on_")
        }

    @property
    def talk(self) -> Conversation:
        """The conversation with what was launched."""
        if self.running is None:
            raise Refused("nothing was launched")
        return self.running

    def serve(self) -> None:
        try:
            while True:
                self.answer(self.held.pop(0) if self.held else self.wire.receive())
        except Gone:
            pass
        finally:
            if self.running:
                self.running.stop()

    def event(self, name: str, **body: object) -> None:
        self.wire.send({"type": "event", "event": name, "body": body})

    def answer(self, message: Body) -> None:
        if message.get("type") != "request" or not isinstance(message.get("seq"), int):
            raise Garbled("what came is no request")
        command, arguments = message.get("command"), message.get("arguments")
        head = {"type": "response", "request_seq": message["seq"], "command": str(command)}
        self.later = []
        try:
            if not isinstance(command, str) or command not in self.requests:
                raise Refused(f"`{command}` is no request that is known here")
            if self.running is None and command not in ("initialize", "launch", "disconnect", "terminate"):
                raise Refused("nothing was launched")
            body = self.requests[command](arguments if isinstance(arguments, dict) else {})
        except Garbled:
            raise
        except (Refused, Fault) as fault:
            self.wire.send({**head, "success": False, "message": str(fault), "body": {"error": {"id": 1, "format": str(fault)}}})
            return
        self.wire.send({**head, "success": True, **({"body": body} if body is not None else {})})
        for it in self.later:
            it()

    @staticmethod
    def wanted(arguments: Body, name: str, kind: type[Kind]) -> Kind:
        value = arguments.get(name)
        if not isinstance(value, kind):
            raise Refused(f"the request has no `{name}`")
        return value

    @staticmethod
    def listed(arguments: Body, name: str, of: str | None = None) -> list[object]:
        """The items of a list, or of each the field that is named. Where one is no object it has no field."""
        rows = arguments.get(name)
        if not isinstance(rows, list):
            raise Refused(f"the request has no list `{name}`")
        return rows if of is None else [it.get(of) if isinstance(it, dict) else None for it in rows]

    def is_asked_to_stop(self) -> bool:
        while self.wire.is_waiting():
            self.held.append(self.wire.receive())
        return any(it.get("command") in ("pause", "disconnect", "terminate") for it in self.held)
