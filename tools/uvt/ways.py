"""The way that commands take: those that go back, and on in another way, and the longest session that they come to."""

from __future__ import annotations

from collections.abc import Iterator

from uvt.conversation import Conversation, Script
from uvt.walk import OUTSIDE

# The commands that go to another length, and those that only show something.
MOVES = ("back", "rback", "forward")
SHOWS = ("state", "image", "trace", "walk", "record")


def ways(commands: list[str]) -> Iterator[list[str]]:
    """The commands, cut in front of each that goes back, or forward again."""
    part: list[str] = []
    for command in commands:
        if command == "quit":
            break
        if command.split(" ")[0] in MOVES:
            yield part
            part = []
        if command.split(" ")[0] not in SHOWS:
            part.append(command)
    yield part


def longest_way(script: Script, commands: list[str]) -> list[str]:
    """The steps of the longest session that these commands come to. They may go back, and on in another way.

    Where each of them is one step they are answered as they are.
    """
    if all(it == "loop" or it.split(" ")[0] in OUTSIDE for it in set(commands)):
        return commands
    best: list[str] = []
    longest = 0
    with Conversation(script) as talk:
        for part in ways(commands):
            if part and part[0].split(" ")[0] in MOVES:
                talk.ask(part.pop(0))
            for _ in talk.ask_each(part):
                pass
            if talk.length > longest:
                longest = talk.length
                best = talk.recording().steps
    return best
