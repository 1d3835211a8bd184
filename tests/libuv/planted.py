"""Loops with a wrong rule, each a model with one change: what a comparison has to notice.

Each obeys the commands of `uvt debug` by which a script is run, as the program itself does.
"""

from __future__ import annotations

from tests.libuv.model import Item, Model
from tests.libuv.programs import Program


class WatchersFromTheBack(Model):
    """A watcher that is started goes to the end of its list, and not to its front."""

    def start_op(self, item: Item, op: list[str]) -> str:
        was_active = item.active
        answer = super().start_op(item, op)
        if answer == "ok" and not was_active and item.kind in self.lists:
            some = self.lists[item.kind]
            some.append(some.pop(0))
        return answer


class ClosingInTheirOrder(Model):
    """The handle that was closed first has its close callback first."""

    def close_op(self, item: Item, op: list[str]) -> str:
        answer = super().close_op(item, op)
        if answer == "ok":
            some = self.lists["closing"]
            some.append(some.pop(0))
        return answer


class IdleWaits(Model):
    """The poll waits though an idle handle is active."""

    def counts(self, name: str) -> bool:
        return name != "idle" and super().counts(name)


class NobodyWoke(Model):
    """The after and async callbacks come though nobody woke the poll that a callback of I/O left."""

    def io(self, item: Item) -> None:
        super().io(item)
        self.reads = True


class LooksAgain(Model):
    """The loop looks at the clock behind the callbacks of I/O, too."""

    def at_polled(self) -> None:
        self.look()
        super().at_polled()


class SetAside(Model):
    """Due timers are set aside whatever the script says."""

    def at_timers(self) -> None:
        self.from_heap = False
        super().at_timers()


# (with `nothing` the rules are right, and nothing may be noticed)
PLANTED = {
    "nothing": Model,
    "watchers": WatchersFromTheBack,
    "closing": ClosingInTheirOrder,
    "idle": IdleWaits,
    "io": NobodyWoke,
    "look": LooksAgain,
    "timers": SetAside,
}


def obey(planted: str, text: str, commands: list[str]) -> list[str]:
    """What the wrong loop prints at these commands, without the lines of sections."""
    program = Program(text)
    program.steps, program.ways, program.limit = [], [], 10**9
    model = PLANTED[planted](program)
    for command in commands:
        word, _, what = command.partition(" ")
        if word == "loop":
            for _ in range(int(what)):
                refusal = model.step()
                if refusal:
                    model.lines.append(refusal)
                    break
        elif word == "io":
            model.io(model.bound[what])
        elif word in ("tick", "take", "finish"):
            {"tick": model.tick, "take": model.take, "finish": model.finish}[word](int(what))
        else:
            model.print(f"out {command} = {model.answer([word, what])}")
    return model.lines
