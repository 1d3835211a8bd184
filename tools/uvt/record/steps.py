"""At which step of a recording what the log has stands."""

from __future__ import annotations

from uvt.notes import Request
from uvt.record.items import Key, Op, Program
from uvt.session_lines import StepLines


class Steps:
    """Of a program's ops and callbacks, by the lines of a recording's steps: they stand there in the same order."""

    def __init__(self, program: Program, lines: StepLines) -> None:
        self.program = program
        # of each op's step the place that asked for it; and the step of each callback of which requests and calls that changed nothing are
        self.asked_at: dict[int, str] = {}
        # of a request's step the clock as it was queued, where the loop's time was an earlier one
        self.queued: dict[int, int] = {}
        wanted = {it.within for it in program.nothings} | {key for it in program.requests for key in (it.within, it.by)}
        self.calls: dict[Key, int] = {key: step for step, key in lines.calls.rows() if key in wanted} if wanted else {}
        # up to this step it is what there was as it begins
        self.before = 0
        ops = (it for it in program.items if isinstance(it, Op))
        item = next(ops, None)
        for step, line in zip(lines.told_at, lines.told):
            if item and line.startswith(f"{item.text} = "):
                self.see_op(item, step)
                item = next(ops, None)

    def see_op(self, item: Op, step: int) -> None:
        if item.line == self.program.again_line:
            self.before = step
        if item.place:
            self.asked_at[step] = item.place
        if item.queued > item.now:
            self.queued[step] = item.queued

    def places(self) -> tuple[list[str], dict[str, int]]:
        """The places in words, each once; and by how the log has it which of these each is."""
        texts = list(dict.fromkeys(self.program.places.values()))
        order = {text: at for at, text in enumerate(texts)}
        number = {place: order[text] for place, text in self.program.places.items()}
        return texts, number

    def nothings(self, number: dict[str, int]) -> list[tuple[str, str, int, int]]:
        """The calls that changed nothing: the name, the function, the step of the callback in which each was, and its place."""
        return [(it.name, it.function, self.calls.get(it.within, 0) if it.within else 0, number.get(it.place, -1)) for it in self.program.nothings]

    def requests(self, number: dict[str, int]) -> list[Request]:
        """The requests of streams, with their steps: that of the callback in which each was asked for, and that of its own."""
        return [
            Request(
                it.stream,
                it.what,
                it.bytes,
                it.asked,
                self.calls.get(it.within, 0) if it.within else 0,
                number.get(it.place, -1),
                it.done,
                self.calls.get(it.by, 0) if it.by else 0,
                it.status or "-",
            )
            for it in self.program.requests
        ]
