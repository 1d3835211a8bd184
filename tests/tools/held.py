"""Logs of threads that are held up within a send, and of a loop that is between the end of its poll and the callback.

They are drawn from a model of libuv's `uv_async_send` and `uv__async_io` at their single steps (1.44): a send's line comes first, then the flag
is set, then the loop's file is written to; the loop takes the flag, and then comes the callback's line. So which send a callback is for isn't
read off the lines' order. The model knows how many sends there were, and a recording is to have as many: none is made up.
"""

from __future__ import annotations

import heapq
import os
import random
import tempfile
from pathlib import Path
from typing import Iterator

from tests.helper import Tries
from tests.tools.records import verdict
from uvt.conversation import built_program
from uvt.record.log import read_log
from uvt.record.run import from_data

# (of these from 21 on a send was made up once, or a recording stopped where a send had no callback any more)
SEEDS = (*range(20), 21, 57, 65, 76, 93, 94, 103, 166, 189, 210, 576, 999)
THREADS, SENDS = 2, 12
# The loop's timer closes all, in ms.
UNTIL = 60
BEGIN = """\
uvt-log 2 1.44.2 6071 4 /tmp/threads
- A 0 1377 main@threads.c:40 /tmp/threads
0 O 0 init %0 async = ok @0
- A 1 40c0 wakeup+0/128 /tmp/threads
0 V 0 0 1 128
- A 2 128c on_wakeup@threads.c:19 /tmp/threads
0 C 0 0 2 async
0 O 0 init %1 prepare = ok @0
- A 3 4280 prepare+0/120 /tmp/threads
0 V 0 1 3 120
- A 4 12df on_prepare@threads.c:28 /tmp/threads
0 C 0 1 4 prepare
0 O 0 start %1 = ok @0
0 O 0 unref %1 = ok @0
0 O 0 init %2 timer = ok @0
- A 5 41e0 stop+0/152 /tmp/threads
0 V 0 2 5 152
- A 6 12ea on_stop@threads.c:30 /tmp/threads
0 C 0 2 6 timer
0 O 0 start %2 60 0 = ok @0
- A 7 127e send_often@threads.c:15 /tmp/threads
"""


class Drawn:
    """One run of the threads and the loop. Each is a generator: between its steps it says for how many microseconds it gets no processor."""

    def __init__(self, seed: int) -> None:
        self.random = random.Random(seed)
        self.lines = BEGIN.splitlines()
        self.micros = self.now = self.ended = 0
        # libuv's `pending` of the handle: 1 while a sender is at its write. And is there something to read in the loop's file?
        self.pending, self.is_written = 0, False
        self.often_held = self.random.choice([0.1, 0.2, 0.4])
        self.run([self.thread(number) for number in range(THREADS)])

    def held(self) -> int:
        if self.random.random() < self.often_held:
            return self.random.choice([200, 1500, 4000, 9000])
        return self.random.randrange(3)

    def clock(self) -> int:
        return self.micros // 1000

    def run(self, threads: list[Iterator[int]]) -> None:
        loop = self.loop()
        waiting = [(self.random.randrange(300), number, it) for number, it in enumerate(threads)]
        waiting.append((self.random.randrange(20000), len(threads), loop))
        heapq.heapify(waiting)
        while waiting:
            self.micros, number, it = heapq.heappop(waiting)
            wait = next(it, None)
            if wait is not None:
                heapq.heappush(waiting, (self.micros + wait, number, it))
            elif it is not loop:
                self.ended += 1

    def thread(self, number: int) -> Iterator[int]:
        for at in range(SENDS):
            yield 1000 * (at % 4) + self.random.randrange(60)
            self.lines.append(f"0 S {self.now} {self.clock()} 0 {140000000000000 + number} @7")
            yield self.held()
            if not self.pending:
                self.pending = 1
                yield self.held()
                self.is_written = True
                yield self.held()
                self.pending = 2

    def call(self, of: str) -> Iterator[int]:
        self.lines.append(f"0 B {self.now} {self.clock()} {of}")
        yield self.held()
        self.lines.append(f"0 E {self.now} {self.clock()} {of.split(' ')[1]}")

    def loop(self) -> Iterator[int]:
        self.now = self.clock()
        self.lines.append(f"0 R {self.now} {self.now} default")
        while self.now < UNTIL:
            yield from self.call("on 1 prepare")
            self.lines.append(f"0 P {self.now} {UNTIL - self.now}")
            while not self.is_written and self.clock() < UNTIL:
                yield 1
            self.now = self.clock()
            if self.is_written:
                yield from self.look()
                self.now = self.clock()
        yield from self.stop()

    def look(self) -> Iterator[int]:
        """The loop reads its file, and takes the flag once no sender is at its write."""
        yield self.held()
        self.is_written = False
        yield self.held()
        while self.pending == 1:
            yield 1
        if self.pending:
            self.pending = 0
            yield self.held()
            yield from self.call("on 0 async")

    def stop(self) -> Iterator[int]:
        now = self.now
        self.lines.append(f"0 B {now} {self.clock()} on 2 timer")
        while self.ended < THREADS:
            yield 100
        self.lines += [f"0 O {now} close %0 = ok @0", f"0 O {now} stop %1 = ok @0", f"0 E {now} {self.clock()} 2", f"0 P {now} 0"]
        yield from self.call("closed 0")
        self.lines.append(f"0 r {now} 0")


def try_held(tries: Tries) -> None:
    os.environ["UVT"] = built_program()
    with tempfile.TemporaryDirectory() as folder:
        path = Path(folder) / "held.rec"
        for seed in SEEDS:
            data = ("\n".join(Drawn(seed).lines) + "\n").encode()
            said, _ = from_data(data, read_log(data), f"{folder}/held")
            lines = path.read_text().splitlines()
            sends, what = sum(it.startswith("send ") for it in lines), f"record, threads that are held up, {seed}"
            tries.check(f"{what}: no send is made up", sends == THREADS * SENDS, (sends, said))
            tries.check(f"{what}: replay", verdict(path) == "same" and "same" in said[0], said)
