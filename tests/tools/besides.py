"""Two recordings of one program beside each other (uvt/beside.py): beside/ has two programs, and their logs in six modes each, in which something
else is planted."""

from __future__ import annotations

import re
import tempfile
from pathlib import Path

from tests.helper import Tries, log_at
from uvt.beside import beside
from uvt.inputs import read_input
from uvt.record.log import read_log
from uvt.record.run import from_data
from uvt.walk import Walk

FOLDER = Path(__file__).resolve().parent / "beside"
GOOD = "base"
# Of each mode what is to be said of it beside `base`, by regular expressions, and what not.
WANTED: dict[str, tuple[list[str], list[str]]] = {
    "slow": (
        [r"query_7, request 1: a worker had it \d\d ms, in base [1-9] ms.*: 8\d ms in usleep, at shop\.c:\d+, in run_query"],
        ["shop, call 5 .*took"],
    ),
    "lock": (
        [
            r"what took longer\n    shop, call 5 \(on_order, shop\.c:\d+\): took [67]\d ms, none of them on the processor \(in base \d ms\): "
            r"[67]\d ms in pthread_mutex_lock, at shop\.c:\d+, in on_order\n        behind it: ",
        ],
        ["a worker had it [2-9]\\d ms"],
    ),
    "order": (
        [r"query_3, after callback 1 \(on_answer.*\): in base behind .*, in order behind ", r"query_3, request 1: a worker had it 2\d ms"],
        ["shop, call [2-9].* took"],
    ),
    "more": ([r"only more has audit"], [r"only base has", "pthread_mutex_lock"]),
    "cpu": ([r"shop, call 9 .* took \d+ ms.* \(in base \d ms\).*of (?:it|its time on the processor) in price_all \(shop\.c:\d+\)"], []),
}
# The same of the other program, beside `depot`.
OTHER = "depot"
DEPOT: dict[str, tuple[list[str], list[str]]] = {
    "gate": (
        [
            r"what took longer\n    rounds, call 3 \(on_round, depot\.c:\d+\): took \d\d ms, none of them on the processor \(in depot 0 ms\): "
            r"\d\d ms in sem_wait, at depot\.c:\d+, in on_round\n        behind it: ",
        ],
        ["a worker had it", "only (depot|gate) has", "rounds: \\d+ calls"],
    ),
    "sort": (
        [r"by function\n    on_parcel: 119 calls, the longest \d ms, 1\d\d ms in all; in depot 119 calls, the longest \d ms, [2-5]\d ms in all"],
        ["a worker had it", "only (depot|sort) has"],
    ),
    "pool": (
        [
            r"pack_\d, request 1: a worker had it 1\d ms, in depot [1-3] ms, do_pack \(depot\.c:\d+\): 1\d ms in usleep, at depot\.c:\d+, in do_pack"
            r"; and 7 more requests of do_pack by"
        ],
        ["only (depot|pool) has", "rounds: \\d+ calls"],
    ),
    "audit": (["only depot has rounds\n    only audit has audit"], ["a worker had it", "sem_wait"]),
    "hogs": (["left out: \\d+ calls that the system alone made later"], ["what took longer", "by function", "what is only in one"]),
}


def walk_of(mode: str, folder: Path) -> Walk:
    data = log_at(FOLDER / f"{mode}.log").read_bytes()
    from_data(data, read_log(data), str(folder / mode))
    return Walk(*read_input(folder / f"{mode}.rec"))


def try_besides(tries: Tries) -> None:
    for good, wanted in ((GOOD, WANTED), (OTHER, DEPOT)):
        try_pairs(tries, good, wanted)


def try_pairs(tries: Tries, good: str, pairs: dict[str, tuple[list[str], list[str]]]) -> None:
    with tempfile.TemporaryDirectory() as name:
        walks = {it: walk_of(it, Path(name)) for it in (good, *pairs)}
        for mode, (wanted, wrong) in pairs.items():
            answer = "\n".join(beside(walks[good], walks[mode], (good, mode)))
            missing = [it for it in wanted if not re.search(it, answer)]
            tries.check(f"beside, {mode}: what is said", not missing, f"{missing} isn't in\n{answer}")
            found = [it for it in wrong if re.search(it, answer)]
            tries.check(f"beside, {mode}: nothing else is said", not found, f"{found} is in\n{answer}")
        answer = "\n".join(beside(walks[good], walks[good], (good, good)))
        tries.check(f"beside, {good} twice: nothing differs", answer.endswith("nothing took longer or was later than in the first one"), answer)
        for walk in walks.values():
            walk.close()
