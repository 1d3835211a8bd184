"""The crates that the program depends on, as crates.txt names them."""
import os
from typing import Dict, List, NamedTuple


# What the proof of a crate took from nothing by one process, in seconds, with three others beside it (of those that took two, by
# BY_JOBS). Of a crate that isn't here it is reckoned from its lines, and of uv_handle, uv_stands, uv_ops, uv_sections and uv_loop from those that
# were measured before parts of others came to them.
MEASURED = {
    "uv_ids": 68,
    "uv_records": 50,
    "uv_work": 39,
    "uv_script": 277,
    "uv_heap": 59,
    "uv_model": 50,
    "uv_order": 50,
    "uv_session": 130,
    "uv_text": 266,
    "uv_engine": 300,
    "uv_words": 91,
    "uv_raw": 45,
    "uv_arena": 143,
    "uv_requests": 104,
    "uv_handle": 84,
    "uv_timer": 89,
    "uv_memory": 399,
    "uv_stands": 97,
    "uv_ops": 157,
    "uv_sections": 187,
    "uv_loop": 302,
    "uv_pool": 204,
    "uv_wake": 40,
    "uv_live": 302,
    "uv_run": 140,
    "uv_cli": 110,
    "uvt": 205,
}
# The last two go by the clock, whatever processors they have: their modules wait for one another.
IN_A_ROW = ("uv_cli", "uvt")
# How much of that time the others take in wall-clock time with so many processes, of which each reads what the crate depends on for itself.
BY_JOBS = {1: 1.0, 2: 0.62, 3: 0.5, 4: 0.44}


class Crate(NamedTuple):
    name: str
    line: str
    below: List[str]  # the repository's own crates that it uses
    weight: int  # about how long its proof takes, in processor seconds on a quiet machine


def lines_of_code(folder: str) -> int:
    count = 0
    for at, _, names in os.walk(folder):
        for name in names:
            if name.endswith(".rt"):
                with open(os.path.join(at, name), "rb") as file:
                    count += file.read().count(b"\n")
    return count


def read(root: str, names: List[str]) -> Dict[str, Crate]:
    """Each of these crates, in this order."""
    found = {}
    with open(os.path.join(root, "crates.txt"), encoding="utf-8") as file:
        for line in file:
            head, _, uses = line.partition("#")[0].partition(":")
            if head.split() and head.split()[0] in names:
                name = head.split()[0]
                below = [word for word in uses.split() if word in names]
                lines = lines_of_code(os.path.join(root, "crates", name, "src"))
                found[name] = Crate(name, line.strip(), below, MEASURED.get(name, 15 + 2 * len(below) + lines // 7))
    return {name: found[name] for name in names}


def chains(crates: Dict[str, Crate]) -> Dict[str, int]:
    """How long the longest chain of crates is that begins with this one, by weight."""
    longest: Dict[str, int] = {}
    for name in reversed(list(crates)):
        above = [longest[other] for other in longest if name in crates[other].below]
        longest[name] = crates[name].weight + max(above, default=0)
    return longest
