"""How late is each callback at worst, in every order of what came from outside of a recorded run?

  ./uvt worst RECORDING [NAME..]   a table in ms, a line for each timer, async handle and request that was called, or for these names
      -o PREFIX      the order at worst of NAME goes to PREFIX.NAME.uvt, for why, shell, force and view (the recording's name without .rec)
      --no-sessions  no order is written
      --differ K     orders in which K steps from outside come elsewhere (1; several times for several columns)
      --for SECONDS  so long for each question at the most (20)
      --states N     so many states for each question at the most (3000000)
      -j N           so many questions at a time (1)
      --json         the same for a program
      --within 'NAME MS'   in place of the table: is NAME never later than MS in any order? (several times for several names)

A timer is late by the ms since it was due, an async handle by those since the first send that its call answers, a request by those since it was
queued until its after callback. `in this run` is what was recorded. `1 moved`: at most so late where one step from outside comes at another place
(`may differ 1`). `every order`: at most so late in any order of what came. Each number is proved by the search: an order with it is kept, and no
order has more. `51+` says that it is so late at least, and more isn't settled: why stands below. `find latest NAME` (docs/FIND.md) asks the same.

Status 0: all is settled; with --within each name keeps its budget. Status 1: a name is later in an order, which is kept as PREFIX.NAME.uvt.
Status 3: something isn't settled. Status 2: no such recording or name.
"""

from __future__ import annotations

import argparse
import json
import sys
from pathlib import Path

from launch.tool import run_tool
from uvt.conversation import INSTALLED, Fault, Script, search_program
from uvt.inputs import read_input
from uvt.progress import Teller
from uvt.offered import single
from uvt.worst import Asker, Budget, Row, Worst, beyond_budgets, rows_of

SETTLED, BEYOND, WRONG, OPEN = 0, 1, 2, 3


def table(columns: list[str], rows: list[Row], files: dict[str, Path]) -> list[str]:
    """The table, with what isn't settled below it."""
    cells = [["", "", "calls", *columns, "its order"]]
    for row in rows:
        cells.append([row.kind, row.name, str(row.calls), *(row.worst[it].told() for it in columns), str(files.get(row.name, ""))])
    widths = [max(len(line[at]) for line in cells) for at in range(len(cells[0]))]
    told = [
        "  ".join(
            word.ljust(width) if at < 2 or at == len(line) - 1 else word.rjust(width) for at, (word, width) in enumerate(zip(line, widths))
        ).rstrip()
        for line in cells
    ]
    for row in rows:
        for column in columns:
            it = row.worst[column]
            if not it.settled:
                least = "no order that calls it was found" if it.late is None else f"{it.late} ms at least"
                told.append(f"not settled: {row.name}, {column}: {least} ({it.why})")
    return told


def write_sessions(rows: list[Row], columns: list[str], prefix: str) -> dict[str, Path]:
    """Of each callback that is later in another order than in the run, the order at worst."""
    files = {}
    for row in rows:
        best, run = row.best(columns), row.worst[columns[0]]
        if best and best is not run and best.session and (run.late is None or (best.late or 0) > run.late):
            files[row.name] = Path(f"{prefix}.{row.name}.uvt")
            files[row.name].write_bytes(best.session.encode("ascii", "surrogateescape"))
    return files


def as_json(recording: Path, columns: list[str], rows: list[Row], files: dict[str, Path]) -> str:
    found = [
        {
            "name": row.name,
            "kind": row.kind,
            "calls": row.calls,
            "session": str(files[row.name]) if row.name in files else None,
            "worst": [
                {
                    "orders": it,
                    "ms": row.worst[it].late,
                    "settled": row.worst[it].settled,
                    "states": row.worst[it].states,
                    "seconds": round(row.worst[it].seconds, 3),
                    "why": row.worst[it].why or None,
                }
                for it in columns
            ],
        }
        for row in rows
    ]
    return json.dumps({"recording": str(recording), "callbacks": found}, indent=1)


def budget_told(budget: Budget, found: Worst, path: Path | None) -> str:
    if found.late is not None:
        return f"{budget.name}: {found.late} ms late and more in an order{f': {path}' if path else ''}"
    if found.settled:
        return f"{budget.name}: never later than {budget.ms} ms, in every order ({found.states} states)"
    return f"{budget.name}: not settled whether it is ever later than {budget.ms} ms ({found.why})"


def keep_budgets(asker: Asker, recording: tuple[Script, list[str]], budgets: list[Budget], asked: argparse.Namespace) -> int:
    """Answers of each budget, and the status of all."""
    told, paths = beyond_budgets(*recording, asker, budgets, asked.jobs), []
    for budget, found in zip(budgets, told):
        is_kept = found.session and not asked.no_sessions
        paths.append(Path(f"{asked.prefix or asked.recording.stem}.{budget.name}.uvt") if is_kept else None)
        if paths[-1]:
            paths[-1].write_bytes(found.session.encode("ascii", "surrogateescape"))
    if asked.json:
        rows = [
            {"name": it.name, "ms": it.ms, "keeps": found.late is None if found.settled or found.late else None, "states": found.states}
            | {"session": str(path) if path else None, "why": found.why or None}
            for it, found, path in zip(budgets, told, paths)
        ]
        print(json.dumps({"recording": str(asked.recording), "budgets": rows}, indent=1))
    else:
        print("\n".join(budget_told(*it) for it in zip(budgets, told, paths)))
    sys.stdout.flush()
    return BEYOND if any(it.late is not None for it in told) else SETTLED if all(it.settled for it in told) else OPEN


def main() -> int:
    reader = argparse.ArgumentParser(description=__doc__, formatter_class=argparse.RawDescriptionHelpFormatter)
    reader.add_argument("recording", type=Path, metavar="RECORDING")
    reader.add_argument("names", metavar="NAME", nargs="*")
    reader.add_argument("-o", dest="prefix", metavar="PREFIX")
    reader.add_argument("--no-sessions", action="store_true")
    reader.add_argument("--differ", type=int, action="append", metavar="K")
    reader.add_argument("--states", type=int, default=3_000_000, metavar="N")
    reader.add_argument("--for", dest="seconds", type=float, default=20, metavar="SECONDS")
    reader.add_argument("-j", dest="jobs", type=int, default=1, metavar="N")
    reader.add_argument("--json", action="store_true")
    reader.add_argument("--within", action="append", metavar="'NAME MS'", default=[])
    asked = reader.parse_args()
    if asked.jobs < 1 or asked.states < 1 or asked.seconds <= 0 or any(it < 1 for it in asked.differ or []):
        reader.error("-j, --states, --for and --differ take numbers from 1 on")

    def worst() -> int:
        script, steps = read_input(asked.recording)
        if not steps:
            raise Fault(f"{asked.recording}: no steps stand behind `begin`, so nothing is known of a run. ./uvt record makes a recording")
        asker = Asker(script, search_program(), asked.states, asked.seconds)
        if asked.within:
            return keep_budgets(asker, (script, single(steps)), [Budget.of(it) for it in asked.within], asked)
        teller = Teller("uvt worst", "questions")
        try:
            columns, rows = rows_of(script, single(steps), asker, sorted(set(asked.differ or [1])), asked.names, asked.jobs, teller.tell)
        finally:
            teller.done()
        files = {} if asked.no_sessions else write_sessions(rows, columns, asked.prefix or asked.recording.stem)
        if asked.json:
            print(as_json(asked.recording, columns, rows, files))
        elif not rows:
            print("no timer, async handle or request was called")
        else:
            print("\n".join(table(columns, rows, files)))
            if files:
                print(f"why so late: {'uvt' if INSTALLED else './uvt'} why {next(iter(files))} < {next(iter(files.values()))}")
        sys.stdout.flush()
        return SETTLED if all(row.worst[it].settled for row in rows for it in columns) else OPEN

    return run_tool("uvt-worst", worst, failed=WRONG, what="the search")
