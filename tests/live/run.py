"""Live runs of many scripts: tests/live/run [RUNS [SEED]]

By default 1,000 runs, of scripts with 1 to 8 workers, up to 8 senders and up to 50 jobs (script of tests/program/lives.py).
Each comes to its end, and its recording is replayed as `same`. It prints a line for each that failed, and at the end how many
there were; status 1 if any failed."""
import argparse
import subprocess


from tests.helper import ROOT, Tries
from tests.program import lives


def main() -> int:
    reader = argparse.ArgumentParser(description=__doc__, formatter_class=argparse.RawDescriptionHelpFormatter)
    reader.add_argument("runs", metavar="RUNS", type=int, nargs="?", default=1000, help="how many runs")
    reader.add_argument("seed", metavar="SEED", type=int, nargs="?", default=1, help="the number of the first one")
    asked = reader.parse_args()
    uvt, tries = str(ROOT / "uvt"), Tries("live")
    if subprocess.run([uvt, "build"]).returncode:
        return 1
    for number in range(asked.seed, asked.seed + asked.runs):
        wrong = lives.try_run(uvt, number)
        tries.check("run %d" % number, not wrong, wrong)
    return tries.end()
