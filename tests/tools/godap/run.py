"""Tries the debug adapter by a client over another hand's library of the protocol: tests/tools/godap/run

It is for the hand: it takes Debian's golang-go and golang-github-google-go-dap-dev, and half a minute to compile. The client (client.go)
launches an example, sets a breakpoint on a line and goes on to it, steps back to the start, on to the end and back once more, and
compares the stacks. The adapter talks with the program of ./uvt build, or with the one that UVT names.

Status 1 if an example fails, 2 where Go or the library isn't there.
"""

from __future__ import annotations

import argparse
import os
import shutil
import subprocess
import sys
import tempfile
from pathlib import Path

from tests.helper import Tries

HERE = Path(__file__).resolve().parent
ROOT = HERE.parent.parent.parent
EXAMPLES = ROOT / "crates" / "examples" / "data"
# where Debian's packages have the sources of Go's libraries
SOURCES = Path("/usr/share/gocode")
SECONDS = 300
# By hand: a line of each example, and the op that stands there.
CASES = [("late-timer.uvt", 17, "on beat now"), ("sent-session.rec", 13, "on early cancel job"), ("never-called.uvt", 15, "on reply start retry 1 0")]


def main() -> int:
    argparse.ArgumentParser(description=__doc__, formatter_class=argparse.RawDescriptionHelpFormatter).parse_args()
    if not shutil.which("go") or not (SOURCES / "src/github.com/google/go-dap").is_dir():
        print("godap: this takes the packages golang-go and golang-github-google-go-dap-dev", file=sys.stderr)
        return 2
    failed = 0
    with tempfile.TemporaryDirectory() as name:
        client = Path(name) / "client"
        settings = {**os.environ, "GOPATH": str(SOURCES), "GO111MODULE": "off", "GOFLAGS": "", "CGO_ENABLED": "0"}
        made = subprocess.run(["go", "build", "-p", "2", "-o", str(client), str(HERE / "client.go")], env=settings, timeout=SECONDS)
        if made.returncode != 0:
            print("godap: the client can't be compiled", file=sys.stderr)
            return 2
        for example, line, op in CASES:
            words = [str(client), str(ROOT / "tools" / "uvt" / "uvt-dap"), str(EXAMPLES / example), str(line), op]
            failed += subprocess.run(words, timeout=SECONDS).returncode != 0
    print(f"{len(CASES)} tried, {failed} failed")
    return 1 if failed else 0
