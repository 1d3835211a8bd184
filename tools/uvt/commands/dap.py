"""The Debug Adapter Protocol for a script or a recording, over standard input and output.

An editor starts it, and launches with `program`, the path of a script or a recording. Breakpoints are set on the lines of ops, on names
(function breakpoints), and on codes and sections (exception filters). It steps into and out of callbacks, and back.

UVT names another program than the launcher ./uvt.
"""

from __future__ import annotations

import argparse

from launch.tool import run_tool

from uvt.dap import Adapter
from uvt.dap_wire import Wire


def serve() -> int:
    Adapter(Wire(0, 1)).serve()
    return 0


def main() -> int:
    argparse.ArgumentParser(description=__doc__, formatter_class=argparse.RawDescriptionHelpFormatter).parse_args()
    return run_tool("uvt-dap", serve, failed=1)
