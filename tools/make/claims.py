"""Writes docs/CLAIMS.md: the claims, the clauses that say them, and the definitions that these depend on.

  tools/make/claims            writes the page
  tools/make/claims --check    says whether the page is as the sources are, and writes nothing: status 1 where it isn't

Status 2 where a clause or a call that is named is gone."""

import argparse
import sys
from pathlib import Path

from make.definitions import Fault, page

ROOT = Path(__file__).resolve().parent.parent.parent


def main() -> int:
    parser = argparse.ArgumentParser(description=(__doc__ or "").splitlines()[0])
    parser.add_argument("--check", action="store_true", help="write nothing, and say whether the page is as the sources are")
    check = parser.parse_args().check
    path = ROOT / "docs" / "CLAIMS.md"
    try:
        text = page(ROOT)
    except Fault as why:
        print(f"claims: {why}", file=sys.stderr)
        return 2
    if not check:
        path.write_text(text, encoding="utf-8")
    elif not path.is_file() or path.read_text(encoding="utf-8") != text:
        print("claims: docs/CLAIMS.md isn't as the sources are: tools/make/claims writes it", file=sys.stderr)
        return 1
    return 0
