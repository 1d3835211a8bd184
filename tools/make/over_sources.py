"""Checks a crate over crates below it that aren't proved yet.

The kit's command checks a crate over the built libraries below it, and a library is built only where it is proved. This hands some of
them, and all that depend on these, to the checker as sources: then what the crate cites of a theorem that isn't proved is reported, and
all else is checked as ever. So a change that goes through many crates can be worked on in all of them at once.

The crates that aren't named, and depend on none that is, have to be built (`rt lib`). What is checked is kept in the crate's
out/incremental, as `rt check` does. It gives no verdict: that is `rt ci`'s alone."""
import argparse
import os
import subprocess
import sys
from typing import Dict, List, Set

ROOT = os.path.dirname(os.path.dirname(os.path.dirname(os.path.realpath(__file__))))


class Wrong(Exception):
    pass


def uses_of() -> Dict[str, List[str]]:
    """The crates of crates.txt, each with the libraries that it uses."""
    uses: Dict[str, List[str]] = {}
    with open(os.path.join(ROOT, "crates.txt"), encoding="utf-8") as file:
        for line in file:
            head, colon, tail = line.split("#")[0].partition(":")
            if colon:
                uses[head.split()[0]] = tail.split()
    return uses


def below(uses: Dict[str, List[str]], crate: str) -> List[str]:
    """The crates of the repository below one, each behind those that it depends on."""
    found: List[str] = []
    for name in uses[crate]:
        if name in uses:
            found += [it for it in [*below(uses, name), name] if it not in found]
    return found


def kit() -> str:
    """The kit's folder."""
    try:
        page = subprocess.run(["rt", "doc"], stdout=subprocess.PIPE, check=True, text=True).stdout.strip()
    except (OSError, subprocess.CalledProcessError):
        raise Wrong("the kit's command rt isn't there") from None
    return os.path.dirname(page)


def libraries(uses: Dict[str, List[str]], crate: str, sources: Set[str], where: str) -> List[str]:
    """The words that hand over the crate's libraries: the kit's, those that are built, and those that are read as sources."""
    order = below(uses, crate)
    read = {it for it in order if it in sources or sources & set(below(uses, it))}
    of_kit = {"core", "std"} | {name for it in [crate, *order] for name in uses[it] if name not in uses}
    words = ["-L", f"dependency={where}/rlibs"]
    for name in sorted(of_kit):
        words += ["--extern", f"{name}={where}/rlibs/{name}.rlib"]
    for name in order:
        folder = os.path.join(ROOT, "crates", name)
        if name in read:
            words += ["--lib", f"{name}:{','.join(dict.fromkeys(['core', 'std', *uses[name]]))}={folder}/src/lib.rt"]
            continue
        built = f"{folder}/out/rlib/{name}.rlib"
        if not os.path.isdir(built):
            raise Wrong(f"{name} is neither built nor named: rt lib in crates/{name} builds it")
        words += ["-L", f"dependency={folder}/out/rlib"]
        if any(name in uses[it] for it in [crate, *read]):
            words += ["--extern", f"{name}={built}"]
    return words


def check(crate: str, sources: List[str], flags: List[str]) -> int:
    uses = uses_of()
    for name in [crate, *sources]:
        if name not in uses:
            raise Wrong(f"crates.txt has no crate {name}")
    where, folder = kit(), os.path.join(ROOT, "crates", crate)
    root = "src/main.rt" if os.path.exists(os.path.join(folder, "src", "main.rt")) else "src/lib.rt"
    os.makedirs(os.path.join(folder, "out", "incremental"), exist_ok=True)
    words = ["--crate-name", crate, root, *libraries(uses, crate, set(sources), where)]
    words += ["--antt-project", f"{where}/rattle/logic/antt-project.json", "--logic-built", f"{where}/logic_built"]
    words += ["--incremental", "out/incremental", *flags]
    return subprocess.run([f"{where}/bin/rattle", "check", *words], cwd=folder, check=False).returncode


def main() -> int:
    parser = argparse.ArgumentParser(description=__doc__, formatter_class=argparse.RawDescriptionHelpFormatter)
    parser.add_argument("crate", help="the crate that is checked")
    parser.add_argument("--source", default="", metavar="A,B,..", help="the crates below that are read as sources, with all that depend on them")
    parser.add_argument("flags", nargs=argparse.REMAINDER, help="flags of the checker, as --only NAME, --allow-holes or --jobs 2")
    asked = parser.parse_args()
    try:
        return check(asked.crate, [it for it in asked.source.split(",") if it], [it for it in asked.flags if it != "--"])
    except Wrong as wrong:
        print(f"over-sources: {wrong}", file=sys.stderr)
        return 2
    except KeyboardInterrupt:
        return 130
