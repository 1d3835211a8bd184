"""Compiles a module in parts, by several compilers side by side: tools/launch/parts.py CLANG LLD WORDS..

WORDS are those of a call of clang that makes an object of a module of LLVM. The module's text is cut by its functions: those that nobody calls
from `main` on are left out (of uvt_find 9,000 of 14,000), and so many parts are made of the others as there are processors, but at most four. Calls
are mostly within a part, since callees stand beside their callers; a short function that another part calls is given to that one too, as one
that may be inlined and isn't kept. The parts' objects are linked to one.

The status is 1 where this isn't such a call, or where it fails: then nothing is made, and the caller compiles the whole of it."""

import os
import re
import shutil
import subprocess
import sys
from typing import Dict, List, Set

# A module of fewer bytes isn't cut.
LEAST = 1_000_000
MOST_PARTS = 4
# How much text a function has at most that is given to other parts.
SHORT = 3000
NAME = re.compile(r'@("[^"]*"|[-$._A-Za-z0-9]+)')
FUNCTION = re.compile(r"^define [^\n]*\n.*?^}\n", re.M | re.S)


class Module:
    """A module's text: its functions, what each of them names, and all the rest."""

    def __init__(self, text: str) -> None:
        self.functions: Dict[str, str] = {}
        rest, at = [], 0
        for found in FUNCTION.finditer(text):
            rest.append(text[at : found.start()])
            at = found.end()
            whole = found.group()
            name = NAME.search(whole)
            assert name
            self.functions[name[1]] = whole
        self.rest = "".join([*rest, text[at:]])
        self.named: Dict[str, List[str]] = {}
        # (whom a constant names is there for all)
        roots = [it for it in NAME.findall(self.rest) if it in self.functions]
        self.live = self.reached(["main", *roots])

    def reached(self, roots: List[str]) -> List[str]:
        """The functions that these come to, each beside those that it calls."""
        found: Dict[str, None] = {}
        todo = roots[::-1]
        while todo:
            name = todo.pop()
            if name not in found:
                found[name] = None
                self.named[name] = [it for it in dict.fromkeys(NAME.findall(self.functions[name])) if it in self.functions and it != name]
                todo += self.named[name][::-1]
        return list(found)

    def groups(self, parts: int) -> List[List[str]]:
        """All of them in so many parts of about the same length."""
        whole, so_far = sum(len(self.functions[it]) for it in self.live), 0
        found: List[List[str]] = [[] for _ in range(parts)]
        for it in self.live:
            found[so_far * parts // whole].append(it)
            so_far += len(self.functions[it])
        return found

    def part(self, own: List[str]) -> str:
        """The text of a part with these functions."""
        mine, short = set(own), self.short_ones(own)
        needed = dict.fromkeys(it for name in [*own, *short] for it in self.named[name] if it not in mine and it not in short)
        return "".join(
            [
                self.rest,
                *(self.functions[it].replace("define internal ", "define hidden ", 1) for it in own),
                *(self.functions[it].replace("define internal ", "define available_externally hidden ", 1) for it in short),
                *(declared(self.functions[it]) for it in needed),
            ]
        )

    def short_ones(self, own: List[str]) -> List[str]:
        """The short functions of other parts that these call, and that those call."""
        mine: Set[str] = set(own)
        found: Dict[str, None] = {}
        todo = [it for name in own for it in self.named[name]]
        while todo:
            it = todo.pop()
            if it not in mine and it not in found and it != "main" and len(self.functions[it]) <= SHORT:
                found[it] = None
                todo += self.named[it]
        return list(found)


def declared(function: str) -> str:
    head = function[: function.index("\n")]
    return re.sub(r"^define (internal )?", "declare hidden ", head).rstrip(" {") + "\n"


def objects(clang: str, words: List[str], text: str, room: str) -> List[str]:
    """Compiles the module of this text in parts. None of them where one fails."""
    module = Module(text)
    made, running = [], []
    for at, own in enumerate(module.groups(min(MOST_PARTS, len(os.sched_getaffinity(0))))):
        source = os.path.join(room, "%d.ll" % at)
        with open(source, "w") as file:
            file.write(module.part(own))
        made.append(os.path.join(room, "%d.o" % at))
        running.append(subprocess.Popen([clang, *words, "-c", "-x", "ir", source, "-o", made[-1]]))
    return made if not any([it.wait() for it in running]) else []


def main() -> int:
    clang, lld, *words = sys.argv[1:]
    sources = [it for it in words if it.endswith(".bc")]
    if "-c" not in words or "-o" not in words or len(sources) != 1 or os.path.getsize(sources[0]) < LEAST:
        return 1
    into = words[words.index("-o") + 1]
    room = into + ".parts"
    # (what is left says how to compile)
    for it in (["-c"], ["-x", "ir"], ["-o", into], sources):
        at = words.index(it[0])
        del words[at : at + len(it)]
    try:
        os.mkdir(room)
        text = os.path.join(room, "module.ll")
        subprocess.run([clang, *words, "-Xclang", "-disable-llvm-passes", "-S", "-emit-llvm", "-x", "ir", *sources, "-o", text], check=True)
        with open(text) as file:
            made = objects(clang, words, file.read(), room)
        if not made:
            return 1
        return subprocess.run([lld, "-m", "elf_x86_64", "-r", "-o", into, *made]).returncode and 1
    except (OSError, subprocess.CalledProcessError):
        return 1
    finally:
        shutil.rmtree(room, ignore_errors=True)


if __name__ == "__main__":
    sys.exit(main())
