"""What is installed of uvt, and as what: the programs, the tools, the pages as a reader without a clone has them, and the evidence of the proof."""

from __future__ import annotations

import ast
import gzip
import hashlib
import os
import platform
import py_compile
import re
import subprocess
import sys
import tempfile
from pathlib import Path
from typing import NamedTuple

from package.uninstall import Fault

ROOT = Path(__file__).resolve().parent.parent.parent
# What is installed of tools/: not what builds the program, and not what is for tests.
TAKEN = (
    "start.py",
    "uvt",
    *(f"launch/{it}" for it in ("__init__.py", "tool.py", "typed.py", "bad_line.py", "reasons.py", "asked_reasons.py", "usage")),
    "package/__init__.py",
    "package/uninstall.py",
)
OWN = {"programs", "vscode", "__pycache__"}
PROVED = b"rattle logic="
COPYRIGHT = """No licence has been chosen for uvt yet. Until its owner chooses one, this file is the only word on it: nobody but the owner has the
right to copy it, to change it or to hand it on.
"""
EVIDENCE = """What was proved, and what you can check:

kit             the kit that has proved and compiled the program, as it names itself. The program says by which logic it was
                proved, too: readelf -p .comment {prefix}/lib/uvt/program
sources.sha256  each source that it was proved and compiled from. In a clone of the repository: sha256sum -c sources.sha256
program.sha256  the program itself, and the search. In {prefix}: sha256sum -c share/doc/uvt/proof/program.sha256

Whoever has the kit and the sources can prove and build it again, by `./uvt build`.
"""


class Item(NamedTuple):
    """A file, or where `link` isn't empty a link to there."""

    data: bytes
    mode: int = 0o644
    link: str = ""


Items = dict[str, Item]


def put(path: Path, item: Item) -> None:
    path.parent.mkdir(parents=True, exist_ok=True)
    part = path.with_name(path.name + ".part")
    # (no link that somebody else has put there is followed, and nothing half written stays)
    part.unlink(missing_ok=True)
    if item.link:
        part.symlink_to(item.link)
    else:
        try:
            part.write_bytes(item.data)
        except OSError:
            part.unlink(missing_ok=True)
            raise
        part.chmod(item.mode)
    # (a program that runs is never written to)
    part.replace(path)


def put_all(folder: Path, items: Items) -> None:
    for name, item in items.items():
        put(folder / name, item)


def page_of(text: str, prefix: str) -> str:
    """A page for a reader who has no clone: without the parts for one, with those for an installed program."""
    text = re.sub(r"<!-- clone -->\n.*?<!-- /clone -->\n", "", text, flags=re.DOTALL)
    text = re.sub(r"<!-- installed\n(.*?)/installed -->\n", r"\1", text, flags=re.DOTALL)
    text = text.replace("SHARE/", f"{prefix}/share/")
    text = text.replace("/path/to/uvt/tools/", f"{prefix}/lib/uvt/tools/")
    return re.sub(r"(?<![\w/.])\./uvt(?![\w-])", "uvt", text)


def usage_of(text: str, prefix: str, packed: bool) -> str:
    lines = [it for it in text.splitlines() if not re.match(r"  \./uvt (build|test|install|uninstall) ", it)]
    if not packed:
        at = next(at for at, it in enumerate(lines) if it.startswith("  ./uvt help"))
        lines.insert(at, "  ./uvt uninstall                  takes away all of it, and nothing else")
    text = "\n".join(lines) + "\n"
    text = re.sub(r"\b(README\.md|docs/\w+\.md|examples/)", rf"{prefix}/share/doc/uvt/\1", text)
    return re.sub(r"\./uvt(?![\w-])", "uvt", text)


def manual_of(name: str, what: str, text: str) -> bytes:
    text = re.sub(r"^(?=[.'])", "\\\\&", text.replace("\\", "\\e"), flags=re.MULTILINE)
    head = f".TH {name.upper()} 1\n.SH NAME\n{name} \\- {what}\n.SH USAGE\n.nf\n"
    return gzip.compress((head + text.rstrip("\n") + "\n.fi\n").encode(), 9, mtime=0)


def manuals_of(items: Items) -> Items:
    """A manual page of the program, and one of each tool: what it says of itself."""
    folder, what = "share/man/man1", "a model of the event loop of libuv, and a debugger for it that goes back"
    found = {f"{folder}/uvt.1.gz": Item(manual_of("uvt", what, items["lib/uvt/tools/launch/usage"].data.decode()))}
    for name, item in items.items():
        if re.fullmatch(r"lib/uvt/tools/uvt/commands/(?!__)\w+\.py", name):
            first, _, rest = (ast.get_docstring(ast.parse(item.data)) or "").partition("\n")
            tool = f"uvt-{Path(name).stem}"
            found[f"{folder}/{tool}.1.gz"] = Item(manual_of(tool, first.rstrip("."), rest.strip("\n")))
    return found


def walk(path: Path) -> list[Path]:
    """The file, or the files of a folder, except for those that aren't for users."""
    if not path.is_dir():
        return [path]
    return [found for it in sorted(path.iterdir()) if it.name not in OWN and it.suffix != ".pyc" for found in walk(it)]


def file_of(path: Path) -> Item:
    return Item(path.read_bytes(), 0o755 if os.access(path, os.X_OK) else 0o644)


def tools_of(prefix: str, packed: bool) -> Items:
    items = {}
    for path in [found for it in TAKEN for found in walk(ROOT / "tools" / it)]:
        item, name = file_of(path), path.relative_to(ROOT).as_posix()
        if path.name == "usage":
            item = item._replace(data=usage_of(item.data.decode(), prefix, packed).encode())
        elif path.parent.name == "commands":
            item = item._replace(data=re.sub(rb"\./uvt(?![\w-])", b"uvt", item.data))
        items[f"lib/uvt/{name}"] = item
    return items if packed else {**items, **compiled(items, prefix)}


def compiled(items: Items, prefix: str) -> Items:
    """What Python compiles of these sources, for the Python that packs them: else each call of a tool compiles them anew. (Another Python takes no
    notice of it; nor does any where a source was changed since.)"""
    found = {}
    with tempfile.TemporaryDirectory() as room:
        source, made = os.path.join(room, "it.py"), os.path.join(room, "it.pyc")
        for name, item in items.items():
            folder, _, file = name.rpartition("/")
            if file.endswith(".py"):
                Path(source).write_bytes(item.data)
                py_compile.compile(source, made, f"{prefix}/{name}", doraise=True, invalidation_mode=py_compile.PycInvalidationMode.CHECKED_HASH)
                found[f"{folder}/__pycache__/{file[:-3]}.{sys.implementation.cache_tag}.pyc"] = Item(Path(made).read_bytes())
    return found


def pages_of(prefix: str) -> Items:
    doc = "share/doc/uvt"
    items = {f"{doc}/README.md": Item(page_of((ROOT / "README.md").read_text(encoding="utf-8"), prefix).encode())}
    for path in sorted((ROOT / "docs").iterdir()):
        data = path.read_bytes()
        items[f"{doc}/docs/{path.name}"] = Item(page_of(data.decode(), prefix).encode() if path.suffix == ".md" else data)
    for path in sorted((ROOT / "examples").resolve().iterdir()):
        items[f"{doc}/examples/{path.name}"] = Item(path.read_bytes())
    for path in sorted((ROOT / "tools" / "uvt" / "record" / "programs").glob("*.c")):
        items[f"{doc}/tools/uvt/record/programs/{path.name}"] = Item(path.read_bytes())
    for path in sorted((ROOT / "tools" / "uvt" / "vscode").rglob("*")):
        if path.is_file():
            items[f"{doc}/{path.relative_to(ROOT).as_posix()}"] = Item(path.read_bytes())
    # (the manifest of the extension names it)
    items[f"{doc}/tools/uvt/vscode/uvt-dap"] = Item(b'#!/bin/sh\nexec uvt dap "$@"\n', 0o755)
    items[f"{doc}/copyright"] = Item(COPYRIGHT.encode())
    return items


def evidence_of(programs: dict[str, Path], prefix: str) -> Items:
    """The kit's line, and the checksums of the sources and of the programs, by the paths at which these are installed."""
    kits, sources, sums = set(), set(), []
    for name, program in programs.items():
        data = program.read_bytes()
        if PROVED not in data:
            raise Fault(f"{program} is no proved program: its section .comment doesn't name the program logic")
        try:
            kit, *lines = (program.parent / "sums").read_text(encoding="utf-8").splitlines()
        except (OSError, ValueError):
            raise Fault(f"{program.parent / 'sums'} isn't there, which says of what sources the program is: ./uvt build writes it") from None
        logic = re.search(r"\blogic ([0-9a-f]+)", kit)
        if logic and not re.search(PROVED + logic[1].encode(), data):
            raise Fault(f"{program} was proved in another logic than that of `{kit}`")
        kits.add(kit)
        sources.update(lines)
        sums.append(f"{hashlib.sha256(data).hexdigest()}  {name}\n")
    folder = "share/doc/uvt/proof"
    return {
        f"{folder}/README": Item(EVIDENCE.format(prefix=prefix).encode()),
        f"{folder}/kit": Item("".join(f"{it}\n" for it in sorted(kits)).encode()),
        f"{folder}/sources.sha256": Item("".join(f"{it}\n" for it in sorted(sources, key=lambda it: it.split(maxsplit=1)[-1])).encode()),
        f"{folder}/program.sha256": Item("".join(sums).encode()),
    }


def items_of(program: Path, prefix: str, packed: bool) -> Items:
    """All that is installed, by its path below the prefix. `packed` is what dpkg takes away again, by its own lists."""
    programs = {"lib/uvt/program": program}
    search = built_program("uvt_find")
    if search:
        programs["lib/uvt/program-find"] = search
    items = {**tools_of(prefix, packed), **pages_of(prefix), **evidence_of(programs, prefix)}
    items["lib/uvt/uvt"] = file_of(ROOT / "uvt")
    items.update({name: Item(it.read_bytes(), 0o755) for name, it in programs.items()})
    items["lib/uvt/version"] = Item(f"{version()}\n".encode())
    items["bin/uvt"] = Item(b"", 0o777, "../lib/uvt/uvt")
    items.update(manuals_of(items))
    items["share/bash-completion/completions/uvt"] = file_of(ROOT / "tools" / "launch" / "completion" / "uvt.bash")
    # (where Debian's zsh looks for those of packages, and where others do)
    zsh = "share/zsh/vendor-completions/_uvt" if packed else "share/zsh/site-functions/_uvt"
    items[zsh] = file_of(ROOT / "tools" / "launch" / "completion" / "_uvt")
    return dict(sorted(items.items()))


def git(*words: str) -> str:
    if not (ROOT / ".git").exists():
        return ""
    ran = subprocess.run(
        ["git", "-c", f"safe.directory={ROOT}", "-C", str(ROOT), *words],
        env={**os.environ, "TZ": "UTC"},
        stdout=subprocess.PIPE,
        stderr=subprocess.DEVNULL,
        text=True,
    )
    return ran.stdout.strip() if ran.returncode == 0 else ""


def changes() -> str:
    """What debian/changelog says, where these are the sources of a Debian package; else nothing."""
    path = ROOT / "debian" / "changelog"
    return "" if (ROOT / ".git").exists() or not path.is_file() else path.read_text(encoding="utf-8")


def version() -> str:
    """The commit, behind the day and the time of it in UTC, so that a later one is an upgrade; `+changed` where the clone isn't what it has. Sources
    of a Debian package have it in their changes."""
    found = git("log", "-1", "--date=format-local:%Y%m%d.%H%M%S", "--format=0~%cd.%h")
    said = re.match(r"uvt \((\S+)\)", changes())
    return (found or (said[1] if said else "0")) + ("+changed" if found and git("status", "--porcelain") else "")


def made_at() -> int:
    """The time that all files of a package have: the commit's. Of a copy without its history that of its README, and first of all the time that
    SOURCE_DATE_EPOCH says."""
    said = os.environ.get("SOURCE_DATE_EPOCH") or git("log", "-1", "--format=%ct")
    return int(said) if said.isdigit() else int((ROOT / "README.md").stat().st_mtime)


def architecture() -> str:
    machine = platform.machine()
    return {"x86_64": "amd64", "aarch64": "arm64"}.get(machine, machine)


def built_program(crate: str) -> Path | None:
    """The program of this crate that ./uvt build has built, of the sources as they are now."""
    kept = ROOT / "out" / crate
    script = '. "$root/tools/launch/kept.sh"; is_built'
    ran = subprocess.run(
        ["sh", "-c", "say() { :; }; fail() { exit 70; }; " + script], env={**os.environ, "root": str(ROOT), "crate": crate, "kept": str(kept)}
    )
    return kept / crate if ran.returncode == 0 else None


def proved_program() -> Path:
    program = built_program("uvt")
    if program is None:
        raise Fault("there is no proved program of these sources: ./uvt build proves and builds it, once")
    return program
