"""Debian's packages: the binary one, and the source one, of which debhelper makes the same. Their texts are in debian/ beside this file."""

from __future__ import annotations

import email.utils
import gzip
import hashlib
import os
import re
import shutil
import subprocess
import tempfile
from pathlib import Path

from package.contents import COPYRIGHT, ROOT, Item, Items, architecture, changes, git, items_of, made_at, proved_program, put, put_all, version
from package.uninstall import Fault

TEXTS = Path(__file__).resolve().parent / "debian"
CONTROL = """Package: uvt
Version: {version}
Architecture: {architecture}
Maintainer: {name} <{mail}>
Installed-Size: {size}
Depends: libc6 (>= {library})
Recommends: {Recommends}
Suggests: {Suggests}
Section: {Section}
Priority: {Priority}
Description: {Description}
"""
# What a Debian package does with Python's own files, as dh_python3 has it: they are compiled where it is installed, and go with it.
SCRIPTS = ("postinst", "prerm")
# What lies beside the sources, where there is no history that knows which are.
NO_SOURCES = {".git", "out", "__pycache__", ".pytest_cache", ".mypy_cache"}


def text_of(name: str) -> str:
    return (TEXTS / name).read_text(encoding="utf-8")


def maintainer() -> dict[str, str]:
    """Whom DEBFULLNAME and DEBEMAIL name, or who made the commit."""
    name, _, mail = (git("log", "-1", "--format=%an%n%ae") or "uvt\nuvt@localhost").partition("\n")
    return {"name": os.environ.get("DEBFULLNAME", name), "mail": os.environ.get("DEBEMAIL", mail)}


def changelog() -> str:
    return changes() or text_of("changelog").format(version=version(), date=email.utils.formatdate(made_at()), **maintainer())


def items_for_debian(program: Path) -> Items:
    """What lies below /usr. What only a Debian package has: its changes, and what lintian is told."""
    return {
        **items_of(program, "/usr", packed=True),
        "share/doc/uvt/changelog.gz": Item(gzip.compress(changelog().encode(), 9, mtime=0)),
        "share/lintian/overrides/uvt": Item(text_of("overrides").encode()),
    }


def tree(folder: Path) -> None:
    """What debhelper packs."""
    put_all(folder, items_for_debian(proved_program()))


def size_of(room: Path) -> int:
    """In KiB, as dpkg reckons it: one for all that is no file, and the scripts count."""
    return sum((it.stat().st_size + 1023) // 1024 if it.is_file() and not it.is_symlink() else 1 for it in [room, *room.rglob("*")])


def control_of(program: Path, room: Path) -> str:
    # (the newest version of the C library of which the program asks a name)
    versions = re.findall(rb"GLIBC_([0-9.]+)", program.read_bytes())
    library = max(versions, key=lambda it: [int(part) for part in it.split(b".") if part], default=b"2.34").decode()
    fields = dict(re.findall(r"^([A-Z]\w+): (.*(?:\n .*)*)$", text_of("control"), re.MULTILINE))
    return CONTROL.format(
        **fields | {"version": version(), "architecture": architecture(), "library": library, "size": size_of(room)}, **maintainer()
    )


def run(words: list[str], folder: Path) -> None:
    """One of Debian's commands, with the time that all files of a package have."""
    if not shutil.which(words[0]):
        raise Fault(f"a Debian package needs the command {words[0]}")
    ran = subprocess.run(words, cwd=folder, capture_output=True, text=True, env={**os.environ, "SOURCE_DATE_EPOCH": str(made_at())})
    if ran.returncode != 0:
        raise Fault(f"{words[0]}: " + (ran.stderr.strip().splitlines() or ["it fails"])[-1])


def deb(folder: Path) -> Path:
    program = proved_program()
    target = folder.absolute() / f"uvt_{version()}_{architecture()}.deb"
    with tempfile.TemporaryDirectory() as name:
        room = Path(name) / "uvt"
        room.mkdir(mode=0o755)
        items = items_for_debian(program)
        put_all(room / "usr", items)
        for at, folders, _ in os.walk(room):
            for it in folders:
                os.chmod(os.path.join(at, it), 0o755)
        put_all(room / "DEBIAN", {it: Item(text_of(f"uvt.{it}").replace("#DEBHELPER#", "").encode(), 0o755) for it in SCRIPTS})
        control = control_of(program, room)
        put(room / "DEBIAN" / "control", Item(control.encode()))
        sums = "".join(f"{hashlib.md5(items[it].data).hexdigest()}  usr/{it}\n" for it in sorted(items) if not items[it].link)
        put(room / "DEBIAN" / "md5sums", Item(sums.encode()))
        run(["dpkg-deb", "--root-owner-group", "--build", "uvt", target.name], Path(name))
        move(Path(name) / target.name, target)
    return target


def move(made: Path, target: Path) -> None:
    """What was made comes to where it is wanted: nothing half written stays there, and what stood there stands until then."""
    part = target.with_name(target.name + ".part")
    try:
        shutil.copy2(made, part)
    except OSError:
        part.unlink(missing_ok=True)
        raise
    part.replace(target)


def sources() -> list[str]:
    """Those that git knows; of a copy without its history all that is there but what is made."""
    known = git("ls-files", "-z", "--cached")
    if known:
        return [it for it in known.split("\0") if it and os.path.lexists(ROOT / it)]
    found = []
    for at, folders, names in os.walk(ROOT):
        links = [it for it in folders if os.path.islink(os.path.join(at, it))]
        folders[:] = [it for it in folders if it not in NO_SOURCES and it not in links and Path(at, it) != ROOT / "debian"]
        found += [Path(at, it).relative_to(ROOT).as_posix() for it in [*names, *links]]
    return sorted(found)


def debian() -> Items:
    """The folder by which debhelper builds it."""
    control = text_of("control")
    for field, value in maintainer().items():
        control = control.replace("{%s}" % field, value)
    taken = {it: Item(text_of(it).encode()) for it in ("README.source", "source/format", *(f"uvt.{it}" for it in SCRIPTS))}
    texts = {"control": control, "changelog": changelog(), "copyright": COPYRIGHT}
    return {**taken, **{name: Item(text.encode()) for name, text in texts.items()}, "rules": Item(text_of("rules").encode(), 0o755)}


def source(folder: Path) -> Path:
    """The description of a source package; the sources lie beside it."""
    top = f"uvt-{version()}"
    with tempfile.TemporaryDirectory() as name:
        room = Path(name) / top
        for it in sources():
            target = room / it
            target.parent.mkdir(parents=True, exist_ok=True)
            shutil.copy2(ROOT / it, target, follow_symlinks=False)
        put_all(room / "debian", debian())
        run(["dpkg-source", "--build", top], Path(name))
        made = sorted(Path(name).glob("uvt_*"))
        for file in made:
            move(file, folder / file.name)
    return next(folder / file.name for file in made if file.suffix == ".dsc")
