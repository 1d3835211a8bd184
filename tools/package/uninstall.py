"""Takes away what `uvt install` put below a prefix, and nothing else: tools/package/uninstall.py PREFIX

The list of it is PREFIX/lib/uvt/installed: the SHA-256 of each file (of a link, of where it leads), and the folders that weren't there
before. A file that was changed since stays, and that is said; so do folders with something else in them. What the tools have compiled for the user
who calls it goes too."""

from __future__ import annotations

import contextlib
import hashlib
import os
import re
import shutil
import sys
from dataclasses import dataclass
from pathlib import Path

MANIFEST = "lib/uvt/installed"
# Folders that are nobody else's.
OWN = ("lib/uvt", "share/doc/uvt")


class Fault(Exception):
    """What a person is to be told, in a sentence."""


@dataclass
class Put:
    """What was put below a prefix: each file with its checksum (while an installation is under way, with the old and the new one), and the
    folders that were made for it."""

    files: dict[str, list[str]]
    folders: list[str]

    def text(self) -> str:
        files = [f"{digest}  {name}" for name, digests in sorted(self.files.items()) for digest in digests]
        return "".join(f"{it}\n" for it in [*files, *(f"folder  {it}" for it in sorted(self.folders))])


def read_manifest(prefix: Path) -> Put | None:
    """The list of what is there, or None where there is none."""
    try:
        text = (prefix / MANIFEST).read_text(encoding="utf-8")
    except FileNotFoundError:
        return None
    files: dict[str, list[str]] = {}
    folders = []
    for line in text.splitlines():
        first, _, name = line.partition("  ")
        # (nothing outside of the prefix is ever touched)
        if not name or name.startswith("/") or ".." in name.split("/") or not re.fullmatch("folder|[0-9a-f]{64}", first):
            raise Fault(f"{prefix / MANIFEST} has a line that is none of its list: {line[:100]}")
        if first == "folder":
            folders.append(name)
        else:
            files.setdefault(name, []).append(first)
    return Put(files, folders)


def write_manifest(prefix: Path, made: Put) -> None:
    path = prefix / MANIFEST
    path.parent.mkdir(parents=True, exist_ok=True)
    part = path.with_name(path.name + ".part")
    part.write_text(made.text(), encoding="utf-8")
    part.replace(path)


def digest_at(path: Path) -> str:
    data = os.readlink(path).encode() if path.is_symlink() else path.read_bytes()
    return hashlib.sha256(data).hexdigest()


def remove_files(prefix: Path, files: dict[str, list[str]]) -> list[str]:
    """Removes those that are as they were put there. Gives the others."""
    changed = []
    for name, digests in sorted(files.items()):
        path = prefix / name
        if not os.path.lexists(path):
            continue
        if (path.is_symlink() or path.is_file()) and digest_at(path) in digests:
            path.unlink()
        else:
            changed.append(name)
    return changed


def forget_compiled(prefix: Path) -> None:
    """What the tools below this prefix have compiled for this user: a folder of their version (`out_folder` of uvt.conversation)."""
    try:
        version = (prefix / "lib" / "uvt" / "version").read_text(encoding="ascii").strip()
    except (OSError, ValueError):
        return
    cache = Path(os.environ.get("XDG_CACHE_HOME") or os.path.expanduser("~/.cache")) / "uvt"
    if re.fullmatch(r"\d[\w.~+]*", version):
        shutil.rmtree(cache / version, ignore_errors=True)
    with contextlib.suppress(OSError):
        cache.rmdir()


def uninstall(prefix: Path) -> list[str]:
    made = read_manifest(prefix)
    if made is None:
        packed = (prefix / "lib" / "uvt" / "program").exists()
        raise Fault(
            f"uvt below {prefix} came with a package: what installed that takes it away (apt-get remove uvt)"
            if packed
            else f"nothing was installed below {prefix} by `uvt install`"
        )
    forget_compiled(prefix)
    changed = remove_files(prefix, made.files)
    if changed:
        kept = {name: made.files[name] for name in changed}
        write_manifest(prefix, Put(kept, made.folders))
    else:
        (prefix / MANIFEST).unlink()
    within = {it.as_posix() for name in made.files for it in Path(name).parents if it.as_posix().startswith(OWN)}
    for it in sorted({*made.folders, *within}, key=lambda name: (name == ".", -name.count("/"))):
        # (something else may be in it, or it is gone)
        with contextlib.suppress(OSError):
            (prefix / it).rmdir()
    return changed


def main() -> int:
    if len(sys.argv) != 2 or sys.argv[1].startswith("-"):
        print(__doc__, file=sys.stdout if sys.argv[1:] == ["--help"] else sys.stderr)
        return 0 if sys.argv[1:] == ["--help"] else 2
    prefix = Path(sys.argv[1]).absolute()
    try:
        for name in uninstall(prefix):
            print(f"uvt: {prefix / name} was changed since it was installed, so it stays", file=sys.stderr)
        return 0
    except Fault as fault:
        print(f"uvt: {fault}", file=sys.stderr)
    except OSError as fault:
        print(f"uvt: {fault.filename or prefix}: {fault.strerror}", file=sys.stderr)
    return 70
