"""Installs the proved program and the tools around it, or packs them for machines without the kit.

  tools/package/pack install PROGRAM PREFIX   PREFIX/bin/uvt, and what it needs in PREFIX/lib/uvt and PREFIX/share (./uvt install PREFIX)
  tools/package/pack deb FOLDER               FOLDER/uvt_VERSION_ARCHITECTURE.deb (this needs dpkg-deb)
  tools/package/pack source FOLDER            FOLDER/uvt_VERSION.dsc and .tar.xz (this needs dpkg-source): the sources alone, proved or not
  tools/package/pack tree FOLDER              what the Debian package has below /usr, for its debian/rules
  tools/package/pack tar FOLDER               FOLDER/uvt-VERSION-ARCHITECTURE.tar.gz, to be unpacked below any PREFIX

The program is the one that ./uvt build has built, of the sources as they are: one before its proofs is refused. The search is in it where
./uvt build find has built that. It links nothing but the C library. The tools take Python from 3.10 on; without it `uvt debug`, `replay` and
`live` are what they are with it, save that a bad line isn't explained. What was proved stands beside it, in share/doc/uvt/proof: the kit's
line, and the SHA-256 of each source and of the program. `./uvt uninstall PREFIX`, or `uvt uninstall`, takes away what was installed
(tools/package/uninstall.py).
"""

from __future__ import annotations

import argparse
import gzip
import hashlib
import io
import os
import sys
import tarfile
from pathlib import Path

from package import debian
from package.contents import Item, Items, architecture, items_of, made_at, proved_program, put_all, version
from package.uninstall import MANIFEST, Fault, Put, forget_compiled, read_manifest, remove_files, write_manifest

# Where the pages of a tar file say that they lie: that is where README.md unpacks it.
TAR_PREFIX = "~/.local"


def digest_of(item: Item) -> str:
    return hashlib.sha256(item.link.encode() if item.link else item.data).hexdigest()


def folders_of(prefix: Path, items: Items) -> list[str]:
    """The folders that aren't there yet."""
    found = {it.as_posix() for name in [*items, MANIFEST] for it in Path(name).parents}
    return sorted(it for it in found if not (prefix / it).is_dir())


def folder_named(text: str) -> Path:
    if not text:
        raise argparse.ArgumentTypeError("an empty name is no folder")
    try:
        # (the pages name it)
        text.encode()
    except UnicodeEncodeError:
        raise argparse.ArgumentTypeError("the folder's name is no text in UTF-8") from None
    return Path(text)


def install(program: Path, prefix: Path) -> None:
    prefix = prefix.absolute()
    items = items_of(program, str(prefix), packed=False)
    before = read_manifest(prefix) or Put({}, [])
    foreign = [name for name in items if os.path.lexists(prefix / name) and name not in before.files]
    if foreign:
        raise Fault(f"{prefix / foreign[0]} is there, and was not put there by `uvt install`: nothing was changed")
    made = Put({name: [digest_of(it)] for name, it in items.items()}, sorted({*before.folders, *folders_of(prefix, items)}))
    both = Put({name: before.files.get(name, []) + made.files.get(name, []) for name in {**before.files, **made.files}}, made.folders)
    # (what is under way is in the list: whoever is stopped here can uninstall, or install again)
    write_manifest(prefix, both)
    forget_compiled(prefix)
    put_all(prefix, items)
    remove_files(prefix, {name: sums for name, sums in before.files.items() if name not in items})
    write_manifest(prefix, made)


def tar(folder: Path) -> Path:
    items = items_of(proved_program(), TAR_PREFIX, packed=False)
    manifest = Put({name: [digest_of(it)] for name, it in items.items()}, [])
    items[MANIFEST] = Item(manifest.text().encode())
    top = f"uvt-{version()}-{architecture()}"
    epoch = made_at()
    target = folder / f"{top}.tar.gz"
    stream = io.BytesIO()
    with tarfile.open(fileobj=stream, mode="w", format=tarfile.GNU_FORMAT) as archive:
        for name, item in items.items():
            entry = tarfile.TarInfo(f"{top}/{name}")
            entry.mtime, entry.mode, entry.uname, entry.gname = epoch, item.mode, "root", "root"
            if item.link:
                entry.type, entry.linkname = tarfile.SYMTYPE, item.link
            entry.size = len(item.data)
            archive.addfile(entry, io.BytesIO(item.data))
    part = target.with_name(target.name + ".part")
    try:
        part.write_bytes(gzip.compress(stream.getvalue(), 9, mtime=0))
        part.replace(target)
    except OSError:
        part.unlink(missing_ok=True)
        raise
    return target


def main() -> int:
    reader = argparse.ArgumentParser(description=__doc__, formatter_class=argparse.RawDescriptionHelpFormatter)
    verbs = reader.add_subparsers(dest="verb", required=True, metavar="install|deb|tar|source|tree")
    one = verbs.add_parser("install", help="installs below PREFIX")
    one.add_argument("program", metavar="PROGRAM", type=Path)
    one.add_argument("prefix", metavar="PREFIX", type=folder_named)
    for name, what in (
        ("deb", "makes a deb file in FOLDER"),
        ("tar", "makes a tar file in FOLDER"),
        ("source", "makes Debian's source package in FOLDER"),
    ):
        verbs.add_parser(name, help=what).add_argument("folder", metavar="FOLDER", type=Path)
    verbs.add_parser("tree", help="lays out in FOLDER what the Debian package has").add_argument("folder", metavar="FOLDER", type=Path)
    asked = reader.parse_args()
    os.umask(0o022)
    try:
        if asked.verb == "install":
            install(asked.program, asked.prefix)
            return 0
        if asked.verb == "tree":
            debian.tree(asked.folder)
            return 0
        if not asked.folder.is_dir():
            raise Fault(f"there is no folder {asked.folder}")
        print({"deb": debian.deb, "tar": tar, "source": debian.source}[asked.verb](asked.folder))
        return 0
    except Fault as fault:
        print(f"uvt: {fault}", file=sys.stderr)
    except OSError as fault:
        print(f"uvt: {fault.filename or 'the package'}: {fault.strerror}", file=sys.stderr)
    return 70
