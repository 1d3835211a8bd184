"""Builds the program over each machine: as it is, and a copy of the repository in which it names the plain loop."""
import os
import re
import shutil
import subprocess
import tempfile

HERE = os.path.dirname(os.path.realpath(__file__))
ROOT = os.path.dirname(os.path.dirname(HERE))
PROGRAM = "crates/uvt/src/main.rt"
# the crate that is proved anew in the copy
CHANGED = ["uvt"]


def edit(path, *pairs):
    """Each pattern stands there; what it finds is replaced."""
    with open(path, encoding="utf-8") as file:
        text = file.read()
    for pattern, new in pairs:
        text, count = re.subn(pattern, new, text)
        if not count:
            raise SystemExit("machines: %s has no %s" % (path, pattern))
    with open(path, "w", encoding="utf-8") as file:
        file.write(text)


def copy_to(folder):
    """The files of the repository, and what the kit has built of its crates, so that only those that changed are proved anew."""
    names = subprocess.run(
        ["git", "ls-files", "-z", "--cached", "--others", "--exclude-standard"], cwd=ROOT, stdout=subprocess.PIPE, check=True
    ).stdout.split(b"\0")
    for name in sorted(os.fsdecode(name) for name in names if name):
        source, target = os.path.join(ROOT, name), os.path.join(folder, name)
        if os.path.isfile(source):
            os.makedirs(os.path.dirname(target), exist_ok=True)
            shutil.copy2(source, target)
    for crate in os.listdir(os.path.join(ROOT, "crates")):
        kept = os.path.join(ROOT, "crates", crate, "out")
        for part in ["rlib"] + ["incremental"] * (crate in CHANGED):
            if os.path.isdir(os.path.join(kept, part)):
                shutil.copytree(os.path.join(kept, part), os.path.join(folder, "crates", crate, "out", part), symlinks=True)


def launch(root):
    """Has the launcher prove and build the program, and gives its path."""
    ended = subprocess.run([os.path.join(root, "uvt"), "build"], stdout=subprocess.DEVNULL)
    if ended.returncode:
        raise SystemExit("machines: the program was not built")
    return os.path.join(root, "out", "uvt", "uvt")


def build_arena(folder):
    """Leaves the program as it is there as `arena`, and gives its path."""
    return shutil.copy2(launch(ROOT), os.path.join(folder, "arena"))


def name_plain(root):
    """Has the program of this copy name the plain loop."""
    edit(os.path.join(root, PROGRAM), ("use uv_loop::ArenaLoop;", "use uv_plain::PlainLoop;"), (r"\bArenaLoop\b", "PlainLoop"))
    edit(os.path.join(root, "crates.txt"), (r"(?m)^(uvt\b[^\n]*) uv_loop\b", r"\1 uv_plain"))


def build_plain(folder):
    """Leaves the program over the plain loop there as `plain`, and gives its path."""
    with tempfile.TemporaryDirectory(prefix="uvt-plain-") as copy:
        copy_to(copy)
        name_plain(copy)
        return shutil.copy2(launch(copy), os.path.join(folder, "plain"))


def build(folder):
    return [build_arena(folder), build_plain(folder)]
