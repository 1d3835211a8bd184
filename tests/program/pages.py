"""The commands of README.md, docs/TOUR.md, docs/TOOLS.md, docs/RECORD.md, docs/FIND.md and docs/HUNT.md, each as it stands, in order.

They are typed in a fresh clone, with a home of its own.

A block of text on a page is a block of commands if its first line begins with one of the words of COMMANDS. Each line has to end with
status 0 (or the one of STATUS) and with nothing on the errors, and the block behind it is what its lines print: all of it, or with
lines `..` parts of it. What is not run as it stands:

  the tests   aren't run: `./uvt test` and `.ci/run` are what runs this
  apt-get     isn't run: where no compiler with libuv's header is there, the commands behind it that need one are left out, and that is said;
              so it is with gdb and GNU parallel
  real runs   of ./late, ./stalls, ./upload and of what it becomes, and what is said of their recordings: the figures differ from run to
              run, so numbers count as equal. How much of a time was on the processor, and where on its stack a callback was, is passed over.
              Where the page goes on in another way by its own figures (a `tick`), the recording is that of its own run, whose log is kept
              (tests/tools/logs)
  --beside    of the reader's own recordings: they are made of two logs of one program (tests/tools/beside)
  ./hangup    is a program of the tests, which an installed page hasn't beside it: in place of its run its log is taken (tests/tools/truths)
  packages    `tools/package/pack` and what is done with its files, where the program isn't a proved one: it refuses to pack that

Where the clone has no search that is proved, its first line on the errors says so, and is passed over."""
from __future__ import annotations

import os
import re
import shutil
import subprocess
import tempfile
from pathlib import Path
from typing import NamedTuple, Optional

from tests.helper import ROOT, Check, limited, log_at

PAGES = ("README.md", "docs/TOUR.md", "docs/TOOLS.md", "docs/RECORD.md", "docs/FIND.md", "docs/HUNT.md")
COMMANDS = (
    "./uvt ",
    "uvt ",
    "tools/",
    "tests/",
    ".ci/run",
    "make ",
    "cc ",
    "cp ",
    "ln ",
    "mkdir ",
    "cd ",
    "tar ",
    "printf ",
    "grep ",
    "sed ",
    "cat ",
    "apt-get ",
    "git ",
    "rt ",
    "parallel ",
    "./upload",
    "sh ",
    "until ",
    "kill ",
)
# What doesn't end with status 0: on the real libuv the example goes another way, and the page shows which.
# And a search that answers `never` ends with status 1.
ENDS = {
    "libuv examples/cancel-in-time.uvt": 3,
    # (its callbacks are others now)
    "replay examples/changed-program.rec": 3,
    "find examples/late-timer.uvt 'may tick 40 1' 'may wait' 'find late beat 41'": 1,
    "find examples/debounce.find": 1,
    "find examples/server.find": 1,
    "find examples/pool.find": 1,
    "find examples/starved-pool.find 'may wait' 'find call watchdog 2'": 1,
    "find examples/starved-pool.find 'may wait' 'find call watchdog 2' --full": 1,
    # (what is hunted ends badly)
    "hunt ./upload": 3,
    "force upload.hunt.uvt ./upload 2>&1": 3,
    "hunt --for 10m --seed 7 --report race.sarif --report race.xml -o race ./upload": 3,
    "force --test race.uvt ./upload": 3,
    "force --test race.uvt ./other": 77,
    "find examples/frame.rec 'find late vsync 52'": 1,
    "worst --within 'vsync 50' examples/frame.rec": 1,
}
STATUS = {"%s %s" % (uvt, words): status for words, status in ENDS.items() for uvt in ("./uvt", "uvt")}
# What says something on the errors, and is well.
SAYS = {"./uvt build": "uvt: the program is built already, and nothing has changed since\n"}
BROUGHT = (
    "uvt find: no line says `may`, so what came in the recording may come at other places: %s; the clock goes to %d ms, and a "
    "callback's time goes by at its end\n"
    "uvt find: each callback does what it did in the recording, also where the program would do something else\n"
)
ECHO = BROUGHT % ("14 callbacks of I/O, 1 time that went by in no callback, 3 callbacks that took time", 106)
FRAME = BROUGHT % ("3 times that went by in no callback, 1 callback that took time", 144)
NEAR = (
    "uvt find: each callback does what it did in the recording, also where the program would do something else\n"
    "uvt find: `may differ 1`: so many of the steps from outside in examples/frame.rec may come at another place, those of one name, of one "
    "worker or of the clock in their order; each other one comes at its place, or as soon after it as the loop accepts it\n"
)
SAYS.update({"%s replay examples/changed-program.rec" % uvt: "uvt: differs at 1\n" for uvt in ("./uvt", "uvt")})
SAYS.update(
    {
        "%s %s" % (uvt, words): said
        for uvt in ("./uvt", "uvt")
        for words, said in (
            ("find examples/echo.rec 'find late heartbeat 25' -o beat.uvt", ECHO),
            ("find examples/frame.rec 'find late vsync 51' -o frame.uvt", FRAME),
            ("find examples/frame.rec 'find late vsync 52'", FRAME),
            ("find examples/frame.rec 'may differ 1' 'find late vsync 45' -o near.uvt", NEAR),
            ("find examples/frame.rec 'find latest vsync' -o worst.uvt", FRAME),
        )
    }
)
# The line of a program that was compiled before its proofs.
NOTICE = re.compile(r"uvt: this is the program before its proofs: .*\n")
# What is said once of the parts in C that are compiled for a first recording, and a first order that is forced.
COMPILED = re.compile(r"uvt: compiling [a-z ]+, once \([\d.]+ s\)\n")
LOG = ROOT / "tests" / "tools" / "logs" / "late.log"
# The reader's own two recordings, and the modes of one program whose logs stand in for them.
BESIDE = {"good": "base", "bad": "lock"}
BESIDES = Path(__file__).resolve().parent.parent / "tools" / "beside"
HUNG = ROOT / "tests" / "tools" / "truths" / "hangup.log"
# What is said of a time of a real run whose thread waited for a processor meanwhile, and where on its stack the callback was found.
BUSY = re.compile(
    r"( \(\d+ ms of that others had the processor\))?(, (\d+|none) of them on the processor)?"
    r"(: the thread waited \d+ ms for a processor(, and was pushed off it (once|\d+ times))?)?"
    r"([:;] (nearly all|most) of (it|its time on the processor) in [^;\n]*)?"
)
# What stands in a command that runs a program, or asks of a run.
REAL = ("./late", "late.rec", "./upload", "upload.hunt", "race.uvt", "stalls.")
# So often more a real run may go another way than the page shows.
AGAIN = 8
# What of out/ goes along: other tests are at work in the copy.
KEPT = {"uvt", "uvt_find"}
# Of README.md.
MOST_LINES = 200


class Block(NamedTuple):
    page: str
    line: int
    commands: list[str]
    shown: Optional[str]


def without_comments(text: str) -> str:
    """The page as its readers see it, with as many lines."""
    return re.sub(r"^<!--.*?-->$", lambda it: it[0].count("\n") * "\n", text, flags=re.DOTALL | re.MULTILINE)


def blocks_of(text: str, page: str) -> list[Block]:
    """The blocks of commands of a page, each with what it prints if that stands behind it. What only installed pages show stands in comments."""
    text = without_comments(text)
    blocks = [(text[: it.start()].count("\n") + 1, it[1]) for it in re.finditer(r"^```text\n(.*?)^```$", text, re.DOTALL | re.MULTILINE)]
    found = []
    for at, (line, block) in enumerate(blocks):
        if not block.startswith(COMMANDS):
            continue
        behind = blocks[at + 1][1] if at + 1 < len(blocks) else ""
        lines = block.splitlines()
        writes = any(" > " in it for it in lines) or all(
            it.startswith(("cp ", "ln ", "mkdir ", "cd ", "apt-get ", "cc ", "tools/package/pack", "tar ")) or it == "./uvt build"
            for it in lines[-1:]
        )
        found.append(Block(page, line, lines, None if writes or behind.startswith(COMMANDS) else behind))
    return found


def mixed_lines(text: str) -> list[str]:
    """Lines of commands in blocks that don't begin with one, or the other way round: nobody would run them."""
    found = []
    for block in re.findall(r"^```text\n(.*?)^```$", without_comments(text), re.DOTALL | re.MULTILINE):
        are = [it.startswith(COMMANDS) for it in block.splitlines()]
        if any(are) and not all(are):
            found += [it for it, is_one in zip(block.splitlines(), are) if is_one != are[0]]
    return found


def has_libuv() -> bool:
    if not shutil.which("cc"):
        return False
    return subprocess.run(["cc", "-E", "-x", "c", "-"], input="#include <uv.h>\n", capture_output=True, text=True).returncode == 0


def is_shown(shown: str, output: str) -> bool:
    """Whether the parts, with lines `..` between them, stand in the output one behind the other; all of it where there is no `..`."""
    if "\n..\n" not in "\n" + shown:
        return shown == output
    at = 0
    for part in filter(None, (it.strip("\n") for it in ("\n" + shown).split("\n..\n"))):
        at = ("\n" + output).find("\n" + part + "\n", at)
        if at < 0:
            return False
    return True


def without_numbers(text: str) -> str:
    return re.sub(r"\d+(, \d+)*", "N", BUSY.sub("", text))


def is_like(shown: str, output: str) -> bool:
    """The same of a real run: each line that is shown stands in the output, in this order, numbers aside."""
    lines, at = without_numbers(output).splitlines(), 0
    for line in without_numbers(shown).splitlines():
        if line == "..":
            continue
        if line not in lines[at:]:
            return False
        at = lines.index(line, at) + 1
    return True


class Walker:
    """Somebody who types the commands of the pages, one after another."""

    def __init__(self, check: Check, command: str, folder: str, home: str, env: dict[str, str], proved: bool) -> None:
        self.check, self.folder, self.proved = check, folder, proved
        self.env = {**env, "HOME": home, "LC_ALL": "C"}
        self.left_out: list[str] = []
        self.libuv = has_libuv()
        self.recorded = ""
        self.command = command
        self.has_search = os.path.exists(os.path.join(folder, "out", "uvt_find", "uvt_find"))
        self.count = 0

    def why_left_out(self, command: str) -> str:
        if command.startswith("apt-get "):
            return "it changes the machine"
        if command in ("./uvt test", ".ci/run"):
            return "it is what runs this"
        if not self.libuv and re.search(r"^cc |record |late\.rec|hangup\.rec|uvt libuv |upload|stalls\.", command):
            return "there is no C compiler `cc` with libuv's header"
        for word, package in (("gdb", "gdb"), ("parallel", "parallel")):
            if re.search(r"(^| )%s " % word, command) and not shutil.which(word):
                return "there is no %s (Debian: %s)" % (word, package)
        if " --join " in command and not shutil.which("parallel"):
            return "what it joins is made by parallel, which isn't there"
        if not self.proved and re.match(r"tools/package/pack |tar ", command):
            return "the program is none that was proved"
        return ""

    def type(self, block: Block) -> str:
        """Runs the lines of a block, and gives what they print."""
        output = ""
        for command in block.commands:
            why = self.why_left_out(command)
            if why:
                self.left_out.append("%s (%s)" % (command, why))
                continue
            # (whoever is given a package stands where its file is)
            folder = os.path.join(self.folder, "out", "packages") if command.startswith("tar ") else self.folder
            ended = self.run(self.of_kept_program(command), folder)
            self.count += 1
            what = "%s:%d: %s" % (block.page, block.line, command)
            self.check(what, ended.returncode == STATUS.get(command, 0), "got %r" % ((ended.returncode, ended.stdout, ended.stderr),))
            errors = NOTICE.sub("", ended.stderr) if re.search("uvt (find|hunt|worst) ", command) and not self.has_search else ended.stderr
            errors = COMPILED.sub("", errors)
            self.check(what + ", its errors", errors == SAYS.get(command, ""), "got %r" % errors)
            output += ended.stdout
            if command.endswith("uvt record ./late"):
                self.recorded = command
        return output

    def of_kept_program(self, command: str) -> str:
        """The same with a kept log in place of the run, where the program is one of the tests."""
        if command.endswith(" --beside good.rec bad.rec"):
            for name, mode in BESIDE.items():
                shutil.copy(log_at(BESIDES / f"{mode}.log"), self.folder)
                self.run(f"{self.command} record -o {name} --log {mode}.log", self.folder)
        if not command.endswith(" record ./hangup"):
            return command
        shutil.copy(log_at(HUNG), self.folder)
        return command.replace("./hangup", "-o hangup --log %s" % HUNG.name)

    def of_kept_log(self, block: Block) -> None:
        shutil.copy(log_at(LOG), os.path.join(self.folder, "kept.log"))
        made = self.run(self.command + " record -o late --log kept.log", self.folder)
        self.check("%s:%d: the recording of the kept log" % (block.page, block.line), made.returncode == 0, "got %r" % (made,))
        output = self.type(block)
        holds = is_shown(block.shown or "", output)
        self.check("%s:%d: what is shown behind it" % (block.page, block.line), holds, "wanted %r, got %r" % (block.shown, output))

    def run(self, command: str, folder: str) -> "subprocess.CompletedProcess[str]":
        with tempfile.NamedTemporaryFile("r") as where:
            ended = limited(
                ["sh", "-c", '%s\nstatus=$?\npwd >"$WHERE"\nexit $status' % command],
                cwd=folder,
                env={**self.env, "WHERE": where.name},
                capture_output=True,
                text=True,
            )
            if command.startswith("cd "):
                self.folder = where.read().strip() or self.folder
        return ended

    def walk(self, block: Block) -> None:
        before = len(self.left_out)
        if any("tick" in it and "late.rec" in it for it in block.commands):
            self.of_kept_log(block)
            return
        output = self.type(block)
        if block.shown is None or len(self.left_out) > before:
            return
        real = any(it in command for it in REAL for command in block.commands)
        holds = is_like(block.shown, output) if real else is_shown(block.shown, output)
        for _ in range(AGAIN):
            # (on a machine that does much else a run may go another way: it is recorded once more)
            if real and not holds:
                self.run(self.recorded, self.folder)
                output = self.type(block)
                holds = is_like(block.shown, output)
        self.check("%s:%d: what is shown behind it" % (block.page, block.line), holds, "wanted %r, got %r" % (block.shown, output))


def untracked(names: list[str]) -> list[str]:
    """Those of these files of the top folder that git doesn't ignore."""
    ended = subprocess.run(["git", "check-ignore", "--no-index", "--", *names, "out"], cwd=ROOT, capture_output=True, text=True)
    return [it for it in names if it not in ended.stdout.split("\n")]


def try_commands(check: Check, copy: str, room: str, proved: bool) -> None:
    """The copy has a program already, as behind the first command."""
    folder, home = os.path.join(room, "clone"), os.path.join(room, "home")
    os.mkdir(home)
    shutil.copytree(copy, folder, symlinks=True, ignore=lambda at, names: {*names} - KEPT if at == os.path.join(copy, "out") else {".pytest_cache"})
    walker = Walker(check, "./uvt", folder, home, dict(os.environ), proved)
    lines = Path(folder, "README.md").read_text(encoding="utf-8").count("\n")
    check("README.md is a front page", lines <= MOST_LINES, "it has %d lines" % lines)
    named = set(re.findall(r"[a-z-]+\.uvt", Path(folder, "docs", "TOUR.md").read_text(encoding="utf-8")))
    scripts = {it.name for it in Path(folder, "examples").glob("*.uvt")}
    check("docs/TOUR.md has each script of examples/, and no other", named == scripts, "got %r" % sorted(named ^ scripts))
    for name in PAGES:
        text = Path(folder, name).read_text(encoding="utf-8")
        check("%s: lines of commands among others" % name, not mixed_lines(text), "got %r" % mixed_lines(text))
        blocks = blocks_of(text, name)
        check("%s shows commands" % name, len(blocks) > 2)
        for block in blocks:
            walker.walk(block)
    for it in walker.left_out:
        print("program: the pages: not run: " + it, flush=True)
    left = untracked(sorted(set(os.listdir(folder)) - set(os.listdir(copy))))
    check("the pages' commands leave nothing that git would list", not left, left)
    check("the pages: most commands were run", walker.count > 12, "only %d" % walker.count)
