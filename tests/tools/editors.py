"""Tries the extension for VS Code (tools/uvt/vscode) without an editor: its files beside the fields that VS Code publishes, its colours of
scripts beside the program, and the adapter as its manifest starts it."""

from __future__ import annotations

import json
import re
import shutil
import tempfile
from pathlib import Path
from typing import Any

from tests.helper import Check, Tries
from tests.tools.daps import EXAMPLES, Client, fits
from uvt.conversation import Conversation, Fault, Script
from uvt.inputs import read_input

ROOT = Path(__file__).resolve().parent.parent.parent
FOLDER = ROOT / "tools" / "uvt" / "vscode"

# ---- the fields of a manifest and of its files, as VS Code publishes them; `?` where one may be missing

LANGUAGE = {"id": str, "aliases?": [str], "extensions?": [str], "filenames?": [str], "firstLine?": str, "configuration?": str}
SNIPPET = {"label": str, "description?": str, "body": dict}
DEBUGGER = {
    "type": str,
    "label?": str,
    "languages?": [str],
    "program?": str,
    "args?": [str],
    "runtime?": str,
    "runtimeArgs?": [str],
    "variables?": dict,
    "configurationAttributes?": {"launch?": {"required?": [str], "properties?": dict}, "attach?": dict},
    "initialConfigurations?": [dict],
    "configurationSnippets?": [SNIPPET],
}
MANIFEST = {
    "name": str,
    "displayName?": str,
    "description?": str,
    "version": str,
    "publisher": str,
    "engines": {"vscode": str},
    "categories?": [str],
    "activationEvents?": [str],
    "main?": str,
    "contributes": {
        "languages?": [LANGUAGE],
        "grammars?": [{"language?": str, "scopeName": str, "path": str, "embeddedLanguages?": dict}],
        "breakpoints?": [{"language": str}],
        "debuggers?": [DEBUGGER],
    },
}
CATEGORIES = {"Programming Languages", "Snippets", "Linters", "Themes", "Debuggers", "Formatters", "Keymaps", "Other"}
CONFIGURATION = {"comments?": {"lineComment?": str, "blockComment?": [str]}, "brackets?": [[str]], "wordPattern?": str}
ROOT_OF_GRAMMAR = {"name?": str, "scopeName": str, "fileTypes?": [str], "firstLineMatch?": str, "patterns": [dict], "repository?": dict}
RULE = {
    "name?": str,
    "contentName?": str,
    "match?": str,
    "captures?": dict,
    "begin?": str,
    "end?": str,
    "beginCaptures?": dict,
    "endCaptures?": dict,
    "patterns?": [dict],
    "include?": str,
}
# What of a regular expression Oniguruma, Python and JavaScript have in common, and in the same sense.
COMMON = re.compile(r"(\\[.]|\(\?[:!=]|[()^$|+*?.]|\[[a-zA-Z0-9_-]+\]|\{\d+(,\d+)?\}|[A-Za-z0-9_ @#])*")


def read_json(path: Path) -> dict:
    return json.loads(path.read_text(encoding="utf-8"))


def try_manifest(check: Check) -> None:
    found = read_json(FOLDER / "package.json")
    check("vscode, the manifest's fields", fits(found, MANIFEST), found)
    check("vscode, its name and version", re.fullmatch("[a-z0-9-]+", found["name"]) and re.fullmatch(r"\d+\.\d+\.\d+", found["version"]))
    check("vscode, the editor's version", re.fullmatch(r"\^1\.\d+\.\d+", found["engines"]["vscode"]))
    check("vscode, its categories", set(found["categories"]) <= CATEGORIES, found["categories"])
    gives = found["contributes"]
    language, grammar, debugger = gives["languages"][0], gives["grammars"][0], gives["debuggers"][0]
    check("vscode, the files of the language", language["extensions"] == [".uvt", ".live", ".rec"], language)
    first = language["firstLine"]
    check("vscode, a recording's first line", all(re.search(first, it) for it in ("uvt 1", "uvt 2", "uvt 3")) and COMMON.fullmatch(first))
    named = [grammar["language"], gives["breakpoints"][0]["language"], *debugger["languages"]]
    check("vscode, the language is one", set(named) == {language["id"]}, named)
    for path in (language["configuration"], grammar["path"]):
        check(f"vscode, {path} is there", path.startswith("./") and (FOLDER / path).is_file())
    configuration = read_json(FOLDER / language["configuration"])
    check("vscode, the language's configuration", fits(configuration, CONFIGURATION) and configuration["comments"] == {"lineComment": "#"})
    words = [it[0] for it in re.finditer(configuration["wordPattern"], "main start a_1 5 0")]
    check("vscode, what a word is", words == ["main", "start", "a_1", "5", "0"] and COMMON.fullmatch(configuration["wordPattern"]), words)
    launch = debugger["configurationAttributes"]["launch"]
    for it in [*debugger["initialConfigurations"], *(it["body"] for it in debugger["configurationSnippets"])]:
        rest = it.keys() - {"type", "request", "name"}
        good = it["type"] == debugger["type"] and it["request"] == "launch" and set(launch["required"]) <= rest <= launch["properties"].keys()
        check("vscode, a launch configuration", good, it)


# ---- the colours


def rules_in(value: Any) -> list[dict]:
    """Each rule of a grammar, wherever it stands."""
    if isinstance(value, list):
        return [it for part in value for it in rules_in(part)]
    rows = [
        it
        for name, part in value.items()
        if name in ("patterns", "repository")
        for it in (rules_in(list(part.values()) if isinstance(part, dict) else part))
    ]
    return [value, *rows]


class Colours:
    """The scope of each character of a text's lines, as a TextMate grammar gives them: of the rules at hand the one that matches first."""

    def __init__(self, grammar: dict) -> None:
        self.grammar = grammar
        self.stack: list[dict] = [grammar]

    def at_hand(self, patterns: list[dict]) -> list[dict]:
        found = []
        for rule in patterns:
            rule = self.grammar["repository"][rule["include"].removeprefix("#")] if "include" in rule else rule
            found += [rule] if "match" in rule or "begin" in rule else self.at_hand(rule["patterns"])
        return found

    def of_line(self, line: str) -> list[str]:
        # (an editor hands a line over with its line feed)
        text, at, scopes = line + "\n", 0, [""] * len(line)
        while True:
            ends: list[dict] = [{"match": self.stack[-1]["end"], "closes": True}] if "end" in self.stack[-1] else []
            found = [(re.compile(it.get("match", it.get("begin"))).search(text, at), it) for it in [*ends, *self.at_hand(self.stack[-1]["patterns"])]]
            none: tuple[Any, dict] = (None, {})
            match, rule = min((it for it in found if it[0]), key=lambda it: it[0].start(), default=none)
            if match is None or (match.end() == at and "begin" not in rule):
                return scopes
            scopes[match.start() : match.end()] = [rule.get("name", "")] * len(match[0])
            for number, it in (rule.get("captures") or rule.get("beginCaptures") or {}).items():
                begin, end = match.span(int(number))
                scopes[begin:end] = [it["name"]] * (end - begin)
            if "begin" in rule:
                self.stack.append(rule)
            elif "closes" in rule:
                self.stack.pop()
            at = match.end()


def coloured(grammar: dict, lines: list[str]) -> list[list[str]]:
    colours = Colours(grammar)
    return [colours.of_line(it) for it in lines]


def is_told(line: str, scopes: list[str]) -> bool:
    """Whether each word of a line has a scope, and none is that of a bad line."""
    return all(scope and not scope.startswith("invalid") for letter, scope in zip(line, scopes) if letter != " ")


def is_bad(scopes: list[str]) -> bool:
    return all(it.startswith("invalid") for it in scopes)


def try_grammar(check: Check, grammar: dict) -> None:
    check("vscode, the grammar's fields", fits(grammar, ROOT_OF_GRAMMAR), list(grammar))
    for rule in rules_in(grammar["patterns"]) + rules_in(list(grammar["repository"].values())):
        check("vscode, a rule's fields", fits(rule, RULE) and ("begin" in rule) == ("end" in rule), rule)
        if "include" in rule:
            check("vscode, what a rule includes", rule["include"].removeprefix("#") in grammar["repository"], rule)
        for name in ("match", "begin", "end"):
            if name in rule:
                check("vscode, a regular expression", COMMON.fullmatch(rule[name]), rule[name])
        count = re.compile(rule.get("match", rule.get("begin", ""))).groups
        captures = rule.get("captures") or rule.get("beginCaptures") or {}
        numbered = [str(it) for it in range(1, count + 1)] == list(captures)
        named = all(re.fullmatch(r"[a-z]+(\.[a-z-]+)+\.uvt", it["name"]) for it in captures.values())
        check("vscode, a name for each group", numbered and named, rule)


# Lines that are none, by the rules of scripts and of commands, with one declared name, `a`, behind the line `io`. The program refuses them too.
WRONG_LINES = [
    "order",
    "order 1.43",
    "order 1.44 1.45",
    "main strat a 1 0",
    "main init a tmier",
    "on a run default",
    "on a closeloop",
    "main start a 1",
    "var A",
    "main  now",
    "main now ",
    "workers",
    "slots",
    "after a @ now",
    "thread 0 close a",
    "uvt 4",
    "io a",
    "timers",
    "timers late",
    "main io a",
    "heap",
    "main",
    "on now",
    "main queue a",
    "main repeat a",
    "loop",
    "main run",
    "main run forever",
    "main stoploop a",
    "slots 1 2 3",
    " # a space in front",
    "on a @2",
    "main queue a 5  " + "x" * 64,
]
WRONG_COMMANDS = [
    "lop",
    "loop x",
    "break code EBUZY",
    "break section timer",
    "rback 1",
    "step",
    "tick",
    "take",
    "send",
    "break",
    "break call",
    "main now",
    "begin",
    "state now",
    "finish",
    "cancel",
    "forward",
    "back",
    "io",
    "io 1",
    "timers heap",
]
# And one of each kind that is.
RIGHT_LINES = [
    "order 1.44",
    "order 1.45",
    "timers heap",
    "main init a io",
    "on a @3 init a io",
    "slots 5",
    "slots 5 2",
    "workers 3",
    "var b",
    "thread 3 send a",
    "main run once",
    "main run nowait",
    "main run default",
    "main closeloop",
    *(
        f"{front} {op}"
        for front in ("main", "on a", "after a @2", "closed a @13")
        for op in (
            "init a timer",
            "init a idle",
            "init a prepare",
            "init a check",
            "init a async",
            "start a 5 10",
            "start a",
            "stop a",
            "again a",
            "repeat a 5",
            "due a",
            "ref a",
            "unref a",
            "hasref a",
            "active a",
            "closing a",
            "close a",
            "send a",
            "queue a 5",
            "queue a 5 a  text ",
            "queue a 5 on a now",
            "cancel a",
            "stoploop",
            "updatetime",
            "now",
            "alive",
            "timeout",
        )
    ),
]
# (`calls` is a bad command of a script, and begins a part of a recording. The colours don't tell the two apart.)
RIGHT_COMMANDS = [
    "loop",
    "loop 5",
    "tick 5",
    "take 0",
    "finish 1",
    "cancel a",
    "send a",
    "io a",
    "back 1",
    "forward 1",
    "break call a",
    "break clear",
    "rback",
    *(f"break code {it}" for it in ("ok", "EINVAL", "EBUSY", "ECANCELED", "EBOUND", "EFULL", "ESTALE", "EKIND")),
    *(f"break section {it}" for it in ("pending", "idle", "prepare", "poll", "done", "async", "check", "closing", "timers")),
    "trace",
    "walk",
    "state",
    "image",
    "record",
]


def is_script(lines: list[str]) -> bool:
    try:
        with Conversation(Script(lines)):
            return True
    except Fault:
        return False


def try_lines(check: Check, grammar: dict) -> None:
    """Lines that are one, and lines that are none: the program and the colours agree."""
    for line in RIGHT_LINES:
        check(f"vscode, `{line}`", is_script(["io", "var a", line]) and is_told(line, coloured(grammar, [line])[0]), coloured(grammar, [line]))
    for line in WRONG_LINES:
        check(f"vscode, not `{line}`", not is_script(["io", "var a", line]) and is_bad(coloured(grammar, [line])[0]), coloured(grammar, [line]))
    with Conversation(Script(["io", "var a"])) as talk:
        for right, lines in ((True, RIGHT_COMMANDS), (False, WRONG_COMMANDS)):
            for line in lines:
                scopes = coloured(grammar, ["begin", line])[1]
                good = is_told(line, scopes) if right else is_bad(scopes)
                check(f"vscode, the command `{line}`", good and (talk.ask(line) != ["bad command"]) == right, scopes)


def try_files(check: Check, grammar: dict) -> None:
    """Each line of each example, and of the recording of each."""
    for path in sorted(it for it in EXAMPLES.iterdir() if it.suffix in (".uvt", ".live", ".rec")):
        script, commands = read_input(path)
        with Conversation(script) as talk:
            for it in commands:
                talk.ask(it)
            texts = [path.read_text().splitlines(), talk.ask("record")]
        for lines in texts:
            for line, scopes in zip(lines, coloured(grammar, lines)):
                good = scopes[0].startswith("comment") if line.startswith("#") else is_told(line, scopes)
                check(f"vscode, a line of {path.name}", not line or good, (line, scopes))


# By hand: what the words of a line are.
SCOPES = [
    ("var beat", ["storage.type.name", "variable.other.declaration"]),
    ("main start beat 15 0", ["keyword.control.main", "support.function.op", "variable.other", "constant.numeric", "constant.numeric"]),
    (
        "closed a @2 init b check",
        ["keyword.control.list", "variable.other", "constant.numeric.call", "support.function.op", "variable.other", "support.type.kind"],
    ),
    ("main queue a 5 now", ["keyword.control.main", "support.function.op", "variable.other", "constant.numeric", "string.unquoted.text"]),
    ("io", ["storage.modifier.io"]),
    ("timers heap", ["storage.modifier.timers", "constant.language.heap"]),
    ("on a init b io", ["keyword.control.list", "variable.other", "support.function.op", "variable.other", "support.type.kind"]),
    ("begin", ["keyword.control.begin"]),
    ("break code EBUSY", ["keyword.other.command", "keyword.other.command", "constant.language.code"]),
    ("break section closing", ["keyword.other.command", "keyword.other.command", "support.constant.section"]),
    ("cancel a", ["keyword.other.command", "variable.other"]),
    ("io a", ["keyword.other.command", "variable.other"]),
    ("calls", ["keyword.control.calls"]),
    ("after a 1.0 ECANCELED", ["keyword.control.called", "variable.other", "constant.numeric.id", "constant.language.code"]),
]


def try_scopes(check: Check, grammar: dict) -> None:
    lines = [it for it, _ in SCOPES]
    for (line, wanted), scopes in zip(SCOPES, coloured(grammar, lines)):
        begins = [0, *(at + 1 for at, letter in enumerate(line) if letter == " ")]
        found = [scopes[it].removesuffix(".uvt") for it in begins]
        check(f"vscode, the scopes of `{line}`", found == wanted, found)


# ---- the adapter


def try_copied(check: Check) -> None:
    """The folder copied as the page says, and then what the editor asks of the adapter that its manifest names."""
    with tempfile.TemporaryDirectory() as name:
        folder = Path(name) / "uvt"
        shutil.copytree(FOLDER, folder)
        (folder / "uvt-dap").symlink_to(ROOT / "tools" / "uvt" / "uvt-dap")
        debugger = read_json(folder / "package.json")["contributes"]["debuggers"][0]
        client = Client(check, str(folder / debugger["program"]))
        path = EXAMPLES / "late-timer.uvt"
        client.ask(
            "initialize",
            clientID="vscode",
            clientName="Visual Studio Code",
            adapterID=debugger["type"],
            pathFormat="path",
            linesStartAt1=True,
            columnsStartAt1=True,
            supportsVariableType=True,
            supportsRunInTerminalRequest=True,
            locale="en",
        )
        configuration = {name: value.replace("${file}", str(path)) for name, value in debugger["initialConfigurations"][0].items()}
        client.ask("launch", **configuration, __sessionId="1")
        client.until("initialized")
        source = {"name": path.name, "path": str(path)}
        shown = client.ask("setBreakpoints", source=source, lines=[17], breakpoints=[{"line": 17}], sourceModified=False)["breakpoints"]
        check("vscode, a breakpoint", shown == [{"verified": True, "line": 17}], shown)
        client.ask("setFunctionBreakpoints", breakpoints=[])
        client.ask("setExceptionBreakpoints", filters=[])
        client.ask("configurationDone")
        check("vscode, the entry", client.until("stopped")["reason"] == "entry" and client.stack()[0] == ("main init save timer", 10))
        check("vscode, on to the breakpoint", client.go("continue") == "breakpoint" and client.stack()[0] == ("on beat now", 17))
        check("vscode, back to the start", client.go("reverseContinue") == "entry" and client.stack()[0] == ("main init save timer", 10))
        client.ask("disconnect", restart=False, terminateDebuggee=True)
        check("vscode, the end", client.end() == (0, ""))


def try_editors(tries: Tries) -> None:
    for path in sorted(FOLDER.rglob("*.json")):
        tries.check(f"vscode, {path.name} is an object", isinstance(read_json(path), dict))
    grammar = read_json(FOLDER / "syntaxes" / "uvt.tmLanguage.json")
    try_manifest(tries.check)
    for part in (try_grammar, try_lines, try_files, try_scopes):
        part(tries.check, grammar)
    try_copied(tries.check)
