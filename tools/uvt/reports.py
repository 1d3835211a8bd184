"""What a hunt has found, for machines: SARIF 2.1.0 (code scanning, editors), JUnit's XML (CI), and JSON of our own (`hunt --join`)."""

from __future__ import annotations

import json
import re
import shlex
from pathlib import Path
from typing import Any
from urllib.parse import quote
from xml.etree import ElementTree

from uvt.hunt_ends import Bad
from uvt.notes import harmless

SCHEMA = "https://json.schemastore.org/sarif-2.1.0.json"
# What no text of XML may have.
NOT_XML = re.compile("[^\t\n\r\x20-\ud7ff\ue000-\ufffd\U00010000-\U0010ffff]")
KINDS = {
    "hangs": "In this order nothing of the program goes on any more.",
    "status": "In this order it ends with another status.",
    "time": "In this order it takes much longer.",
    "output": "In this order it says something else.",
    "check": "In this order what it does is wrong by the given check.",
}


def rule_of(how: str) -> str:
    """The kind of a bad end: the sanitizer's word, the signal, `hangs`, `status`, `time`, `check` or `output`."""
    ended = re.match(r"(?:was ended by (\w+)|ended with status)", how)
    if ended:
        report = re.search(r"\w+Sanitizer: (?:attempting )?([\w-]+)", how)
        return report[1] if report else ended[1] or "status"
    for begin, rule in (("hangs", "hangs"), ("didn't end", "time"), ("is bad by", "check")):
        if how.startswith(begin):
            return rule
    return "output"


def located(path: str) -> dict[str, Any] | None:
    """A place in a file, by a name that is relative where the file lies below this folder."""
    file, _, line = path.rpartition(":")
    if not file:
        return None
    whole = Path(file).resolve()
    below = whole.is_relative_to(Path.cwd())
    uri = quote(whole.relative_to(Path.cwd()).as_posix()) if below else whole.as_uri() if whole.exists() else quote(file)
    where: dict[str, Any] = {"uri": uri, **({"uriBaseId": "%SRCROOT%"} if below else {})}
    return {"artifactLocation": where, **({"region": {"startLine": int(line)}} if int(line) > 0 else {})}


def sarif(words: list[str], bad: Bad | None, lines: list[str], order: str, status: int) -> str:
    """LINES is what is said of it."""
    results, rules = [], []
    if bad:
        rule = rule_of(bad.how)
        rules = [{"id": rule, "shortDescription": {"text": KINDS.get(rule, f"An order of what comes to the loop ends with {rule}.")}}]
        place = located(bad.path)
        function = bad.place.partition(" ")[0]
        locations: list[dict[str, Any]] = [{"physicalLocation": place, "logicalLocations": [{"name": function, "kind": "function"}]}] if place else []
        results = [
            {
                "ruleId": rule,
                "level": "error",
                "message": {"text": harmless("\n".join(lines))},
                "locations": locations,
                "partialFingerprints": {"uvtHunt/v1": f"{rule} {function}".strip()},
                "attachments": [{"artifactLocation": {"uri": quote(order)}, "description": {"text": "the order: uvt force runs the program in it"}}],
                "properties": {"again": bad.again, "badAgain": bad.bad_again, "by": bad.by, "loop": bad.loop},
            }
        ]
    run = {
        "tool": {"driver": {"name": "uvt hunt", "rules": rules}},
        "invocations": [{"executionSuccessful": status in (0, 3), "exitCode": status, "commandLine": f"uvt hunt -- {shlex.join(words)}"}],
        "results": results,
    }
    return json.dumps({"$schema": SCHEMA, "version": "2.1.0", "runs": [run]}, indent=1) + "\n"


def junit(words: list[str], bad: Bad | None, lines: list[str], seconds: float, counts: str) -> str:
    name = NOT_XML.sub("?", shlex.join(words))
    suites = ElementTree.Element("testsuites")
    suite = ElementTree.SubElement(suites, "testsuite", name="uvt hunt", tests="1", failures=str(int(bool(bad))), errors="0", time=f"{seconds:.3f}")
    case = ElementTree.SubElement(suite, "testcase", classname="uvt.hunt", name=name, time=f"{seconds:.3f}")
    if bad:
        failure = ElementTree.SubElement(case, "failure", type=rule_of(bad.how), message=NOT_XML.sub("?", lines[0]))
        failure.text = NOT_XML.sub("?", "\n".join(lines))
    ElementTree.SubElement(case, "system-out").text = NOT_XML.sub("?", counts)
    return '<?xml version="1.0" encoding="UTF-8"?>\n' + ElementTree.tostring(suites, encoding="unicode") + "\n"
