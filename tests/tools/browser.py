"""Opens the page of uvt-view in Chromium, and steps in it by its keys: tests/tools/browser [--chromium PATH] [--picture FILE]
tests/tools/browser --devtools FILE..: loads traces and profiles into the Performance panel of its DevTools, and says what that has of them

  - at twenty lengths, to which the keys lead forward and back, what the page shows is the text of `state` there
  - an example's late call is named in its line, and `why` is what tools/uvt/why.py says of the chosen name
  - a run of 100,000 steps opens within three seconds, and its page has less than 30 MB (with --long: it takes minutes to make)

It is for the hand: it needs Debian's chromium. --picture keeps a screenshot. It prints a line for each that failed; status 1 if any
failed. The program is the launcher ./uvt, or what UVT names.
"""

from __future__ import annotations

import argparse
import base64
import json
import os
import random
import select
import subprocess
import tempfile
import time
from pathlib import Path
from typing import Any

ROOT = Path(__file__).resolve().parent.parent.parent
from tests.helper import SECONDS, Tries
from tests.machines import sessions
from tests.tools import devtools
from uvt.conversation import Conversation, Script
from uvt.inputs import read_input
from uvt.view import html
from uvt.walk import Walk
from uvt.ways import longest_way
from uvt.why import why

EXAMPLES = ROOT / "crates" / "examples" / "data"
CODES = {"ArrowRight": 39, "ArrowLeft": 37, "Home": 36, "End": 35}


class Browser:
    """A Chromium without a window, asked over two pipes: each message is JSON with a zero byte behind it."""

    def __init__(self, chromium: str, folder: str) -> None:
        """Starts it; its profile is to lie in this folder."""
        there, self.out = os.pipe()
        self.input, back = os.pipe()

        def places() -> None:
            # (Chromium reads from 3 and writes to 4; what stands there may be one of the two)
            a, b = os.dup(there), os.dup(back)
            os.dup2(a, 3)
            os.dup2(b, 4)

        words = [
            chromium,
            "--headless=new",
            "--no-sandbox",
            "--disable-gpu",
            "--remote-debugging-pipe",
            f"--user-data-dir={folder}/profile",
            "--window-size=1400,900",
            "about:blank",
        ]
        self.process = subprocess.Popen(
            words, close_fds=False, preexec_fn=places, stdin=subprocess.DEVNULL, stdout=subprocess.DEVNULL, stderr=subprocess.DEVNULL
        )
        os.close(there)
        os.close(back)
        self.rest = b""
        self.number = 0
        self.session = None
        target = next(it for it in self.ask("Target.getTargets")["targetInfos"] if it["type"] == "page")
        self.session = self.ask("Target.attachToTarget", targetId=target["targetId"], flatten=True)["sessionId"]
        self.ask("Page.enable")

    def ask(self, method: str, **values: object) -> dict:
        self.number += 1
        message = {"id": self.number, "method": method, "params": values, **({"sessionId": self.session} if self.session else {})}
        os.write(self.out, json.dumps(message).encode() + b"\0")
        while True:
            found = self.read()
            if found.get("id") == self.number:
                if "error" in found:
                    raise RuntimeError(f"{method}: {found['error']}")
                return found["result"]

    def read(self) -> dict:
        while b"\0" not in self.rest:
            if not select.select([self.input], [], [], SECONDS)[0]:
                raise RuntimeError(f"chromium said nothing for {SECONDS} seconds")
            part = os.read(self.input, 1 << 20)
            if not part:
                raise RuntimeError("chromium has ended")
            self.rest += part
        text, _, self.rest = self.rest.partition(b"\0")
        return json.loads(text)

    def value(self, expression: str) -> object:
        found = self.ask("Runtime.evaluate", expression=expression, returnByValue=True)
        if "exceptionDetails" in found:
            raise RuntimeError(f"{expression}: {found['exceptionDetails']}")
        return found["result"].get("value")

    def open(self, path: Path) -> float:
        """Opens a page, and answers how many seconds it took until its script was done."""
        begun = time.monotonic()
        self.ask("Page.navigate", url=f"file://{path}")
        while self.value("document.readyState === 'complete' && location.protocol === 'file:' && typeof goTo === 'function'") is not True:
            time.sleep(0.02)
        return time.monotonic() - begun

    def press(self, key: str, shift: bool = False) -> None:
        values = {"key": key, "modifiers": 8 if shift else 0, "windowsVirtualKeyCode": CODES.get(key, ord(key[0].upper()))}
        self.ask("Input.dispatchKeyEvent", type="keyDown", **values, **({"text": key} if len(key) == 1 else {}))
        self.ask("Input.dispatchKeyEvent", type="keyUp", **values)

    def shown(self) -> list[str]:
        rows: Any = self.value("[...document.querySelectorAll('#state div')].map(it => it.textContent)")
        return list(rows)

    def picture(self, path: Path) -> None:
        path.write_bytes(base64.b64decode(self.ask("Page.captureScreenshot", format="png")["data"]))

    def close(self) -> None:
        try:
            self.ask("Browser.close")
        except (RuntimeError, OSError):
            pass
        self.process.wait(SECONDS)


def try_states(tries: Tries, browser: Browser, folder: Path, what: str, script: Script, steps: list[str]) -> None:
    """Forward and back by the keys, and at twenty lengths what the page shows beside the program's own text."""
    page = folder / "page.html"
    with Walk(script, steps) as walk:
        page.write_text(html(walk))
        length = walk.length
        browser.open(page)
        draw = random.Random(length)
        with Conversation(script) as talk:
            for _ in talk.ask_each(walk.steps):
                pass
            here = 0
            for _ in range(20):
                wanted = draw.randint(0, length)
                while here != wanted:
                    far = abs(wanted - here) >= 10
                    browser.press("ArrowRight" if wanted > here else "ArrowLeft", far)
                    here += (10 if far else 1) * (1 if wanted > here else -1)
                talk.state_at(here)
                tries.check(f"{what}, the state at {here}", browser.shown() == talk.ask("state"), browser.shown())
        browser.press("End")
        tries.check(f"{what}, the end", browser.value("at") == length)
        browser.press("Home")
        tries.check(f"{what}, the start", browser.value("at") == 0)


def try_late(tries: Tries, browser: Browser, folder: Path, picture: Path | None) -> None:
    script, commands = read_input(EXAMPLES / "late-timer.uvt")
    page = folder / "late.html"
    with Walk(script, longest_way(script, commands)) as walk:
        page.write_text(html(walk))
        answer = why(walk, "beat")
    browser.open(page)
    browser.press("/")
    for key in "beat":
        browser.press(key)
    browser.press("Enter")
    said = browser.value("[...document.querySelectorAll('#why div')].map(it => it.textContent)")
    tries.check("why of the name that was searched", said == answer, said)
    browser.value("[...document.querySelectorAll('#why a')].find(it => it.textContent === '20').click()")
    tries.check("to a step of the answer by its link", browser.value("at") == 20, browser.value("at"))
    browser.press("l")
    line = browser.value("document.getElementById('line').textContent")
    # (`beat` is chosen, and its call is the only late one of its)
    tries.check("to the late call by its key", line == "call beat 2.0   late by 35 ms", line)
    browser.press("ArrowRight")
    done = browser.value("document.querySelector('#script .done').textContent.trim()")
    tries.check("the script's line that was done", done == "17  on beat now", done)
    browser.press("ArrowLeft")
    if picture:
        browser.picture(picture)


def try_long(tries: Tries, browser: Browser, folder: Path) -> None:
    lines = [
        "var a",
        "var b",
        "var i",
        "main init a timer",
        "main init b timer",
        "main init i idle",
        "main start a 3 3",
        "main start b 7 7",
        "main start i",
        "main run default",
        "on a now",
        "on b updatetime",
    ]
    steps = ["tick 1" if at % 13 == 5 else "loop" for at in range(100_000)]
    page = folder / "long.html"
    with Walk(Script(lines), steps) as walk:
        page.write_text(html(walk))
    size, took = page.stat().st_size, browser.open(page)
    tries.check("100,000 steps, the page's size", size < 30_000_000, size)
    tries.check("100,000 steps, open within three seconds", took < 3, took)
    print(f"browser: 100,000 steps: {size / 1e6:.1f} MB, open in {took:.2f} s", flush=True)


def main() -> int:
    reader = argparse.ArgumentParser(description=__doc__, formatter_class=argparse.RawDescriptionHelpFormatter)
    reader.add_argument("--chromium", default="chromium", metavar="PATH", help="the browser (chromium)")
    reader.add_argument("--picture", type=Path, metavar="FILE", help="where to keep a screenshot")
    reader.add_argument("--long", action="store_true", help="also a run of 100,000 steps")
    reader.add_argument("--devtools", type=Path, nargs="+", metavar="FILE", help="files of uvt-view --trace-event and --cpuprofile")
    asked = reader.parse_args()
    tries = Tries("browser")
    with tempfile.TemporaryDirectory() as name:
        folder = Path(name)
        browser = Browser(asked.chromium, name)
        try:
            for file in asked.devtools or []:
                devtools.try_file(tries, browser, file, asked.picture)
            if asked.devtools:
                return tries.end()
            try_late(tries, browser, folder, asked.picture)
            script, commands = read_input(EXAMPLES / "never-called.uvt")
            try_states(tries, browser, folder, "never-called.uvt", script, longest_way(script, commands))
            for seed in (8, 10):
                lines, typed = sessions.session(random.Random(seed))
                script = Script(lines)
                try_states(tries, browser, folder, f"random session {seed}", script, longest_way(script, typed))
            if asked.long:
                try_long(tries, browser, folder)
        finally:
            browser.close()
    return tries.end()
