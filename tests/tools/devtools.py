"""What Chromium's DevTools have of what `uvt view --trace-event` and `--cpuprofile` write of recordings of node: the files are loaded by the code of
the Performance panel itself, which is a page of the browser.

It takes Debian's chromium, and is left out where that isn't there. Each wait is for what is to come, and none is for a time.
"""

from __future__ import annotations

import json
import shutil
import tempfile
import time
from pathlib import Path
from typing import TYPE_CHECKING

ROOT = Path(__file__).resolve().parent.parent.parent
from tests.helper import SECONDS, Tries, limited, log_at
from uvt.record.log import read_log
from uvt.record.run import from_data

if TYPE_CHECKING:
    from tests.tools.browser import Browser

LOGS = ROOT / "tests" / "tools" / "javascript" / "node20"
# Programs of which the trace is loaded: one with a late timer, one with arrows over awaits and a request of the pool.
NAMES = ("json", "chain")
# What DevTools' own modules are, of which the rest is asked.
MODULES = """(async () => {
  globalThis.ui = await import('devtools://devtools/bundled/ui/legacy/legacy.js');
  globalThis.timeline = await import('devtools://devtools/bundled/panels/timeline/timeline.js');
  globalThis.trace = await import('devtools://devtools/bundled/models/trace/trace.js');
  const { ViewManager } = ui, { TimelinePanel, TimelineSelection } = timeline, { Handlers } = trace;
  return !!(ViewManager && TimelinePanel && TimelineSelection && Handlers);
})()"""
# What the panel's reader has of a file, and what the panel shows of the first late timer.
LOADED = """(async () => {
  const { file, text, wanted, seconds } = globalThis.given;
  const until = async (come) => {
    for (const end = Date.now() + 1000 * seconds; !come() && Date.now() < end; ) await new Promise((done) => setTimeout(done, 100));
  };
  await ui.ViewManager.ViewManager.instance().showView('timeline');
  const panel = timeline.TimelinePanel.TimelinePanel.instance();
  const before = panel.model.parsedTrace(panel.model.size() - 1);
  const parsed = () => panel.model.parsedTrace(panel.model.size() - 1);
  await panel.loadFromFile(new File([text], file, { type: 'application/json' }));
  await until(() => parsed() && parsed() !== before);
  const { data } = parsed();
  const tracks = data.ExtensionTraceData.extensionTrackData.flatMap((it) => Object.entries(it.entriesByTrack));
  const entries = trace.Handlers.Threads.threadsInTrace(data).flatMap((it) => it.entries);
  const calls = entries.filter((it) => it.name === 'ProfileCall');
  const late = tracks.find(([name]) => name === 'late timers')?.[1][0];
  const all = (from, found = []) => {
    for (const it of from.querySelectorAll('*')) {
      found.push(it);
      if (it.shadowRoot) all(it.shadowRoot, found);
    }
    return found;
  };
  const shown = () => all(document).filter((it) => it.classList.contains('timeline-details-view')).map((it) => it.innerText).join(' ');
  if (late) {
    panel.select(timeline.TimelineSelection.selectionFromEvent(late));
    await until(() => shown().includes(wanted));
  }
  return JSON.stringify({
    tasks: entries.filter((it) => it.name === 'RunTask').length,
    functions: [...new Set(calls.map((it) => it.callFrame.functionName))].length,
    initiators: data.Initiators.eventToInitiator.size,
    range: data.Meta.traceBounds.range,
    tracks: Object.fromEntries(tracks.map(([name, entries]) => [name, entries.length])),
    shown: late ? shown() : '',
  });
})()"""
# How long DevTools wait for what is to come, in seconds: what doesn't come is a failure.
PATIENCE = 300


def asked(browser: Browser, expression: str) -> tuple[object, str]:
    """What an expression gives in time, or what went wrong."""
    found = browser.ask("Runtime.evaluate", expression=expression, awaitPromise=True, returnByValue=True)
    return found["result"].get("value"), json.dumps(found["exceptionDetails"]) if "exceptionDetails" in found else ""


def open_devtools(browser: Browser) -> str:
    """Opens DevTools as a page; what is wrong with them, `` where they are there."""
    browser.ask("Page.navigate", url="devtools://devtools/bundled/devtools_app.html?panel=timeline")
    ends, wrong = time.monotonic() + SECONDS, "they didn't open"
    while time.monotonic() < ends:
        has, wrong = asked(browser, MODULES)
        # (their own page, or the texts of it, may not be there yet)
        if not wrong:
            return "" if has else "these DevTools have other modules"
        time.sleep(0.5)
    return wrong


def try_file(tries: Tries, browser: Browser, path: Path, picture: Path | None) -> None:
    """What the file has is there: each task, each track, who asked for what, and `why` of a late timer."""
    text = path.read_text()
    whole = json.loads(text)
    events = whole.get("traceEvents", [])
    late = [it for it in events if it["ph"] == "b" and " is late by " in it["name"]]
    wanted = late[0]["args"]["why"][:60] if late else ""
    if wrong := open_devtools(browser):
        tries.check(f"DevTools open, for {path.name}", False, wrong)
        return
    given = {"file": path.name, "text": text, "wanted": wanted, "seconds": PATIENCE}
    browser.value(f"globalThis.given = {json.dumps(given)}; 1")
    said, wrong = asked(browser, LOADED)
    tries.check(f"DevTools take {path.name}", not wrong, wrong)
    if wrong:
        return
    has = json.loads(str(said))
    tries.check(f"DevTools, {path.name}: functions", has["functions"] > 3 and has["range"] > 0, has)
    tries.same(f"DevTools, {path.name}: tasks", has["tasks"], sum(it["name"] == "RunTask" for it in events))
    arrows = sum(it["ph"] == "s" and it["pid"] == 2 for it in events)
    tries.check(f"{path.name} has tasks, arrows and late timers", not events or has["tasks"] and arrows and late, has)
    tries.check(f"DevTools, {path.name}: arrows", has["initiators"] >= arrows, (has, arrows))
    tries.same(f"DevTools, {path.name}: late timers", has["tracks"].get("late timers", 0), len(late))
    tries.check(f"DevTools, {path.name}: why a timer was late", wanted in has["shown"], (wanted, has["shown"]))
    if picture:
        browser.picture(picture)


def written(folder: Path) -> list[Path]:
    """The files of a few recordings."""
    found = []
    for name in NAMES:
        data = log_at(LOGS / f"{name}.log").read_bytes()
        from_data(data, read_log(data), str(folder / name))
        path = next(it for it in (folder / f"{name}.rec", folder / f"{name}.2.rec") if it.exists())
        for word, ending in (("--trace-event", "json"), ("--cpuprofile", "cpuprofile")):
            found.append(folder / f"{name}.{ending}")
            found[-1].write_text(limited([str(ROOT / "tools" / "uvt" / "uvt-view"), word, str(path)], capture_output=True, text=True).stdout)
    return found


def try_devtools(tries: Tries) -> None:
    from tests.tools.browser import Browser

    chromium = shutil.which("chromium")
    if not chromium:
        tries.leave_out("DevTools", "it takes Debian's chromium, which isn't installed here")
        return
    with tempfile.TemporaryDirectory(ignore_cleanup_errors=True) as name:
        browser = Browser(chromium, name)
        try:
            for path in written(Path(name)):
                try_file(tries, browser, path, None)
        finally:
            browser.close()
