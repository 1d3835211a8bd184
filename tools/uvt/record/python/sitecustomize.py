"""Names the callbacks and coroutines of a program on uvloop, for the recorder: ./uvt record puts this folder on PYTHONPATH.

Each callback that asyncio hands to the loop passes by here: which function or coroutine it is, which line asked for it, when it begins and
ends, and where it is cancelled. And where a callback of the loop takes 5 ms or more, a thread of the recorder (recorder/script.c) asks here each
millisecond which functions are under way. All that are lines J of the log. The `sitecustomize` that would have been loaded without this one
is loaded behind it.
"""

import importlib.abc
import importlib.machinery
import importlib.util
import os
import sys

HERE = os.path.dirname(os.path.abspath(__file__))
# Frames that say less than the function around them.
WITHIN = ("<genexpr>", "<listcomp>", "<setcomp>", "<dictcomp>")
DEEP = 1000


def watch(uvloop):
    import asyncio
    import ctypes
    import functools
    import itertools
    import sysconfig
    import threading

    # (a call of these keeps the interpreter's lock, except for the one that waits for the thread that looks)
    library, waiting = ctypes.PyDLL(None), ctypes.CDLL(None)
    LOOK = ctypes.CFUNCTYPE(ctypes.c_int)
    library.uvt_loop.restype = library.uvt_watch.restype = ctypes.c_void_p
    library.uvt_note.argtypes = [ctypes.c_void_p, ctypes.c_char_p]
    library.uvt_place.argtypes = library.uvt_language.argtypes = [ctypes.c_char_p]
    library.uvt_watch.argtypes = [ctypes.c_void_p, LOOK]
    waiting.uvt_unwatch.argtypes = [ctypes.c_void_p]
    note = library.uvt_note
    folders = tuple(os.path.join(sysconfig.get_path(it), "") for it in ("stdlib", "platstdlib"))
    packages = tuple(os.path.join(sysconfig.get_path(it), "") for it in ("purelib", "platlib"))
    places, stacks, ids = {}, {}, itertools.count(1)

    # ---- places

    def file_of(path):
        """What comes with Python is no file of the program."""
        for it in folders:
            if path.startswith(it) and not path.startswith(packages) and "-packages" not in path:
                return f"python:{path[len(it):]}"
        if path.endswith(".pyx"):
            return f"python:{path}"
        return "python:" + path[1:-1] if path.startswith("<frozen ") else os.path.abspath(path)

    def number(function, file, line):
        key = function, file, line
        if key not in places:
            where = f"{file_of(file)}:{line}".replace(" ", "_") if file else "-"
            places[key] = library.uvt_place(f"{(function or '-').replace(' ', '_')} {where}".encode(errors="replace"))
        return places[key]

    def of_code(code):
        return number(getattr(code, "co_qualname", code.co_name), code.co_filename, code.co_firstlineno)

    def of_coroutine(task):
        coroutine = task.get_coro()
        code = getattr(coroutine, "cr_code", None) or getattr(coroutine, "gi_code", None)
        return number(coroutine.__qualname__, code.co_filename, code.co_firstlineno) if code else -1

    def task_of(callback):
        task = getattr(callback, "__self__", None)
        return task if isinstance(task, asyncio.Task) else None

    def of_callback(callback):
        """The function that is called; of a step of a task its coroutine, and of the end of a sleep the one that sleeps."""
        task = task_of(callback)
        if callback is asyncio.futures._set_result_unless_cancelled:
            try:
                task = asyncio.current_task()
            except RuntimeError:
                pass
        if task is not None:
            return of_coroutine(task)
        while isinstance(callback, functools.partial):
            callback = callback.func
        callback = getattr(callback, "__func__", callback)
        code = getattr(callback, "__code__", None)
        return of_code(code) if code else number(getattr(callback, "__qualname__", type(callback).__name__), "", 0)

    def under_loop(frame):
        """Is it one of those here, which stand between the loop and the program?"""
        return frame.f_code.co_filename == __file__ and frame.f_code.co_name in ("uvt_called", "run_forever")

    def here():
        """The program's own line, above which there may be asyncio's; -1 where nothing of the program asked."""
        frame = sys._getframe(2)
        while frame is not None and not under_loop(frame):
            code = frame.f_code
            if code.co_filename != __file__ and code.co_name not in WITHIN and not file_of(code.co_filename).startswith("python:"):
                return number(getattr(code, "co_qualname", code.co_name), code.co_filename, frame.f_lineno)
            frame = frame.f_back
        return -1

    # ---- looks

    def stack_of(frame):
        """The number of what is under way; -1 where that is nothing but the loop."""
        frames = []
        while frame is not None and not under_loop(frame) and len(frames) < DEEP:
            if frame.f_code.co_name not in WITHIN:
                frames.append((of_code(frame.f_code), frame.f_lineno))
            frame = frame.f_back
        if frame is None or not frames:
            return -1
        below = -1
        for place, line in ((number(frame.f_code.co_name, "", 0), 0), *reversed(frames)):
            key = below, place, line
            if key not in stacks:
                stacks[key] = library.uvt_stack(below, place, line or 0)
            below = stacks[key]
        return below

    def look_at(thread):
        def look():
            try:
                return stack_of(sys._current_frames().get(thread))
            except Exception:
                return -1

        return LOOK(look)

    # ---- callbacks

    class Handle:
        """The handle of a callback, which tells as well when it is cancelled."""

        def __init__(self, loop, id):
            self._uvt = loop, id
            self._handle = None
            self._called = False

        def cancel(self):
            if not self._handle.cancelled() and not self._called:
                note(self._uvt[0], f"gone {self._uvt[1]} {here()}".encode())
            self._handle.cancel()

        def __getattr__(self, name):
            return getattr(self._handle, name)

        def __repr__(self):
            return repr(self._handle)

    def asked(loop, start, callback, kind, delay):
        """Has `start` hand the callback to the loop, and answers its handle."""
        if not callable(callback):
            return start(callback)
        id, kind = next(ids), "task" if kind == "soon" and task_of(callback) is not None else kind
        note(loop, f"new {id} {kind} {of_callback(callback)} {here()} {delay}".encode())
        handle = Handle(loop, id)

        def uvt_called(*words):
            handle._called = True
            note(loop, f"run {id}".encode())
            try:
                return callback(*words)
            finally:
                note(loop, f"ran {id}".encode())

        uvt_called.__qualname__ = getattr(callback, "__qualname__", "uvt_called")
        handle._handle = start(uvt_called)
        return handle

    def milliseconds(delay):
        return max(0, round(1000 * delay))

    class Loop(uvloop.Loop):
        def __init__(self, *words, **named):
            super().__init__(*words, **named)
            self._uvt = library.uvt_loop()
            if not places:
                library.uvt_language(b"Python")

        def call_soon(self, callback, *words, context=None):
            return asked(self._uvt, lambda it: super(Loop, self).call_soon(it, *words, context=context), callback, "soon", 0)

        def call_soon_threadsafe(self, callback, *words, context=None):
            return asked(self._uvt, lambda it: super(Loop, self).call_soon_threadsafe(it, *words, context=context), callback, "soon", 0)

        def call_later(self, delay, callback, *words, context=None):
            start = lambda it: super(Loop, self).call_later(delay, it, *words, context=context)  # noqa: E731
            return asked(self._uvt, start, callback, "timer", milliseconds(delay))

        def call_at(self, when, callback, *words, context=None):
            start = lambda it: super(Loop, self).call_at(when, it, *words, context=context)  # noqa: E731
            return asked(self._uvt, start, callback, "timer", milliseconds(when - self.time()))

        def run_forever(self):
            look = look_at(threading.get_ident())
            looks = library.uvt_watch(self._uvt, look)
            try:
                return super().run_forever()
            finally:
                waiting.uvt_unwatch(looks)

    Loop.__qualname__ = Loop.__name__ = "Loop"
    uvloop.Loop = Loop


class Finder(importlib.abc.MetaPathFinder):
    """Lets uvloop be loaded as ever, and then looks at it once."""

    def find_spec(self, name, path, target=None):
        if name != "uvloop":
            return None
        sys.meta_path.remove(self)
        spec = importlib.util.find_spec(name)
        if spec is None or spec.loader is None:
            # (it isn't there, and that is said as ever)
            return None
        real = spec.loader.exec_module

        def exec_module(module):
            real(module)
            try:
                watch(module)
            except Exception as fault:
                print(f"uvt: the names of Python are left out: {fault!r}", file=sys.stderr)

        spec.loader.exec_module = exec_module
        return spec


if os.environ.get("UVT_LOG"):
    sys.meta_path.insert(0, Finder())
# the one that this one stands before
found = importlib.machinery.PathFinder.find_spec("sitecustomize", [it for it in sys.path if os.path.abspath(it or ".") != HERE])
if found and found.loader:
    found.loader.exec_module(importlib.util.module_from_spec(found))
