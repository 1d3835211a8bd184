"""Sessions taken one step at a time, back to the beginning and on again: each image is the one that stood there before.

The sessions are those of the conversations whose script says `io` or `timers heap`."""
import glob
import os
import re
import subprocess
from typing import List, Tuple

from tests.helper import Check, limited

HERE = os.path.dirname(os.path.realpath(__file__))


def answered(uvt: str, lines: List[str]) -> str:
    ended = limited([uvt, "debug"], input=("\n".join(lines) + "\n").encode(), stdout=subprocess.PIPE)
    return ended.stdout.decode()


def session_of(uvt: str, text: str) -> Tuple[List[str], List[str]]:
    """The script of a conversation, and the steps that stand at its end."""
    lines = answered(uvt, [text.rstrip("\n"), "record"]).split("\n")
    recording = lines[max(at for at, it in enumerate(lines) if re.fullmatch("uvt [0-9]+", it)) :]
    begin, calls = recording.index("begin"), recording.index("calls")
    return recording[1:begin], recording[begin + 1 : calls]


def images_of(output: str) -> List[str]:
    """Each image in an output: from `steps` to `counts`."""
    return re.findall(r"^steps .*?^counts [0-9]+ [0-9]+$", output, re.MULTILINE | re.DOTALL)


def why_not(uvt: str, script: List[str], steps: List[str]) -> str:
    """What isn't as it was; nothing where all of it is."""
    there = [row for step in steps for row in (step, "image")]
    back, again = ["back 1", "image"] * len(steps), ["forward 1", "image"] * len(steps)
    images = images_of(answered(uvt, [*script, "begin", "image", *there, *back, *again]))
    if len(images) != 3 * len(steps) + 1:
        return "%d images of %d steps" % (len(images), len(steps))
    first = images[: len(steps) + 1]
    wanted = first + first[-2::-1] + first[1:]
    parted = [at for at, (a, b) in enumerate(zip(images, wanted)) if a != b]
    return "image %d is another one than before: %r and %r" % (parted[0], images[parted[0]], wanted[parted[0]]) if parted else ""


def try_images(check: Check, uvt: str) -> None:
    tried = 0
    for path in sorted(glob.glob(os.path.join(HERE, "conversations", "*.uvt"))):
        with open(path, encoding="latin-1") as file, open(path[:-4] + ".out", encoding="latin-1") as output:
            text, is_bad = file.read(), output.read().startswith("uvt: bad script line ")
        script = text.split("\nbegin\n")[0].split("\n")
        if is_bad or not {"io", "timers heap"} & set(script):
            continue
        lines, steps = session_of(uvt, text)
        if steps:
            wrong = why_not(uvt, lines, steps)
            check("%s, back and on again" % os.path.basename(path), not wrong, wrong)
            tried += 1
    check("sessions with I/O, back and on again", tried > 10, "only %d" % tried)
