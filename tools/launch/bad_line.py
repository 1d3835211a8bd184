"""Shows the bad line of a file, and says why it is bad: tools/launch/bad_line.py WORD FILE NUMBER

WORD is the program's command, and NUMBER is that of the line, as the program has said it. All goes to standard error."""
import sys
from typing import List, Optional

from launch.asked_reasons import of_inquiry
from launch.reasons import Why, of_recording, of_script

SHOWN = 120


def why(word: str, lines: List[bytes], number: int) -> Optional[Why]:
    """Why this line is the first bad one of the input of `uvt WORD`; None where it can't be told."""
    try:
        if word == "replay":
            of_recording(lines, number)
        elif word == "find":
            of_inquiry(lines, number)
        else:
            of_script(lines, number, word == "debug")
    except Why as found:
        return found
    return None


def show() -> None:
    word, path, number = sys.argv[1], sys.argv[2], int(sys.argv[3])
    try:
        with open(path, "rb") as file:
            text = file.read()
    except OSError:
        return
    lines = text.split(b"\n")
    if not lines[-1]:
        lines.pop()
    if number > len(lines) + 1:
        # (the line came behind the file, from standard input)
        return
    if number <= len(lines):
        line = lines[number - 1]
        shown = "".join(chr(byte) if 0x20 <= byte <= 0x7E else "\\x%02x" % byte for byte in line[:SHOWN])
        print("uvt: line %d is: %s%s" % (number, shown, " .." if len(line) > SHOWN else ""), file=sys.stderr)
    elif word == "debug" and path != "/dev/stdin":
        print("uvt: %s has no line `begin`, so what came behind it was read as a part of the script" % path, file=sys.stderr)
        return
    found = why(word, lines, number)
    if found:
        print("uvt: %s" % found.sentence(), file=sys.stderr)


def main() -> int:
    show()
    return 0
