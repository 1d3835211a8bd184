"""The loop itself, as `uvt debug` shows it: steps, back, and the state behind each."""
import re
import subprocess
from typing import Dict, List, NamedTuple, Optional, Tuple

LAST = "done-yet"
# The first words of a section of timers.
TIMERS = ["first", "timers"]


class State(NamedTuple):
    """What `state` prints, and what the search reads in it."""

    # all of it, but how many steps stand
    text: str
    clock: int
    # the line of the main program, where no run is under way
    main: Optional[int]
    # of the poll in which the loop is, if it has one
    deadline: Optional[int]
    # how often the callbacks on, after and closed of each name were called
    calls: Dict[str, Tuple[int, int, int]]
    # the workers that run a request
    busy: List[int]
    # when the timers are due that are active, by their names
    due: Dict[str, int]
    # the names under which a timer is held
    timers: List[str]
    # the names that were bound to a handle or a request
    made: List[str]
    # the names that are bound to a request which a worker runs
    jobs: List[str]
    # the callback whose body is under way: its list, and its name
    caller: Optional[Tuple[str, str]]
    # the section in which a run is, by its first word
    section: Optional[str]
    # the names that are bound to a handle that closes
    closing: List[str]
    # the workers that run a request, by the names of these in the order of their declarations
    runners: List[int]
    # the names that are bound to a request, or to an async handle with a send that wasn't answered yet
    waiting: List[str]


class Reply(NamedTuple):
    """To a step: why it was refused, or its line, if it has one; and the state then."""

    refused: Optional[str]
    line: Optional[str]
    state: State


def read_state(lines: List[str]) -> State:
    numbers = re.fullmatch("steps [0-9]+ (now [0-9]+ clock ([0-9]+) .*)", lines[0])
    if not numbers:
        raise ValueError("no state begins so: " + lines[0])
    place = lines[1].split()
    main = int(place[2]) if place[1] == "main" else None
    deadline = int(place[4]) if place[3:4] == ["poll"] and place[4] != "infinite" and "+" not in place else None
    caller = (place[place.index("+") + 1], place[place.index("+") + 2]) if "+" in place else None
    section = None if place[1] == "main" else place[3]
    state = State("\n".join([numbers[1]] + lines[1:]), int(numbers[2]), main, deadline, {}, [], {}, [], [], [], caller, section, [], [], [])
    bound, run, closing, waits = {}, {}, [], []
    for line in lines[2:]:
        words = line.split()
        if words[0] == "name":
            state.calls[words[1]] = (int(words[3]), int(words[4]), int(words[5]))
            if words[2] != "none":
                state.made.append(words[1])
                bound[words[1]] = words[2]
        if words[0] == "slot" and words[2] == "timer":
            state.timers.append(words[3])
            if words[words.index("active") + 1] == "1":
                state.due[words[3]] = int(words[words.index("due") + 1])
        if words[0] == "slot" and words[2] == "work" and words[4] == "running":
            run[words[1]] = int(words[5])
        if words[0] == "slot" and (words[2] == "work" or "pending" in words and words[words.index("pending") + 1] == "1"):
            waits.append(words[1])
        if words[0] == "slot" and words[8:10] == ["closing", "1"]:
            closing.append(words[1])
        if words[0] == "ready" and len(words) > 1 and section not in TIMERS:
            raise ValueError("a timer is ready outside a section of timers: " + line)
        if words[0] == "running":
            state.busy.extend(int(word.split(":")[0]) for word in words[1:])
    state.jobs.extend(name for name, slot in bound.items() if slot in run)
    state.runners.extend(run[slot] for slot in bound.values() if slot in run)
    state.waiting.extend(name for name, slot in bound.items() if slot in waits)
    state.closing.extend(name for name, slot in bound.items() if slot in closing)
    return state


class Loop:
    """A conversation with the program over one script."""

    def __init__(self, program: str, script: List[str]) -> None:
        self.talk = subprocess.Popen([program, "debug"], stdin=subprocess.PIPE, stdout=subprocess.PIPE, stderr=subprocess.DEVNULL, text=True)
        self.steps: Tuple[str, ...] = ()
        # how many steps are to be taken back before the next command
        self.ahead = 0
        self.state = read_state(self.ask("\n".join(script + ["begin"])))

    def close(self) -> None:
        assert self.talk.stdin and self.talk.stdout
        self.talk.stdin.close()
        self.talk.stdout.close()
        self.talk.wait()

    def ask(self, commands: str) -> List[str]:
        """The lines that these commands print, and those of the state behind them."""
        assert self.talk.stdin and self.talk.stdout
        try:
            self.talk.stdin.write(commands + "\nstate\n")
            self.talk.stdin.flush()
        except BrokenPipeError:
            pass
        lines = []
        while True:
            line = self.talk.stdout.readline()
            if not line:
                raise ValueError("`uvt debug` ended, and had been given: " + commands[-200:].replace("\n", ", "))
            lines.append(line.rstrip("\n"))
            if lines[-1].split(" ")[0] == LAST:
                return lines

    def go_back(self, steps: Tuple[str, ...], state: State) -> None:
        """To a beginning of the steps that stand, whose state this is."""
        self.ahead += len(self.steps) - len(steps)
        self.steps, self.state = steps, state

    def back(self) -> List[str]:
        """The command that takes back what is to be."""
        ahead, self.ahead = self.ahead, 0
        return ["back %d" % ahead] if ahead else []

    def go_to(self, steps: Tuple[str, ...]) -> None:
        """To the state behind these steps, which were all accepted before."""
        same = 0
        while same < min(len(steps), len(self.steps)) and steps[same] == self.steps[same]:
            same += 1
        self.ahead += len(self.steps) - same
        commands = self.back() + list(steps[same:])
        if not commands:
            return
        lines = self.ask("\n".join(commands))
        start = next(at for at, line in enumerate(lines) if line.startswith("steps "))
        self.steps, self.state = steps, read_state(lines[start:])
        if any(line.startswith("refused ") for line in lines[:start]):
            raise ValueError("a step that was accepted is refused: " + ", ".join(steps))

    def step(self, command: str) -> Reply:
        """Takes a step, if the loop accepts it."""
        back = self.back()
        lines = self.ask("\n".join(back + [command]))[len(back) :]
        start = next(at for at, line in enumerate(lines) if line.startswith("steps "))
        if start and lines[0].startswith("refused "):
            return Reply(lines[0].split(" ")[1], None, self.state)
        self.steps += (command,)
        self.state = read_state(lines[start:])
        return Reply(None, lines[0] if start else None, self.state)
