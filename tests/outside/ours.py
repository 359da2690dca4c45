"""A run of the bare machine as the programs show it: `look steps` for each step, `pv save` for the memory at the end.

Not proved. It rests on docs/LOOK.md by tools/looked.py, and on docs/FORMATS.md (The trace, Scripts, Checkpoints).
"""
import os
import re
import subprocess

import looked
from kernels.interrupts import RISES
from machine import Checkpoint, Wrong, differing

FRAMES = "2048"
SECONDS = 120
FIRST_BOUND, LAST_BOUND = 1000, 256000      # steps that are asked for at first, and at most
ITEM = re.compile(r"(\d+) (?:out8|in8|out32|in32) ([0-9a-f]{4}) ([0-9a-f]+)")
END = re.compile(r"end steps (\d+)(?: stop (\d+ \w+))?")
WORD = re.compile(r"(e[a-ds][xpi]|eflags|cr[0234]|[ecsd]s|tr) ([0-9a-f]{4}|[0-9a-f]{8})")
TABLE = re.compile(r"([gi]dtr) ([0-9a-f]{8}) ([0-9a-f]{4})")
RUNS = 200                                  # of one kernel, each with one more edge in its script


def said_by(*words):
    """What a program prints; that a run stops by name is no failure."""
    try:
        done = subprocess.run(words, stdout=subprocess.PIPE, stderr=subprocess.PIPE, timeout=SECONDS)
    except subprocess.TimeoutExpired:
        raise Wrong(f"{' '.join(words)} takes more than {SECONDS} seconds") from None
    if done.returncode not in (0, 4):
        raise Wrong(f"{' '.join(words)} ended with {done.returncode}: {(done.stdout[-300:] + done.stderr[-300:]).decode(errors='replace')}")
    return done.stdout


def linked(pv, source, place):
    """Burns and links a source; `place` is the files' name without its ending. Gives the image's name."""
    with open(f"{place}.s", "w", encoding="ascii") as file:
        file.write(source)
    said_by(pv, "burn", f"{place}.s", f"{place}.o")
    said_by(pv, "link", f"{place}.img", f"{place}.o")
    return f"{place}.img"


def changed(state, entries):
    """A state after the entries of a step's line; EIP isn't among them."""
    after = dict(state)
    for entry in entries:
        if (found := WORD.fullmatch(entry)):
            after[found[1]] = int(found[2], 16)
        elif (found := TABLE.fullmatch(entry)):
            after[f"{found[1]}_base"], after[f"{found[1]}_limit"] = int(found[2], 16), int(found[3], 16)
    return after


def states_of(start, steps):
    """The states before each step, of the registers at the start. The last step's own changes aren't among them."""
    states = [dict(start)]
    for step in steps[:-1]:
        states[-1]["eip"] = step.eip
        states.append(changed(states[-1], step.entries))
    states[-1]["eip"] = steps[-1].eip
    return states


def is_end(step):
    """Whether it is the jump to itself with which a kernel ends."""
    found = re.fullmatch(r"jmp (?:0x)?([0-9a-f]+)", step.does)
    return found is not None and int(found[1], 16) == step.eip


class Ours:
    """A run: steps, the last of which is the end's jump or the one that stops, so that all before it are compared; states, one before
    each; items; memory before the last step; stop, by which it ended, or None."""

    def __init__(self, pv, look, image, room):
        self.pv, self.look, self.image, self.room = pv, look, image, room
        self.steps, self.items, self.states, self.memory, self.stop = [], [], [], b"", None
        self.start = self.saved(0, "")

    def saved(self, step, script):
        """The checkpoint at a step."""
        path = f"{self.room}/state"
        said_by(self.pv, "save", "--bare", self.image, self.script_file(script), FRAMES, str(step), path)
        try:
            return Checkpoint(path)
        finally:
            os.remove(path)

    def script_file(self, script):
        path = f"{self.room}/script"
        with open(path, "w", encoding="ascii") as file:
            file.write(script)
        return path

    def asked(self, script, bound):
        """Reads the run of at most `bound` steps, up to the kernel's end; says whether it has one."""
        text = said_by(self.look, "steps", self.image, self.script_file(script), FRAMES, "0", str(bound))
        end = END.search(text.decode("latin-1"), text.rfind(b"end steps"))
        if not end:
            raise Wrong("look steps: its last line is missing")
        steps = [looked.step_of(found) for found in looked.STEP.finditer(text)]
        if [step.number for step in steps] != list(range(len(steps))) or len(steps) != int(end[1]) + (end[2] is not None):
            raise Wrong("look steps: a line of a step is missing")
        last = next((step.number for step in steps if is_end(step)), None)
        self.stop = end[2] if last is None else None
        self.steps = steps if last is None else steps[: last + 1]
        self.items = [it for it in ITEM.findall(text.decode("latin-1")) if int(it[0]) < len(self.steps)]
        return last is not None or self.stop is not None

    def rises(self):
        """The script's lines for the edges that its OUTs ask for, with their steps."""
        steps = [(int(step) + 1, RISES[port, value]) for step, port, value in self.items if (port, value) in RISES]
        return [(step, f"{step} line {line}") for step, line in steps]

    def whole(self, script, edges):
        """Reads the run up to the kernel's end, or until it asks for other edges than these: without them it may halt for ever."""
        bound = FIRST_BOUND
        while not self.asked(script, bound) and self.rises() == edges:
            bound *= 4
            if bound > LAST_BOUND:
                raise Wrong(f"the kernel doesn't end in {LAST_BOUND} steps")

    def with_edges(self, given):
        """The script, with an edge for the step after each OUT that raises a line in the outside models. Each run may show the next."""
        lines = [(int(line.split()[0]), line) for line in given.splitlines()]
        edges = []
        for _ in range(RUNS):
            script = "".join(f"{line}\n" for _, line in sorted([*lines, *edges], key=lambda it: it[0]))
            self.whole(script, edges)
            wanted = self.rises()
            if edges == wanted:
                return script
            edges = wanted[: len(edges) + 1]
        raise Wrong(f"the script has no end in {RUNS} edges")

    def run(self, given):
        """The run whole: its steps, the states, and the memory at its end."""
        script = self.with_edges(given)
        self.states = states_of(self.start.registers, self.steps)
        end = self.saved(len(self.steps) - 1, script)
        wrong = differing(self.states[-1], end.registers)
        if wrong:
            raise Wrong(f"look steps and pv save say different things of {', '.join(wrong)} after {len(self.steps) - 1} steps")
        self.memory = end.memory
        return script
