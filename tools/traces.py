"""Traces, schedules and scripts, as docs/FORMATS.md has them; and traces with the lines of `look steps` among their own.

Not proved. It rests on docs/FORMATS.md (The trace, Several kernels, Scripts) and, by looked.py, on docs/LOOK.md: it believes what the
lines say.
"""
import re
from collections import namedtuple

from looked import STEP, step_of

Item = namedtuple("Item", "step kind port value")
Turn = namedtuple("Turn", "kernel start end own")   # steps of all, and the kernel's own step at the start

ITEM = re.compile(r"(\d+) (?:(in|out)(8|32) ([0-9a-f]{4}) ([0-9a-f]{2}(?:[0-9a-f]{6})?)|(tx|irq) ([0-9a-f]{2}))")
END = re.compile(r"(?:end|saved) steps (\d+)(?: stop (\d+ \w+))?")


class Bad(Exception):
    """A file that isn't in its form, or can't be read."""


class Other(Exception):
    """A schedule that isn't the trace's."""


class Run:
    """What one kernel did: its items, the step at its end, and the stop there or None; its steps, where `look steps` printed it."""

    def __init__(self, name):
        self.name, self.items, self.steps, self.end, self.stop = name, [], [], None, None


def lines_of(path):
    try:
        with open(path, encoding="latin-1") as file:
            return file.read().split("\n")
    except OSError as error:
        raise Bad(f"{path}: {error.strerror}") from None


def read_trace(path, name):
    """The kernels of a trace by their numbers, or under None that of a trace of one."""
    runs = {}
    for number, line in enumerate(lines_of(path), 1):
        if not line:
            continue
        stepped = STEP.match(line.encode("latin-1"))
        shared = not stepped and re.match(r"([0-3]) (?=\d+ [a-z]|end )", line)
        kernel = int(shared[1]) if shared else None
        run = runs.setdefault(kernel, Run(name if kernel is None else f"kernel {kernel}"))
        rest = line[2:] if shared else line
        if (end := END.fullmatch(rest)):
            run.end, run.stop = int(end[1]), end[2]
        elif stepped and run.end is None:
            run.steps.append(step_of(stepped))
        elif (item := ITEM.fullmatch(rest)) and run.end is None:
            run.items.append(Item(int(item[1]), item[2] or item[6], item[4] and int(item[4], 16), item[5] or item[7]))
        else:
            raise Bad(f"{path}: line {number} is no line of a trace: {line[:60]}")
    if not runs or None in runs and len(runs) > 1:
        raise Bad(f"{path}: it is no trace")
    for run in runs.values():
        if run.end is None:
            raise Bad(f"{path}: it is cut: the last line, with the number of steps, is missing")
        if [it.step for it in run.items] != sorted(it.step for it in run.items) or run.items and run.items[-1].step >= max(run.end, 1):
            raise Bad(f"{path}: steps fall, or pass the end")
        numbers = [it.number for it in run.steps]
        if any(a >= b for a, b in zip(numbers, numbers[1:])) or numbers and numbers[-1] >= run.end + bool(run.stop):
            raise Bad(f"{path}: steps of look fall, or pass the end")
    return runs


def read_schedule(path):
    slices = []
    for number, line in enumerate(lines_of(path), 1):
        if line and not line.startswith("#"):
            if not re.fullmatch(r"[0-3] [1-9]\d*", line):
                raise Bad(f"{path}: line {number} is no line of a schedule: {line[:60]}")
            slices.append(tuple(int(word) for word in line.split()))
    return slices


def read_script(path):
    """Steps and bytes that come in at the serial line, and steps and numbers of lines with an edge."""
    received, edges = [], []
    for number, line in enumerate(lines_of(path), 1):
        if line and not line.startswith("#"):
            event = re.fullmatch(r"(\d+) (?:rx ([0-9A-Fa-f]{2})|line (\d+))", line)
            if not event:
                raise Bad(f"{path}: line {number} is no line of a script: {line[:60]}")
            (received if event[2] else edges).append((int(event[1]), event[2] or event[3]))
    return received, edges


def in_turns(runs, slices, what):
    """The turns of kernels that share a host, over the steps of all, and their runs over these steps."""
    turns, at, done = [], 0, dict.fromkeys(runs, 0)
    for kernel, steps in slices:
        if kernel not in runs:
            raise Other(f"{what}: it names kernel {kernel}, which the trace hasn't")
        steps = min(steps, runs[kernel].end - done[kernel]) if runs[kernel].stop else steps
        if steps:
            turns.append(Turn(kernel, at, at + steps, done[kernel]))
            done[kernel] += steps
            at += steps
    for kernel, run in runs.items():
        if done[kernel] != run.end:
            raise Other(f"{what}: it gives kernel {kernel} {done[kernel]} steps, and the trace {run.end}")
    moved = {}
    for kernel, run in runs.items():
        own = [it for it in turns if it.kernel == kernel]
        moved[kernel] = Run(run.name)
        moved[kernel].items = [it._replace(step=of_all(own, it.step)) for it in run.items]
        moved[kernel].end, moved[kernel].stop = own[-1].end if own else 0, run.stop
    return turns, moved, at


def of_all(turns, step):
    """The step of all in which a kernel's own step was done."""
    turn = next(it for it in reversed(turns) if it.own <= step)
    return turn.start + step - turn.own
