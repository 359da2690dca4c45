"""Wrong rules, and the kernels that see them.

Not proved. The machine with a wrong rule isn't stepped beside an outside model again, but beside its own right run: the states that
the right run has at each step, as an outside model shows them, and its memory. That is the same only of kernels that came out the same in
that model (`.ci/outside`), so a kernel counts for a model in which it is run and isn't known to differ.
"""
import fnmatch
import hashlib
import re
import types
import zlib

from compare import Difference, compare
from machine import Wrong
from models import MODELS, runs_in
from ours import Ours, linked, states_of

FIELD = re.compile(r"(in|memory|file|old|new): (.+)")


class Rule:
    """A wrong rule: what it says, the kernels that are stepped (by their names, the first letters of some followed by *, or subjects),
    whether the memories at the end are compared too, and its text, as in a must-fail edit."""

    def __init__(self, title, fields):
        self.title, self.names, self.memory = title, fields["in"].split(), "memory" in fields
        self.file, self.old, self.new = fields["file"], fields["old"], fields["new"]

    def asks(self, subject, name):
        """Whether it is stepped by a kernel."""
        return any(it == subject or fnmatch.fnmatchcase(name, it) for it in self.names)

    def key(self):
        """A name for its program."""
        return hashlib.sha256("\n".join((self.file, self.old, self.new)).encode()).hexdigest()[:12]


def read(path):
    """The rules of a file: blocks of lines, the first of which is the title."""
    with open(path, encoding="utf-8") as file:
        blocks = [[line for line in block.splitlines() if not line.startswith("#")] for block in file.read().split("\n\n")]
    rules = []
    for title, *lines in filter(None, blocks):
        found = [FIELD.fullmatch(line) for line in lines]
        fields = {it[1]: it[2] for it in found if it}
        if not all(found) or not {"in", "file", "old", "new"} <= fields.keys() or len(fields) != len(lines):
            raise Wrong(f"{path}: '{title}' isn't written as a rule")
        rules.append(Rule(title, fields))
    return rules


class Right:
    """A kernel's right run: what a program needs to make it again, and what it is to show."""

    def __init__(self, pv, look, kernel, about, place):
        ours = Ours(pv, look, linked(pv, kernel.source(about), place), place)
        self.script, self.kernel, self.image = ours.run(kernel.script), kernel, ours.image
        self.registers, self.steps, self.states = ours.start.registers, ours.steps, ours.states
        self.memory = zlib.compress(ours.memory, 1)

    def shown_by(self, model):
        """The states as an outside model that agrees shows them: a joined one has none of its own after an interrupt is taken."""
        numbers = [it.number for it in self.steps[:-1] if not (model.IS_JOINED and it.does.startswith("irq "))]
        return [self.states[0], *(self.states[number + 1] for number in numbers)]


class Tried(Ours):
    """The same kernel by a program with a wrong rule, with the same script."""

    def __init__(self, program, right, place):
        self.pv = self.look = program
        self.image, self.room, self.script = right.image, place, right.script
        self.start = types.SimpleNamespace(registers=right.registers)
        self.steps, self.items, self.states, self.memory, self.stop = [], [], [], b"", None

    def made(self, right, has_memory):
        """Makes the run, as far as the right one goes."""
        self.asked(self.script, len(right.steps))
        self.states = states_of(self.start.registers, self.steps)
        self.memory = self.saved(len(self.steps) - 1, self.script).memory if has_memory else zlib.decompress(right.memory)


def is_seen(tried, right, model):
    """Whether a comparison with a model that agrees with the right run sees the wrong one. Accessed flags are left out with QEMU, so
    that the right run's memory isn't the model's there: its memory isn't compared."""
    memory = zlib.decompress(right.memory) if model.WRITES_ACCESSED else tried.memory
    try:
        compare(tried, right.shown_by(model), memory, model, right.kernel)
    except (Difference, Wrong):
        return True
    return False
