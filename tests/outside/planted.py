"""Shows that a comparison sees each difference: a run written by hand, and the same with one register, byte or step changed at a time.

Not proved. It rests on docs/LOOK.md for the text of the run.
"""
import types

import looked
from compare import Difference, compare
from kernels.base import Kernel
from machine import FIELDS, Wrong
from ours import states_of

START = {name: 0 for name in FIELDS} | {
    "eip": 0x10000220, "esp": 0xC0100000, "eflags": 0x202, "cs": 8, "ss": 0x10, "ds": 0x10, "es": 0x10, "cr0": 0x80000011, "cr3": 0x1000,
    "gdtr_base": 0xC0002000, "gdtr_limit": 0x27,
}
TEXT = b"""0 0 10000220 movl $0x5,%eax | eax 00000005
1 0 10000225 lgdt 0x11000200 | gdtr 11000000 00bf
1 out8 02f9 02
2 0 1000022c andl %eax,%ebx | eflags 00000246
3 0 1000022e irq 23 | -> 10000120  esp c00ffff4  eflags 00000046
4 0 10000120 movl $0x23,%edx | edx 00000023
5 0 10000125 inb (%dx),%al | eax 000000ff
6 0 10000126 movl $0x1,%eax | eax 00000001
7 0 1000012b movl 0x66666666,%ecx | #PF 0000 at 66666666 -> 100000a0  esp c00fffe4  cr2 66666666
8 0 100000a0 movl $0xe,%edx | edx 0000000e
9 0 100000a5 movl %eax,%ds | ds 0008
10 0 100000aa shll $0x1,%edx | edx 0000001c  eflags 00000002
11 0 100000ac jmp 0x100000ac
end steps 12
"""
ITEMS = [("5", "0379", "ff")]
INTERRUPT, AND, FOREIGN_IN, FAULT, SHIFT = 3, 2, 5, 7, 10       # numbers of steps
ZF = 0x40                                           # a bit that is changed: of EFLAGS one that each instruction here defines or keeps
LEFT_OUT = 6


def run():
    """The run by hand, with two frames of memory."""
    steps = [looked.step_of(found) for found in looked.STEP.finditer(TEXT)]
    return types.SimpleNamespace(steps=steps, items=ITEMS, states=states_of(START, steps), memory=bytes(8192), stop=None)


def difference(ours, theirs, memory, model):
    """The first difference, or None."""
    try:
        compare(ours, theirs, memory, model, Kernel())
    except Difference as found:
        return found
    return None


def seen(found, step, name):
    if found is None or found.step != step or name not in found.what:
        raise Wrong(f"a planted difference of {name} after step {step} isn't seen: {found}")
    return 1


def unseen(found, name):
    if found is not None:
        raise Wrong(f"{name} is left out, and it is seen: {found}")


def changed(states, at, name, mask):
    """The states with one register changed from one on, in these bits."""
    return [state if number < at else state | {name: state[name] ^ mask} for number, state in enumerate(states)]


def of_registers(ours, model):
    """Plants a difference in each register at each state of a model; gives how many were seen."""
    count = 0
    numbers = [step.number for step in ours.steps[:-1] if not (model.IS_JOINED and step.number == INTERRUPT)]
    theirs = [ours.states[0], *(ours.states[number + 1] for number in numbers)]
    unseen(difference(ours, theirs, ours.memory, model), "nothing")
    for at, number in enumerate(numbers, 1):
        for name in FIELDS:
            if name != "eax" or number != FOREIGN_IN:
                count += seen(difference(ours, changed(theirs, at, name, ZF), ours.memory, model), number, name)
        count += seen(difference(ours, theirs[:at], ours.memory, model), number, "end")
    return count


def of_memory(ours, theirs, model):
    """The same of single bits of memory."""
    count = 0
    for at in (0, 0xFED, 0xFEE, 4095, 4096, 8191):
        for bit in (0, 7):
            memory = bytearray(ours.memory)
            memory[at] ^= 1 << bit
            count += seen(difference(ours, theirs, bytes(memory), model), None, "memory")
    return count


def test():
    """Plants them all; gives how many were seen."""
    ours, count = run(), 0
    alone = types.SimpleNamespace(IS_JOINED=False, WRITES_ACCESSED=True)
    joined = types.SimpleNamespace(IS_JOINED=True, WRITES_ACCESSED=True)
    for model in (alone, joined):
        count += of_registers(ours, model)
    theirs = ours.states
    count += of_memory(ours, theirs, alone)
    # what is left out: RF; flags that AND and a shift by 1 leave undefined; EAX after an IN of a foreign device; RF in the frame of a fault
    unseen(difference(ours, [*theirs[:-1], theirs[-1] | {"eflags": theirs[-1]["eflags"] | 0x10000}], ours.memory, alone), "RF")
    unseen(difference(ours, changed(theirs, AND + 1, "eflags", 0x10), ours.memory, alone), "AF after AND")
    unseen(difference(ours, changed(theirs, SHIFT + 1, "eflags", 0x10), ours.memory, alone), "AF after SHL")
    free = [state if number != FOREIGN_IN + 1 else state | {"eax": 0x7F} for number, state in enumerate(theirs)]
    unseen(difference(ours, free, ours.memory, alone), "EAX after IN")
    memory = bytearray(ours.memory)
    memory[(ours.states[FAULT + 1]["esp"] + 12 + 2) & 0xFFF] ^= 1
    unseen(difference(ours, theirs, bytes(memory), alone), "RF in a frame")
    memory = bytearray(ours.memory)
    memory[(ours.states[INTERRUPT + 1]["esp"] + 8) & 0xFFF] ^= 0x10
    count += seen(difference(ours, theirs, bytes(memory), alone), None, "memory")
    unseen(difference(ours, changed(theirs, AND + 1, "eflags", 0x10), bytes(memory), alone), "AF in a frame")
    # and where they aren't: AF after another instruction, CF and OF after a shift by 1, EAX after an instruction that both have
    count += seen(difference(ours, changed(theirs, AND, "eflags", 0x10), ours.memory, alone), AND - 1, "eflags")
    for flag in (1, 0x800):
        count += seen(difference(ours, changed(theirs, SHIFT + 1, "eflags", flag), ours.memory, alone), SHIFT, "eflags")
    count += seen(difference(ours, changed(theirs, FOREIGN_IN + 2, "eax", 1), ours.memory, alone), FOREIGN_IN + 1, "eax")
    return count
