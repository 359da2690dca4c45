"""Compares a run of the bare machine with what an outside model did at each step, and both memories at the end.

Not proved. What it leaves out: flags that the SDM leaves undefined, until both agree again, also in EFLAGS words that are pushed meanwhile
and where these are popped; RF, which isn't kept here (docs/DECISIONS.md), in EFLAGS and in the EFLAGS words that faults push; EAX after
an IN of a device that the machine here doesn't have, until both agree; and for QEMU accessed flags in memory that it doesn't write where
CS and SS are loaded.
"""
import re

import looked
from kernels.base import HANDLERS, SLOT, TEXT
from kernels.interrupts import FOREIGN
from machine import Wrong, differing

RF = 0x10000
CF, PF, AF, ZF, SF, OF = 1, 4, 0x10, 0x40, 0x80, 0x800
PAGING = 0x80000000

# Flags that the SDM's volume 2 leaves undefined, by the names of instructions; of shifts see undefined_by_shift.
UNDEFINED = (
    (r"(and|or|xor|test)[bl]?", AF), (r"i?mul[bl]?", SF | ZF | AF | PF), (r"i?div[bl]?", CF | OF | SF | ZF | AF | PF),
)
SHIFT = re.compile(r"(shl|shr|sar|rol|ror)([bl]) (?:(\$0x[0-9a-f]+|%cl),)?")


def undefined_by_shift(found, before):
    """The same of a shift or a rotation, by its size and its count, of which five bits count: all of one by 0 are as they were."""
    name, size, by = found.groups()
    count = (before["ecx"] if by == "%cl" else int(by[1:], 16) if by else 1) & 31
    flags = AF if name[0] == "s" and count else 0
    flags |= OF if count > 1 else 0
    return flags | (CF if name in ("shl", "shr") and count >= (8 if size == "b" else 32) else 0)


def undefined_after(step, before):
    if (found := SHIFT.match(step.does)):
        return undefined_by_shift(found, before)
    name = step.does.split(" ")[0]
    return next((flags for pattern, flags in UNDEFINED if re.fullmatch(pattern, name)), 0)


class Difference(Exception):
    """Where two runs part: the step, or None for the memory at the end, and what differs."""

    def __init__(self, step, what, detail):
        super().__init__(f"{'at the end' if step is None else f'step {step}'}: {detail}")
        self.step, self.what = step, what


def shown(names, ours, theirs):
    return ", ".join(f"{name} {ours[name]:x} here, {theirs[name]:x} there" for name in names)


class Comparison:
    """One walk over both runs."""

    def __init__(self, ours, theirs, memory, model):
        self.ours, self.theirs, self.memory, self.model = ours, theirs, memory, model
        self.loose, self.is_eax_free = 0, False
        self.pushed = {}        # the EFLAGS words on stacks, by their place in a page: the flags that may differ
        self.foreign = {int(step) for step, port, _ in ours.items if port in FOREIGN}

    def same(self, step, ours, theirs):
        """Two states after a step."""
        wrong = differing(ours, theirs)
        apart = (ours["eflags"] ^ theirs["eflags"]) & ~RF
        if "eflags" in wrong and not apart & ~self.loose:
            wrong.remove("eflags")
        self.loose &= apart
        self.is_eax_free = self.is_eax_free and "eax" in wrong
        if self.is_eax_free:
            wrong.remove("eax")
        if wrong:
            raise Difference(step.number, wrong, f"{step.does}: {shown(wrong, ours, theirs)}")

    def push(self, at, others):
        """An EFLAGS word is pushed: it may differ as EFLAGS does, and in other flags."""
        if self.loose | others:
            self.pushed[at & 0xFFF] = self.pushed.get(at & 0xFFF, 0) | self.loose | others

    def note(self, step, before, after):
        """What a step leaves open: undefined flags, EAX, and EFLAGS words that it pushes or pops."""
        delivery = looked.delivery_of(step)
        if delivery:
            self.push(after["esp"] + (8 if delivery.code is None else 12), 0 if delivery.saves_next else RF)
        elif step.does.startswith("pushf"):
            self.push(after["esp"], 0)
        elif step.does.startswith(("popf", "iret")):
            at = before["esp"] + (8 if step.does.startswith("iret") else 0)
            self.loose |= self.pushed.get(at & 0xFFF, 0) & ~RF
        self.loose |= undefined_after(step, before)
        self.is_eax_free = self.is_eax_free or step.number in self.foreign and step.does.startswith("in")

    def walk(self):
        """The states after each step. Of a joined model a step that takes an interrupt has no state of its own."""
        if not self.theirs:
            raise Wrong("the outside model shows no state")
        wrong = differing(self.ours.states[0], self.theirs[0])
        if wrong:
            raise Wrong(f"the ROM doesn't bring it to the boot state: {shown(wrong, self.ours.states[0], self.theirs[0])}")
        at = 0
        for step, before, after in zip(self.ours.steps, self.ours.states, self.ours.states[1:]):
            self.note(step, before, after)
            if self.model.IS_JOINED and step.does.startswith("irq "):
                continue
            at += 1
            if at >= len(self.theirs):
                raise Difference(step.number, ["end"], f"{step.does}: it ends there")
            self.same(step, after, self.theirs[at])
        return at

    def is_left_out(self, at, ours, byte):
        """Whether a byte of memory may differ so."""
        apart = ours[at] ^ byte
        is_flags = any(not apart & ~(self.pushed.get(at - byte_of_it & 0xFFF, 0) >> 8 * byte_of_it) for byte_of_it in range(4))
        is_flat_segment = ours[at] & 0x90 == 0x90 and ours[at + 1 : at + 2] == b"\xcf"
        return is_flags or not self.model.WRITES_ACCESSED and apart == 1 and ours[at] & 1 == 1 and is_flat_segment

    def at_the_end(self):
        """Both memories."""
        if self.memory is None:
            raise Difference(None, ["end"], "it has no memory")
        ours, theirs = self.ours.memory, self.memory
        wrong = []
        for page in range(0, len(ours), 4096):
            if ours[page : page + 4096] == theirs[page : page + 4096]:
                continue
            for at in range(page, page + 4096):
                if ours[at] != theirs[at] and not self.is_left_out(at, ours, theirs[at]):
                    wrong.append(at)
        if wrong:
            first = wrong[0]
            bytes_there = f"{first:x}: {ours[first]:02x} here, {theirs[first]:02x} there"
            raise Difference(None, ["memory"], f"{len(wrong)} bytes of memory, {bytes_there}")

    def after_the_stop(self, at):
        """The delivery that fails here has to fail there too: another handler is entered, or the processor shuts down."""
        if self.ours.stop != "4 DeliveryFailed":
            raise Wrong(f"the kernel stops by {self.ours.stop}, and not by 4 DeliveryFailed")
        if at + 1 >= len(self.theirs):
            return
        state = self.theirs[at + 1]
        others = {TEXT + SLOT * number for number, vector in enumerate(HANDLERS) if vector != 0x83}
        if state["cr0"] & PAGING and state["eip"] not in others:
            raise Difference(len(self.ours.steps) - 1, ["eip"], f"the delivery goes through there, to {state['eip']:x}")


def steps_of(ours, model, kernel):
    """How many steps the outside model has to make."""
    taken = sum(step.does.startswith("irq ") for step in ours.steps[:-1]) if model.IS_JOINED else 0
    return len(ours.steps) - 1 - taken + kernel.after_stop


def compare(ours, theirs, memory, model, kernel):
    """Raises the first Difference, if there is one. `model` is a module with IS_JOINED and WRITES_ACCESSED, as bochs and qemu."""
    comparison = Comparison(ours, theirs, memory, model)
    at = comparison.walk()
    if kernel.after_stop:
        comparison.after_the_stop(at)
    elif ours.stop and not kernel.may_stop:
        raise Wrong(f"the kernel stops by {ours.stop}")
    else:
        comparison.at_the_end()
