"""gdb's remote protocol: packets on standard input and output, and the registers that gdb is told of.

Not proved. It rests on the chapter 'Remote Protocol' of gdb's manual; it was tried with gdb 13.
"""
import os
import select

FLAGS = (("CF", 0), ("PF", 2), ("AF", 4), ("ZF", 6), ("SF", 7), ("TF", 8), ("IF", 9), ("DF", 10), ("OF", 11), ("IOPL", 12, 13), ("NT", 14))
GENERAL = "eax ecx edx ebx esp ebp esi edi".split()
SEGMENTS = "cs ss ds es fs gs".split()
# gdb drops a description without them, and says nothing.
FLOATING = "fctrl fstat ftag fiseg fioff foseg fooff fop".split()
SYSTEM = "cr0 cr2 cr3 cr4 gdtr gdtr_limit idtr idtr_limit tr tr_base tr_limit level halted held".split()
ESCAPED = b"#$}*"
PACKET = 0x4000
INTERRUPT = b"\x03"


class Refused(Exception):
    """What a program said when it didn't do what it was asked."""


class Interrupted(Exception):
    """Somebody has had enough of waiting."""


def registers():
    """Each register with its type and its bits, in the order in which gdb counts them."""
    found = [(it, "data_ptr" if it in ("esp", "ebp") else "int32", 32) for it in GENERAL]
    found += [("eip", "code_ptr", 32), ("eflags", "i386_eflags", 32)]
    found += [(it, "int32", 32) for it in SEGMENTS]
    found += [(f"st{i}", "i387_ext", 80) for i in range(8)]
    found += [(it, "int", 32) for it in FLOATING]
    core = len(found)
    found += [(it, "uint32", 32) for it in SYSTEM]
    return found + [("step", "uint64", 64)], core


REGISTERS, CORE = registers()
NUMBER = {name: i for i, (name, _, _) in enumerate(REGISTERS)}


def description():
    fields = "".join(f'<field name="{name}" start="{low}" end="{(high or [low])[0]}"/>' for name, low, *high in FLAGS)
    lines = [f'<reg name="{name}" bitsize="{bits}" type="{kind}"/>' for name, kind, bits in REGISTERS]
    return ('<?xml version="1.0"?><!DOCTYPE target SYSTEM "gdb-target.dtd"><target version="1.0"><architecture>i386</architecture>'
            f'<feature name="org.gnu.gdb.i386.core"><flags id="i386_eflags" size="4">{fields}</flags>{"".join(lines[:CORE])}</feature>'
            f'<feature name="kernel.system">{"".join(lines[CORE:])}</feature></target>')


def written(value, bits):
    """A register's value; x where it isn't known."""
    return "x" * (bits // 4) if value is None else value.to_bytes(bits // 8, "little").hex()


class Wire:
    """What comes from gdb, packet by packet, and what goes to it."""

    def __init__(self, source, target):
        self.file, self.out, self.held, self.acknowledges = source, target, b"", True

    def more(self):
        """Reads what there is, and waits for something; whether there was any."""
        part = os.read(self.file, 1 << 16)
        self.held += part
        return bool(part)

    def is_interrupted(self):
        """Whether gdb wants the program to stop, or is gone. It is asked where something came."""
        if not self.more():
            return True
        before, interrupt, after = self.held.partition(INTERRUPT)
        self.held = before + after
        return bool(interrupt)

    def receive(self):
        """The next packet's text, or None where gdb is gone."""
        while True:
            start = self.held.find(b"$")
            end = self.held.find(b"#", start + 1)
            if start >= 0 and 0 <= end <= len(self.held) - 3:
                break
            if not self.more():
                return None
        text, self.held = self.held[start + 1:end], self.held[end + 3:]
        if self.acknowledges:
            self.put(b"+")
        parts = text.split(b"}")
        return (parts[0] + b"".join(bytes([it[0] ^ 0x20]) + it[1:] for it in parts[1:] if it)).decode("latin-1")

    def send(self, text):
        body = b"".join(bytes((0x7d, it ^ 0x20)) if it in ESCAPED else bytes((it,)) for it in text.encode("latin-1"))
        self.put(b"$%b#%02x" % (body, sum(body) & 255))

    def say(self, text):
        """Has gdb print a text, while it waits for a stop."""
        for at in range(0, len(text), PACKET // 4):
            self.send("O" + text[at:at + PACKET // 4].encode("latin-1", "replace").hex())

    def put(self, data):
        while data:
            _, ready, _ = select.select([], [self.out], [])
            data = data[os.write(self.out, data):] if ready else data
