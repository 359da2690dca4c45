"""A machine between two steps: its registers by their names, and its memory.

Not proved. It rests on docs/FORMATS.md (Checkpoints) for what `save` stores.
"""
import struct

GENERAL = ("eax", "ecx", "edx", "ebx", "esp", "ebp", "esi", "edi")
SEGMENTS = ("es", "cs", "ss", "ds")
CONTROL = ("cr0", "cr2", "cr3", "cr4")
TABLES = ("gdtr_base", "gdtr_limit", "idtr_base", "idtr_limit", "tr")
FIELDS = ("eip", *GENERAL, "eflags", *SEGMENTS, *CONTROL, *TABLES)
PAGE = 4096
HEAD = 256


class Wrong(Exception):
    """Something that isn't as it has to be for a comparison: a file, a text, a program."""


class Checkpoint:
    """What `pv save` stores: the step, the registers by their names, and the bytes of memory."""

    def __init__(self, path):
        with open(path, "rb") as file:
            content = file.read()
        if content[:4] != b"PVC1" or len(content) < HEAD:
            raise Wrong(f"{path} is no checkpoint")
        self.frames, self.step = struct.unpack_from("<IQ", content, 4)
        self.memory = content[HEAD:]
        if len(self.memory) != PAGE * self.frames:
            raise Wrong(f"{path}: its length isn't that of {self.frames} frames")
        self.registers = dict(zip((*GENERAL, "eip", "eflags", *CONTROL), struct.unpack_from("<14I", content, 16)))
        self.registers["gdtr_base"], self.registers["idtr_base"] = struct.unpack_from("<2I", content, 72)
        self.registers["gdtr_limit"], self.registers["idtr_limit"], self.registers["tr"] = struct.unpack_from("<3H", content, 88)
        for at, name in enumerate(SEGMENTS):
            self.registers[name] = struct.unpack_from("<H", content, 96 + 4 * at)[0]


def differing(ours, theirs):
    """The names of the registers that differ, of those that both have."""
    return [name for name in FIELDS if name in ours and name in theirs and ours[name] != theirs[name]]
