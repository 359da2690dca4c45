"""The ROM, and the guest's memory in the form that the ROM reads (boot.asm).

Not proved. It rests on nasm, and on a checkpoint of step 0 for what the loader makes: nothing of the loader is written twice.
"""
import struct
import subprocess

from machine import PAGE, Wrong

TRAMPOLINE = 0x9F000
DIRECT_MAP = 0xC0000000
HOLE = (0xA0000, 0x100000)      # where a PC has its devices' memory; the ROM makes it RAM of zeros
LARGEST = 0x1000000             # the guest's memory ends where the file stands


def assemble(source, path):
    """Makes the ROM's file."""
    made = subprocess.run(["nasm", "-f", "bin", "-o", path, source], stderr=subprocess.PIPE, text=True)
    if made.returncode:
        raise Wrong(f"nasm: {made.stderr}")


def pieces_of(memory):
    """The frames that aren't zero, neighbours as one piece: their addresses and bytes."""
    found, zero = [], bytes(PAGE)
    for at in range(0, len(memory), PAGE):
        frame = memory[at : at + PAGE]
        if frame == zero:
            continue
        if found and found[-1][0] + len(found[-1][1]) == at:
            found[-1][1].extend(frame)
        else:
            found.append((at, bytearray(frame)))
    return found


def write_pieces(start, path):
    """Writes the file of a guest, of its checkpoint at step 0."""
    pieces = pieces_of(start.memory)
    if len(start.memory) > LARGEST or any(HOLE[0] < at + len(piece) and at < HOLE[1] for at, piece in pieces):
        raise Wrong("the guest's memory doesn't fit into the ROM's frame")
    registers = start.registers
    with open(path, "wb") as file:
        file.write(struct.pack("<4I", len(pieces), registers["eip"], registers["eax"], registers["ebx"]))
        for at, piece in pieces:
            file.write(struct.pack("<2I", at, len(piece) // 4) + piece)


def to_clean(start):
    """What the ROM's last instructions leave in the guest's memory, and what has to stand there: addresses and dwords."""
    directory = start.registers["cr3"] & ~0xFFF
    entry = directory + 4 * (DIRECT_MAP >> 22)
    (table,) = struct.unpack_from("<I", start.memory, entry)
    places = [entry, (table & ~0xFFF) + 4 * (TRAMPOLINE >> 12), *range(TRAMPOLINE, TRAMPOLINE + 24, 4)]
    return [(at, struct.unpack_from("<I", start.memory, at)[0]) for at in places]
