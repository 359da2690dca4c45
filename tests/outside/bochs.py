"""Single steps of Bochs over a guest, by its own debugger.

Not proved. It rests on what Debian's bochs 2.7 prints for `r`, `sreg` and `creg`, on the ROM (boot.asm), and on Bochs' model of a
processor. A step of Bochs that takes an interrupt also carries out the handler's first instruction.
"""
import os
import re
import select
import struct
import subprocess
import tempfile
import threading

import boot
from machine import PAGE, Wrong

PROGRAM = "bochs-bin"
PACKAGE = "bochs"
IS_JOINED = True                # a step that takes an interrupt carries out the handler's first instruction too
WRITES_ACCESSED = True
SECONDS = 120                   # without a word, at most
QUIET = 20                      # the same while it steps: it has halted for ever then, or shut down
PROCESSOR = "pentium"
RATE = 9545456                  # instructions a second: eight for each count of the timer, as a step here
WINDOW = 1016                   # a directory index that no kernel uses: memory is read through it at the end
WINDOW_TABLES = 0x1810003       # the ROM's tables of the first 32 MB
MARK = "0xbeef 48879"           # what `? 0xbeef` prints

STATE = re.compile(
    r"rax: \w+_(\w+)\nrbx: \w+_(\w+)\nrcx: \w+_(\w+)\nrdx: \w+_(\w+)\nrsp: \w+_(\w+)\nrbp: \w+_(\w+)\n"
    r"rsi: \w+_(\w+)\nrdi: \w+_(\w+)\n(?:r\d.*\n)+rip: \w+_(\w+)\neflags 0x(\w+)"
)
STATE_NAMES = ("eax", "ebx", "ecx", "edx", "esp", "ebp", "esi", "edi", "eip", "eflags")
SEGMENT = re.compile(r"^(es|cs|ss|ds):0x(\w+)", re.M)
CONTROL = re.compile(r"^CR0=0x(\w+).*?laddr=0x(\w+).*?CR3=0x(\w+).*?CR4=0x(\w+)", re.S | re.M)
TABLES = re.compile(r"^tr:0x(\w+).*\ngdtr:base=0x(\w+), limit=0x(\w+)\nidtr:base=0x(\w+), limit=0x(\w+)", re.M)

CONFIGURATION = """megs: 64
romimage: file={rom}, address=0xffff0000
vgaromimage: file={room}/vga.rom
optramimage1: file={pieces}, address=0x1000000
cpu: model={processor}, count=1, ips={rate}, reset_on_triple_fault=0
pci: enabled=1, chipset=i440fx
clock: sync=none, time0=1
sound: driver=dummy, waveout=none, wavein=none, midiout=none
speaker: enabled=0
com1: enabled=1, mode=null
com2: enabled=1, mode=null
parport1: enabled=1, file="{room}/printed"
ata0: enabled=1, ioaddr1=0x1f0, ioaddr2=0x3f0, irq=14
ata0-master: type=disk, mode=flat, path="{room}/disk", cylinders=2, heads=16, spt=63, translation=none
display_library: rfb, options="timeout=0"
log: {room}/log
panic: action=report
error: action=report
"""


def configured(room, rom, pieces):
    """Writes Bochs' files; gives the name of the configuration."""
    vga = bytearray(512)
    vga[0:4] = bytes([0x55, 0xAA, 1, 0xCB])     # a video ROM that returns at once, with its checksum
    vga[511] = -sum(vga) & 255
    with open(f"{room}/vga.rom", "wb") as file:
        file.write(vga)
    with open(f"{room}/disk", "wb") as file:
        file.truncate(2 * 16 * 63 * 512)
    with open(f"{room}/configuration", "w", encoding="ascii") as file:
        file.write(CONFIGURATION.format(room=room, rom=rom, pieces=pieces, processor=PROCESSOR, rate=RATE))
    return f"{room}/configuration"


class Debugger:
    """Bochs with its debugger's lines in and its text out."""

    def __init__(self, configuration):
        self.process = subprocess.Popen(
            [PROGRAM, "-q", "-f", configuration], stdin=subprocess.PIPE, stdout=subprocess.PIPE, stderr=subprocess.DEVNULL
        )

    def feed(self, lines):
        try:
            self.process.stdin.write(("\n".join([*lines, "? 0xbeef"]) + "\n").encode())
            self.process.stdin.flush()
        except OSError:
            pass

    def answers(self, lines):
        """What it prints to these lines; whether it came to their end."""
        threading.Thread(target=self.feed, args=(lines,), daemon=True).start()
        out, parts, last, quiet = self.process.stdout.fileno(), [], b"", SECONDS
        while MARK.encode() not in last and select.select([out], [], [], quiet)[0]:
            part = os.read(out, 1 << 16)
            if not part:
                break
            parts.append(part)
            last = last[-200:] + part
            if b"eflags" in part:
                quiet = QUIET
        text = b"".join(parts).decode(errors="replace")
        return text, MARK in text

    def end(self):
        self.process.kill()
        self.process.wait()
        self.process.stdout.close()
        try:
            self.process.stdin.close()
        except OSError:
            pass    # lines that it didn't read any more


def states_in(text):
    """The states that a text shows, as registers by their names."""
    found, segments = STATE.findall(text), SEGMENT.findall(text)
    controls, tables = CONTROL.findall(text), TABLES.findall(text)
    states = []
    for at in range(min(len(found), len(segments) // 4, len(controls), len(tables))):
        state = dict(zip(STATE_NAMES, (int(it, 16) for it in found[at])))
        state.update((name, int(value, 16)) for name, value in segments[4 * at : 4 * at + 4])
        state.update(zip(("cr0", "cr2", "cr3", "cr4"), (int(it, 16) & 0xFFFFFFFF for it in controls[at])))
        names = ("tr", "gdtr_base", "gdtr_limit", "idtr_base", "idtr_limit")
        state.update(zip(names, (int(it, 16) & 0xFFFFFFFF for it in tables[at])))
        states.append(state)
    return states


def memory_of(debugger, state, size, path):
    """The guest's memory, through the ROM's tables, which are put into the present directory for a moment."""
    place = (state["cr3"] & ~0xFFF) + 4 * WINDOW
    count = -(-size // (1 << 22))
    text, _ = debugger.answers([f"xp /{count}wx {place:#x}"])
    rows = re.findall(r"^0x[^\n]*?:\t([^\n]*)", text, re.M)
    words = [int(it, 16) for row in rows for it in row.split("\t")]
    if len(words) != count:
        raise Wrong(f"bochs shows {len(words)} words of the directory, and not {count}")
    put = [f"setpmem {place + 4 * at:#x} 4 {WINDOW_TABLES + PAGE * at:#x}" for at in range(count)]
    debugger.answers([*put, f'writemem "{path}" {WINDOW << 22:#x} {size}'])
    with open(path, "rb") as file:
        memory = bytearray(file.read())
    struct.pack_into(f"<{count}I", memory, place, *words)
    return bytes(memory)


def run(start, rom, steps, script=()):
    """The states before the first step and after each, and the memory at the end, or None where it ended before.

    It has no line for the script's bytes: the kernels raise lines by Bochs' own devices.
    """
    del script
    with tempfile.TemporaryDirectory(prefix="bochs") as room:
        boot.write_pieces(start, f"{room}/pieces")
        debugger = Debugger(configured(room, os.path.abspath(rom), f"{room}/pieces"))
        try:
            show = ["r", "sreg", "creg"]
            clean = [f"setpmem {at:#x} 4 {word:#x}" for at, word in boot.to_clean(start)]
            begin = [f"lb {start.registers['eip']:#x}", "c", "d 1", *clean, *show]
            text, is_whole = debugger.answers([*begin, *["s", *show] * steps])
            states = states_in(text)
            if not is_whole:
                return states, None
            return states, memory_of(debugger, states[-1], len(start.memory), f"{room}/memory")
        finally:
            debugger.end()
