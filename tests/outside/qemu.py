"""Single steps of QEMU over a guest, by its server for gdb.

Not proved. It rests on QEMU's gdb server and QMP (Debian's qemu-system-x86 7.2), on the ROM (boot.asm), and on QEMU's model of a
processor (TCG). It doesn't tell GDTR, IDTR and TR. A step that takes an interrupt does nothing else.
"""
import json
import os
import re
import socket
import struct
import subprocess
import tempfile
import time

import boot
from machine import Wrong

PROGRAM = "qemu-system-i386"
PACKAGE = "qemu-system-x86"
IS_JOINED = False       # a step that takes an interrupt does nothing else
WRITES_ACCESSED = False         # CS and SS are loaded without it
SECONDS = 120
PROCESSOR = "pentium,-apic"
NAMES = ("eax", "ecx", "edx", "ebx", "esp", "ebp", "esi", "edi", "eip", "eflags", "es", "cs", "ss", "ds", "cr0", "cr2", "cr3", "cr4")


def connected(path):
    """A socket to a server that is just beginning."""
    found = socket.socket(socket.AF_UNIX)
    found.settimeout(SECONDS)
    for _ in range(500):
        try:
            found.connect(path)
            return found
        except OSError:
            time.sleep(0.02)
    found.close()
    raise Wrong(f"{PROGRAM} doesn't begin")


class Remote:
    """gdb's remote protocol."""

    def __init__(self, path):
        self.socket, self.held = connected(path), b""
        self.ask("QStartNoAckMode")
        self.socket.sendall(b"+")

    def ask(self, question):
        content = question.encode()
        self.socket.sendall(b"$" + content + b"#%02x" % (sum(content) & 255))
        while True:
            begin = self.held.find(b"$")
            end = self.held.find(b"#", begin) if begin >= 0 else -1
            if end >= 0 and len(self.held) >= end + 3:
                answer, self.held = self.held[begin + 1 : end], self.held[end + 3 :]
                return answer.decode()
            part = self.socket.recv(1 << 16)
            if not part:
                raise EOFError("QEMU's gdb server is gone")
            self.held += part

    def places(self):
        """Where each register stands in the answer to `g`, in hexadecimal digits, by the server's own description."""
        text, at = "", 0
        while True:
            answer = self.ask(f"qXfer:features:read:i386-32bit.xml:{at:x},800")
            text += answer[1:]
            at += len(answer) - 1
            if answer[0] == "l" or len(answer) < 2:
                break
        found, at = {}, 0
        for name, bits in re.findall(r'<reg name="(\w+)" bitsize="(\d+)"', re.sub(r"<!--.*?-->", "", text, flags=re.S)):
            found[name] = at
            at += int(bits) // 4
        if not set(NAMES) <= found.keys():
            raise Wrong("QEMU's gdb server doesn't name all registers")
        return {name: found[name] for name in NAMES}


def command(monitor, name, **arguments):
    """A QMP command, with its answer."""
    monitor.write(json.dumps({"execute": name, "arguments": arguments}) + "\n")
    monitor.flush()
    while True:
        answer = json.loads(monitor.readline())
        if "error" in answer:
            raise Wrong(f"QEMU: {answer['error']}")
        if "return" in answer:
            return answer["return"]


def begun(remote, start):
    """Runs the ROM up to the entry, and clears what it left. Gives the function that reads the registers."""
    places = remote.places()

    def registers():
        text = remote.ask("g")
        return {name: int.from_bytes(bytes.fromhex(text[at : at + 8]), "little") for name, at in places.items()}

    entry = start.registers["eip"]
    for question in ("Qqemu.sstep=1", f"Z0,{entry:x},1", "c", f"z0,{entry:x},1", "Qqemu.PhyMemMode:1"):
        remote.ask(question)
    for at, word in boot.to_clean(start):
        if remote.ask(f"M{at:x},4:" + struct.pack("<I", word).hex()) != "OK":
            raise Wrong("QEMU's gdb server doesn't write physical memory")
    remote.ask("Qqemu.PhyMemMode:0")
    return registers


def stepped(remote, registers, steps, bytes_at, serial):
    """The states before the first step and after each. A byte comes before the step that the script names."""
    states = [registers()]
    for step in range(steps):
        for byte in bytes_at.get(step, ()):
            serial.sendall(bytes([byte]))
            time.sleep(0.3)     # the device takes the byte in a thread of its own while the processor stands
        for _ in range(4):
            # a step that a timer of QEMU's own cut off before the instruction is taken again
            remote.ask("s")
            state = registers()
            if state != states[-1]:
                break
        states.append(state)
    return states


def run(start, rom, steps, script=()):
    """The states before the first step and after each, and the memory at the end, or None where it ended before."""
    bytes_at = {}
    for line in script:
        words = line.split()
        if len(words) == 3 and words[1] == "rx":
            bytes_at.setdefault(int(words[0]), []).append(int(words[2], 16))
    with tempfile.TemporaryDirectory(prefix="qemu") as room:
        boot.write_pieces(start, f"{room}/pieces")
        words = [PROGRAM, "-M", "pc", "-accel", "tcg", "-cpu", PROCESSOR, "-m", "64", "-nodefaults", "-display", "none", "-vga", "none"]
        words += ["-bios", os.path.abspath(rom), "-device", f"loader,file={room}/pieces,addr=0x1000000,force-raw=on", "-S"]
        words += ["-gdb", f"unix:{room}/gdb,server=on,wait=off", "-qmp", f"unix:{room}/qmp,server=on,wait=off"]
        words += ["-chardev", f"socket,id=first,path={room}/serial,server=on,wait=off", "-serial", "chardev:first", "-serial", "null"]
        with open(f"{room}/said", "w", encoding="utf-8") as said:
            process = subprocess.Popen(words, stdin=subprocess.DEVNULL, stdout=said, stderr=said)
        try:
            remote = Remote(f"{room}/gdb")
            serial = connected(f"{room}/serial")
            registers = begun(remote, start)
            states = stepped(remote, registers, steps, bytes_at, serial)
            monitor = connected(f"{room}/qmp").makefile("rw")
            monitor.readline()
            command(monitor, "qmp_capabilities")
            command(monitor, "pmemsave", val=0, size=len(start.memory), filename=f"{room}/memory")
            with open(f"{room}/memory", "rb") as file:
                return states, file.read()
        except (EOFError, OSError) as error:
            with open(f"{room}/said", encoding="utf-8") as said:
                raise Wrong(f"{PROGRAM}: {error} {said.read()}") from None
        finally:
            process.kill()
            process.wait()
