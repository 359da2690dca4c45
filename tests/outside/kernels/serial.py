"""The serial port: its registers, and bytes that come in."""
from kernels.base import Kernel, gate, steps_to_last
from kernels.interrupts import PIC

LISTEN = PIC.replace("$0xF7", "$0xEF")     # line 4 alone
STATE = "movl $0x3FD,%edx; inb %dx,%al; movl $0x3FA,%edx; inb %dx,%al"
TAKE = "movl $0x3F8,%edx; inb %dx,%al"


def registers_of_port():
    """What the registers of the port take and how they read: line and modem control, scratch, interrupt enable, divisor.
    16550 data sheet, register descriptions."""
    k = Kernel(pages=2)
    k("movl $0x3F8,%ebx")
    for offset, values in (
        (3, (0, 0x03, 0x1B, 0x7F, 0x80, 0xFF, 0x03)), (7, (0, 0x55, 0xAA, 0xFF)), (4, (0, 1, 2, 8, 0x0B, 0x0F, 0)), (1, (0, 1, 0)),
    ):
        for value in values:
            k(f"movl ${0x3F8 + offset:#x},%edx; movb ${value:#x},%al; outb %al,%dx; inb %dx,%al")
    k("movl $0x3FB,%edx; movb $0x83,%al; outb %al,%dx; movl $0x3F8,%edx; movb $0x0C,%al; outb %al,%dx; inb %dx,%al")
    k("incl %edx; movb $0x01,%al; outb %al,%dx; inb %dx,%al")
    k("movl $0x3FB,%edx; movb $0x03,%al; outb %al,%dx; movl $0x3F9,%edx; inb %dx,%al")
    k("movl $0x3FA,%edx; inb %dx,%al; movl $0x3FD,%edx; inb %dx,%al; movb $0x55,%al; outb %al,%dx; inb %dx,%al")
    k("movl $0x3FA,%edx; movb $0x02,%al; outb %al,%dx; inb %dx,%al")
    k("movl $0x3F8,%edx; movb $0x41,%al; outb %al,%dx; inb %dx,%al")
    yield "uart", k
    k = Kernel()
    k("movl $0x3FE,%edx; inb %dx,%al; movb $0x55,%al; outb %al,%dx; inb %dx,%al")
    yield "uart-modem-status", k


def received():
    """Bytes that come in at steps of the script (QEMU alone takes them): status, interrupt identification, line 4.
    16550 data sheet, LSR and IIR; 8259A data sheet, requests."""
    k = Kernel(pages=2, tails={0x81: "iret"}, gates={0x24: gate(8, 0x23, 0x8E)})
    k(LISTEN)
    k("movl $0x3FC,%edx; movb $0x0B,%al; outb %al,%dx; movl $0x3FB,%edx; movb $3,%al; outb %al,%dx")
    for text in (
        STATE, STATE, STATE, TAKE, STATE, "movl $0x3F9,%edx; movb $1,%al; outb %al,%dx", STATE, STATE, STATE, "sti; nop; nop", STATE,
        TAKE, STATE, "nop; nop; movb $0x20,%al; outb %al,$0x20; nop; nop", STATE, STATE, TAKE, STATE,
    ):
        k(text)
    k.script = "130 rx 41\n200 rx 42\n290 rx 43\n"
    yield "serial-rx", k


def received_in_a_window():
    """A byte that comes in the step after an instruction that may hold interrupts off, and in the two after that (QEMU alone).
    SDM volume 2, STI, MOV and POP (the interrupt shadow)."""
    for name, test in (
        ("popss", "pushl %ss; popl %ss"), ("movss", "movl %ss,%eax; movl %eax,%ss"), ("movds", "movl %ds,%eax; movl %eax,%ds"),
        ("popf", "pushl $0x202; popf"), ("cli-sti", "cli; sti"), ("nop", "nop"),
    ):
        for delay in (0, 1, 2):
            tail = "movl $0x3F8,%edx; inb %dx,%al; movb $0x20,%al; outb %al,$0x20; iret"
            k = Kernel(pages=2, gates={0x24: gate(8, 0x23, 0x8E)}, tails={0x23: tail})
            k(LISTEN)
            k("movl $0x3FC,%edx; movb $0x0B,%al; outb %al,%dx; movl $0x3F9,%edx; movb $1,%al; outb %al,%dx; sti; nop")
            k.script = f"{k.steps_so_far() + steps_to_last(test) + delay} rx 41\n"
            k(test)
            k("nop; nop; nop; nop")
            yield f"rx-{name}-{delay}", k


FAMILIES = (registers_of_port, received, received_in_a_window)
