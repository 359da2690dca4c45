"""External interrupts: when one is taken, what holds it off, and the registers of both controllers.

The lines rise by devices of the outside models: line 3 by the second serial port, 7 by the printer's, 14 by the disk's. The machine here
has no such devices; its script gets the edge for the step after the OUT that raises it (RISES).
"""
from kernels.base import Kernel, gate

PIC = (
    "movb $0x11,%al; outb %al,$0x20; outb %al,$0xA0; movb $0x20,%al; outb %al,$0x21; movb $0x28,%al; outb %al,$0xA1; "
    "movb $4,%al; outb %al,$0x21; movb $2,%al; outb %al,$0xA1; movb $1,%al; outb %al,$0x21; outb %al,$0xA1; "
    "movb $0xF7,%al; outb %al,$0x21; movb $0xFF,%al; outb %al,$0xA1"
)
ARM = "movl $0x2FC,%edx; movb $8,%al; outb %al,%dx"
RISE = "movl $0x2F9,%edx; movb $0,%al; outb %al,%dx; movb $2,%al; outb %al,%dx"
RISE7 = "movl $0x37A,%edx; movb $0x1C,%al; outb %al,%dx; movb $0x1D,%al; outb %al,%dx"
RISE14 = (
    "movl $0x3F6,%edx; movb $8,%al; outb %al,%dx; movl $0x1F2,%edx; movb $63,%al; outb %al,%dx; "
    "movl $0x1F6,%edx; movb $0xAF,%al; outb %al,%dx; movl $0x1F7,%edx; movb $0x91,%al; outb %al,%dx"
)
FALL7 = "movl $0x379,%edx; inb %dx,%al"
FALL14 = "movl $0x1F7,%edx; inb %dx,%al"
RISES = {("02f9", "02"): 3, ("037a", "1d"): 7, ("01f7", "91"): 14}      # port and value of the OUT, as items have them
FOREIGN = ("02f9", "02fc", "0379", "037a", "03f6", "01f2", "01f6", "01f7")

EOI = "movb $0x20,%al; outb %al,$0x20"
EOI_BOTH = "movb $0x20,%al; outb %al,$0xA0; outb %al,$0x20"
READ = "inb $0x20,%al; inb $0xA0,%al; inb $0x21,%al; inb $0xA1,%al"
IRR = "movb $0x0A,%al; outb %al,$0x20; outb %al,$0xA0"
ISR = "movb $0x0B,%al; outb %al,$0x20; outb %al,$0xA0"
STATUS = f"{IRR}; inb $0x20,%al; inb $0xA0,%al; {ISR}; inb $0x20,%al; inb $0xA0,%al; inb $0x21,%al; inb $0xA1,%al"
END_IT = "pushl %eax; movb $0x20,%al; outb %al,$0x20; popl %eax; iret"

WINDOWS = {
    "sti": "sti; nop; nop; nop; nop; nop; nop",
    "sti-sti": "sti; sti; nop; nop; nop",
    "sti-cli": "sti; cli; nop; nop; sti; nop; nop; nop",
    "sti-movss": "movl $0x10,%ecx; sti; movl %ecx,%ss; nop; nop; nop",
    "popf": "pushl $0x202; popf; nop; nop; nop; nop",
    "popf-movss": "movl $0x10,%ecx; pushl $0x202; popf; movl %ecx,%ss; movl %ecx,%ss; nop",
    "iret": "pushl $0x202; pushl $8; pushl $M1; iret; M1: nop; nop; nop; nop",
    "movss": f"movl $0x10,%ecx; movl %esp,%edi; sti; nop; nop; nop; nop; nop; {RISE}; movl %ecx,%ss; movl %edi,%esp; nop; nop; nop",
    "popss": "sti; nop; nop; pushl %ss; popl %ss; nop; nop; nop",
    "sti-int": "sti; int $0x82; nop; nop",
    "sti-int80": "sti; int $0x80; nop; nop",
    "sti-ud2": "sti; ud2; nop; nop",
    "sti-pushf": "sti; pushf; nop; nop",
    "rep": "movl $zeros,%edi; movl $7,%ecx; cld; sti; rep stosb; nop; nop",
    "rep2": "movl $zeros,%edi; movl $zeros+100,%esi; movl $7,%ecx; cld; sti; nop; nop; nop; nop; nop; rep movsl; nop; nop",
    "sti-hlt": "sti; hlt; nop; nop",
    "loadds": "movl $0x10,%ecx; pushl $0x202; popf; movl %ecx,%ds; nop; nop",
    "sti-fault": "sti; movl 0x66666666,%ecx; nop; nop",
    "movss-fault": "movl $0x10,%ecx; pushl $0x202; popf; movl %ecx,%ss; movl 0x66666666,%ecx; nop",
}


def when_taken():
    """A request waits while IF becomes 1 by STI, POPF or IRET, and comes while it is 1: after which instruction it is taken, through
    both kinds of gates. In text each sensitive instruction has its NOPs after it.
    SDM volume 3, 6.8.1 (masking maskable hardware interrupts), 6.8.3 (masking when switching stacks); volume 2, STI, HLT."""
    for name, window in WINDOWS.items():
        for kind in (0x8E, 0x8F):
            k = Kernel(gates={0x23: gate(8, 0x23, kind)}, tails={0x23: END_IT})
            k(PIC)
            k(ARM)
            k(RISE)
            label = k.label()
            k(f"movl ${label},(%ebp)")
            k(window)
            k(f"{label}: nop; nop; nop")
            k("pushl $0x202; popf; nop; nop; nop")
            k(RISE)
            k("nop; nop; nop; cli")
            yield f"irq-{name}-{kind:x}", k


def taken_at_level_3():
    """Interrupts of code at level 3, with IOPL 3 and 0: the stack of level 0, and the way back.
    SDM volume 3, 6.12.1 (stack switch)."""
    for kind in (0x8E, 0x8F):
        k = Kernel(user=0x3202, gates={0x23: gate(8, 0x23, kind)}, tails={0x23: END_IT})
        k.begin(PIC)
        k.begin(ARM)
        k(RISE)
        k("nop; nop; nop; cli")
        k(RISE)
        k("nop; nop; sti; nop; nop; nop")
        k(RISE)
        k("nop; nop; pushl $0x3202; popf; nop; nop; pushl $0x23; popl %ss; nop; nop")
        yield f"irq-user-{kind:x}", k
        k = Kernel(user=0x202, gates={0x23: gate(8, 0x23, kind)}, tails={0x23: END_IT})
        k.begin(PIC)
        k.begin(ARM)
        k.begin(RISE)
        k("nop; nop; nop; movl $zeros,%eax; nop; int $0x80; nop")
        yield f"irq-outer-{kind:x}", k


def registers_of_controllers():
    """Requests, levels in service and masks as they read, EOIs of both kinds, and a start while a level is in service.
    8259A data sheet: ICW1 to ICW4, OCW1 to OCW3."""
    k = Kernel(pages=2)
    for text in (PIC, ARM, READ, RISE, IRR, READ, ISR, READ, EOI, ISR, READ, RISE, IRR, READ):
        k(text)
    for mask in (0xFF, 0x00, 0xF7, 0x55):
        k(f"movb ${mask:#x},%al; outb %al,$0x21; inb $0x21,%al; movb ${mask ^ 0x3C:#x},%al; outb %al,$0xA1; inb $0xA1,%al")
    for text in (PIC, IRR, READ, ISR, READ):
        k(text)
    yield "pic-reads", k
    k = Kernel(tails={0x23: "iret"}, pages=2)
    for text in (
        PIC, ARM, ISR, "sti; nop", RISE, "nop; nop", READ, RISE, "nop; nop", READ, IRR, READ, ISR,
        "movb $0x62,%al; outb %al,$0x20", READ, "movb $0x63,%al; outb %al,$0x20; nop; nop", READ,
        EOI, "nop; nop", READ, EOI, READ, IRR, READ,
        # masked, then unmasked
        "movb $0xFF,%al; outb %al,$0x21", RISE, IRR, READ, "nop; movb $0xF7,%al; outb %al,$0x21; nop; nop", READ,
        # the start while a level is in service
        PIC, ISR, READ, IRR, READ, RISE, "nop; nop", ISR, READ,
    ):
        k(text)
    yield "pic-service", k


ORDERS = (
    ("3-7", (RISE, RISE7)), ("7-3", (RISE7, RISE)), ("14-3", (RISE14, RISE)), ("3-14", (RISE, RISE14)), ("7-14", (RISE7, RISE14)),
    ("14-7", (RISE14, RISE7)), ("14", (RISE14,)), ("7", (RISE7,)),
)


def with_lines():
    """A kernel that listens to lines 3, 7 and 14; its handlers end nothing."""
    fall = {vector: f"pushl %edx; pushl %eax; {text}; popl %eax; popl %edx; iret" for vector, text in ((0x27, FALL7), (0x2E, FALL14))}
    k = Kernel(pages=3, tails={0x23: "iret", **fall})
    k(PIC)
    k(ARM)
    k("movb $0x73,%al; outb %al,$0x21; movb $0xBF,%al; outb %al,$0xA1")
    return k


def levels():
    """Lines of both controllers in each order: pending together, one while another is in service, EOIs of both kinds, and masks.
    8259A data sheet: fully nested mode, cascade mode, EOI, OCW1."""
    for name, rises in ORDERS:
        k = with_lines()
        for rise in rises:
            k(rise)
            k(STATUS)
        k("sti; nop; nop; nop")
        for _ in range(3):
            k(STATUS)
            k(EOI_BOTH + "; nop; nop; nop")
        k(STATUS)
        yield f"level-pending-{name}", k
        k = with_lines()
        k("sti; nop")
        for rise in rises:
            k(rise)
            k("nop; nop")
            k(STATUS)
        for end in (EOI, "movb $0x20,%al; outb %al,$0xA0", EOI_BOTH, EOI_BOTH):
            k(end + "; nop; nop; nop")
            k(STATUS)
        yield f"level-nested-{name}", k
        k = with_lines()
        k("sti; nop")
        for rise in rises:
            k(rise)
            k("nop; nop")
        for port, value in ((0x20, 0x63), (0x20, 0x62), (0xA0, 0x66), (0x20, 0x67), (0x20, 0x62), (0xA0, 0x60)):
            k(f"movb ${value:#x},%al; outb %al,${port:#x}; nop; nop; nop")
            k(STATUS)
        yield f"level-specific-{name}", k
        k = with_lines()
        k("movb $0xFF,%al; outb %al,$0x21; outb %al,$0xA1; sti; nop")
        for rise in rises:
            k(rise)
            k("nop")
        k(STATUS)
        for port, value in ((0x21, 0x7B), (0xA1, 0xBF), (0x21, 0x77), (0x21, 0xFB), (0x21, 0x00), (0xA1, 0xFF)):
            k(f"movb ${value:#x},%al; outb %al,${port:#x}; nop; nop; nop")
            k(STATUS)
            k(EOI_BOTH + "; nop; nop")
        k(STATUS)
        yield f"level-mask-{name}", k


# Two instructions in a row, as bytes, since text has NOPs between two sensitive ones.
PAIRS = (
    ("sti-movss", "FB8ED1909090"), ("sti-popss", "FB17909090"), ("sti-nop", "FB909090"), ("sti-sti", "FBFB909090"),
    ("sti-cli", "FBFA9090FB909090"), ("sti-popf", "FB9D909090"), ("sti-movds", "FB8ED9909090"), ("sti-popds", "FB1F909090"),
    ("popf-movss", "9D8ED1909090"), ("popf-nop", "9D909090"), ("sti-int", "FBCD80909090"), ("sti-ud2", "FB0F0B909090"),
    ("sti-pushf", "FB9C589090"), ("sti-movss-movss", "FB8ED18ED1909090"), ("sti-popss-popss", "FB1717909090"),
    ("sti-out", "FBE680909090"), ("sti-movss-ud2", "FB8ED10F0B9090"), ("sti-movss-int", "FB8ED1CD809090"),
    ("sti-rep", "FBF3AA909090"), ("sti-iret", "FBCF909090"), ("sti-jmp", "FBEB00909090"),
)
RISE_BYTES = "BAF9020000B000EEB002EE"


def held_off():
    """What holds a waiting interrupt off after STI, MOV SS and POP SS, by two instructions in a row in a page of code at level 3.
    SDM volume 2, STI and MOV (the interrupt shadow); volume 3, 6.8.3."""
    for name, code in PAIRS:
        raw = bytes.fromhex(RISE_BYTES + code + "CD829090")
        raw += bytes(-len(raw) % 4)
        tails = {0x23: END_IT, 6: "addl $2,(%esp); iret", 0x82: "jmp done", 13: "jmp done"}
        k = Kernel(user=0x3002, gates={0x23: gate(8, 0x23, 0x8E)}, tails=tails)
        k.begin(PIC)
        k.begin(ARM)
        k.begin("movl $0x30007,0xC0001080; movl $0x40007,0xC0030000; movl $0x41007,0xC0030004")
        for at in range(0, len(raw), 4):
            k.begin(f"movl ${int.from_bytes(raw[at:at + 4], 'little'):#x},{0xC0040000 + at:#x}")
        # the stack: for IRET its three words; flags with IF and IOPL 3 for POPF; else SS twice, and flags
        words = [0x23, 0x23, 0x3202]
        if name == "sti-iret":
            words = [0x08000000 + len(bytes.fromhex(RISE_BYTES)) + 2, 0x1B, 0x3202]
        elif "popf" in name:
            words = [0x3202]
        for at, word in enumerate(words):
            k.begin(f"movl ${word:#x},{0xC0041800 + 4 * at:#x}")
        k(f"movl ${'4' if name == 'sti-rep' else '0x23'},%ecx; cld; movl $0x08001C00,%edi")
        k("movl $0x08001800,%esp; movl $0x08000000,%eax; jmp *%eax")
        yield f"hold-{name}", k
    k = Kernel(user=0x3202)
    k("cli; sti; sti; pushl %ss; popl %ss; movl %ss,%eax; movl %eax,%ss")
    yield "hold-u", k


FAMILIES = (when_taken, taken_at_level_3, registers_of_controllers, levels, held_off)
