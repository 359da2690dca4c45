"""What the directed kernels share: descriptors, handlers, tables, and the way to level 3.

Not proved. A kernel is a source that `burn` takes, made of straight code with tests in it. While a test runs EBP is the address of the
word `resume`, in which each test puts the address of the code after it: a handler of a fault goes on there, at the level at which the
fault came. So every test is reached, whatever came of the one before. Each handler begins with its vector in EDX. At its end a
kernel jumps to itself, where a comparison stops.
"""

SLOT = 32           # bytes from handler to handler, from the text's first byte on
TEXT = 0x10000000
HANDLERS = (0, 3, 6, 11, 12, 13, 14, 0x80, 0x81, 0x23, 0x82, 0x27, 0x2E, 0x83, 0x84, 8, 10)
WITH_CODE = (11, 12, 13, 14)
NOT_DELIVERED = (8, 10)         # the machine here delivers neither: only kernels of deliveries that fail have their gates
FROM_LEVEL_3 = (3, 0x80, 0x82, 0x83, 0x84)
TRAP_GATES = (0x82,)

# The kernels' own GDT: each kind of descriptor, present and absent, with and without the accessed flag (SDM volume 3, 3.4.5).
GDT = (
    ("null", "0,0"), ("code0", "0xFFFF,0xCF9B00"), ("data0", "0xFFFF,0xCF9300"), ("code3", "0xFFFF,0xCFFA00"),
    ("data3", "0xFFFF,0xCFF200"), ("task", "0x03000067,0x11008900"), ("absdata0", "0xFFFF,0xCF1200"),
    ("ldt", "0,0x8200"), ("abscode0", "0xFFFF,0xCF1A00"), ("freshcode0", "0xFFFF,0xCF9A00"),
    ("freshdata0", "0xFFFF,0xCF9200"), ("absdata3", "0xFFFF,0xCF7200"), ("abscode3", "0xFFFF,0xCF7A00"),
    ("busy", "0x03000067,0x11008B00"), ("abstask", "0x03000067,0x11000900"), ("gate", "0x00080000,0x10008C00"),
    ("intgate", "0x00080000,0x10008E00"), ("sys0", "0,0x8000"), ("task2", "0x03000067,0x11008900"),
    ("ss0fresh", "0xFFFF,0xCF9200"), ("code3b", "0xFFFF,0xCFFA00"), ("data3b", "0xFFFF,0xCFF200"),
    ("absbusy", "0x03000067,0x11000B00"), ("taskgate", "0x00280000,0x8500"),
)
SEL = {name: 8 * at for at, (name, _) in enumerate(GDT)}
LIMIT = 8 * len(GDT) - 1

WP = "movl %cr0,%eax; orl $0x10000,%eax; movl %eax,%cr0"
RELOAD = "movl %cr3,%eax; movl %eax,%cr3"


def gate_at(selector, address, kind, byte4=0):
    """A gate's two dwords (SDM volume 3, 6.11), with its type byte and byte 4."""
    return f"{selector << 16 | address & 0xFFFF:#x},{address & 0xFFFF0000 | kind << 8 | byte4:#x}"


def gate(selector, vector, kind, byte4=0):
    """A gate to the handler of a vector."""
    return gate_at(selector, TEXT + SLOT * HANDLERS.index(vector), kind, byte4)


def selectors():
    """What the tests of loads try: each entry of the GDT with each RPL, null ones, and some beyond the limit."""
    found = [0, 1, 2, 3]
    for name, _ in GDT[1:]:
        found += [SEL[name] | rpl for rpl in range(4)]
    for selector in (LIMIT + 1, LIMIT + 9, 0x7F8, 0xFFF8):
        found += [selector, selector | 3]
    return found


def name_of(selector):
    at = selector >> 3
    return GDT[at][0] if at < len(GDT) else "beyond"


def is_code(name):
    return "code" in name


def is_data(name):
    return "data" in name or name == "ss0fresh"


def site_padding(statement):
    """How many NOPs `burn` puts after a statement: a sensitive instruction is made five bytes long."""
    name, size = statement.split()[0], 0
    is_stacked_segment = statement.startswith(("pushl %", "popl %")) and statement[-2:] in ("es", "cs", "ss", "ds")
    if is_stacked_segment or name in ("pushf", "popf", "sti", "cli", "iret", "inb", "outb"):
        size = 2 if "$" in statement else 1
    elif statement.endswith((",%ss", ",%ds", ",%es")) or statement.startswith(("movl %ss,", "movl %ds,")):
        size = 2
    elif name == "ltr":
        size = 3
    return 5 - size if size else 0


def steps_to_last(text):
    """How many steps straight code takes up to its last instruction, and that one: NOPs of sites count too."""
    statements = text.split("; ")
    return len(statements) + sum(site_padding(it) for it in statements[:-1])


class Kernel:
    """One kernel.

    user    False: the tests run at level 0. Else at level 3, with this as the first EFLAGS (True: 2)
    gates   gates of the IDT by vector, in place of or beside those of HANDLERS
    ss0, esp0   the stack of level 0 in the TSS
    gdt     entries by name that are others than in GDT
    tails   by vector, what a handler does after its first instruction
    pages   how many pages of text code at level 3 may use
    data    the selector that DS and ES have when code at level 3 begins
    script  the text of the script
    timer   whether it uses the timer, so that only a model whose time are its instructions can run it
    after_stop  whether the run has to stop at a delivery that fails, and the outside model to meet a fault there
    may_stop    whether the run may stop by name, and is compared up to there
    """

    def __init__(self, user=False, gates=None, ss0=0x10, esp0=0x11003000, gdt=None, tails=None, pages=1, data=0x23, after_stop=False):
        self.user, self.pages, self.data = user, pages, data
        self.gates, self.gdt, self.tails = dict(gates or {}), dict(gdt or {}), dict(tails or {})
        self.ss0, self.esp0 = ss0, esp0
        self.script, self.timer, self.after_stop, self.may_stop = "", False, after_stop, False
        self.first, self.lines, self.last, self.labels = [], [], [], 0

    def __call__(self, text):
        """Adds statements, with '; ' between them."""
        self.lines.append(text)

    def begin(self, text):
        """Adds statements that come at level 0, before the tests."""
        self.first.append(text)

    def end(self, text):
        """Adds statements that stand after the kernel's end."""
        self.last.append(text)

    def label(self):
        self.labels += 1
        return f"L{self.labels}"

    def test(self, text):
        """Does text, whatever comes of it, and goes on after it."""
        label = self.label()
        self(f"movl ${label},(%ebp)")
        self(text)
        self(f"{label}:")

    def steps_so_far(self):
        """How many steps the straight code up to here takes at level 0, from boot."""
        begin = ["lgdt gdtr", "lidt idtr", "movl $stack,%esp", "movl $resume,%ebp", "movl $0x28,%eax", "ltr %ax"]
        return steps_to_last("; ".join([*begin, *self.lines, "nop"])) - 1

    def handler(self, vector):
        if vector in self.tails:
            return self.tails[vector]
        if vector in WITH_CODE:
            return "movl (%ebp),%ecx; movl %ecx,4(%esp); addl $4,%esp; iret"
        if vector in NOT_DELIVERED:
            return "jmp done"
        return "movl (%ebp),%ecx; movl %ecx,(%esp); iret" if vector in (0, 6) else "iret"

    def to_level_3(self):
        """Gives code at level 3 its pages, and goes there."""
        rights = ["orl $4,0xC0001100", "orl $4,0xC0001110", *(f"orl $4,{0xC0014000 + 4 * at:#x}" for at in range(self.pages))]
        rights += ["orl $4,0xC0018000", "orl $4,0xC0018004", RELOAD]
        flags = 2 if self.user is True else self.user
        return [
            *rights, f"movl ${self.data:#x},%eax; movl %eax,%ds; movl %eax,%es",
            f"pushl $0x23; pushl $ustack; pushl ${flags}; pushl $0x1B; pushl $body; iret",
        ]

    def table(self):
        """The IDT: 256 gates."""
        gates = {
            vector: gate(8, vector, (0xEE if vector in FROM_LEVEL_3 else 0x8E) | (vector in TRAP_GATES))
            for vector in HANDLERS if vector not in NOT_DELIVERED
        }
        gates.update(self.gates)
        return [f".long {gates.get(vector, '0,0')}" for vector in range(256)]

    def source(self, about):
        """The whole source, with lines of comment before it."""
        text = [".text"]
        for vector in HANDLERS:
            text += [f".p2align {SLOT.bit_length() - 1},0x90", f"h{vector:x}: movl ${vector},%edx", self.handler(vector)]
        text += [f".p2align {SLOT.bit_length() - 1},0x90", ".globl _start", "_start:"]
        text += ["lgdt gdtr; lidt idtr; movl $stack,%esp; movl $resume,%ebp; movl $0x28,%eax; ltr %ax", *self.first]
        text += [*(self.to_level_3() if self.user is not False else []), "body:", *self.lines, "done: jmp done", *self.last]
        data = [".data", "gdt:", *(f".long {self.gdt.get(name, words)}" for name, words in GDT), f".zero {0x200 - 8 * len(GDT)}"]
        data += [f"gdtr: .word {LIMIT}", ".long gdt", ".word 0", "idtr: .word 0x7FF", ".long idt", ".word 0", f".zero {0x300 - 0x210}"]
        data += [f"tss: .long 0,{self.esp0:#x},{self.ss0:#x}", ".zero 88", ".long 0x680000", "resume: .long 0", "scratch: .zero 144"]
        data += [f".zero {0x800 - 0x400}", "idt:", *self.table(), ".long 0x11223344,0x55667788", f".zero {0x2000 - 0x1008}"]
        data += ["ustack:", ".zero 4096", "stack:", ".bss", "zeros: .zero 8192"]
        comment = [f"# {line}" for line in about.split("\n")]
        return "\n".join([*comment, *"; ".join([*text, *data]).split("; ")]) + "\n"
