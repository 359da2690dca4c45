"""Random kernels of privileged instructions, each by its seed: loads, far jumps, LTR, IRET, INT, flags, control registers, accesses to
pages with random rights over one and two pages, and changes of the tables, at both levels by turns.

Not proved. What is left out are known differences with Bochs (known/bochs), instructions that stop a run by name, flags that the SDM
leaves undefined, and words that are changed without INVLPG.
"""
import random

from kernels.base import LIMIT, RELOAD, WP, Kernel, is_code, name_of

TESTS = 45
BASE, DIRECTORY, TABLES, PAGES = 0x08000000, 0xC0001080, 0xC0030000, 0xC0040000
WORDS = (1, 3, 5, 7, 0x27, 0x65, 0x67, 7, 6, 0)
UP = 0x84                           # INT of this vector goes on at level 0
DEFINED = "addl $1,%esi"            # after AND or OR, which leave AF undefined: PUSHF shows it
STOPPING = 0x3F4100                 # flags whose pop stops a run: TF, NT and bits 16 to 21

ABOUT = "Random privileged instructions of seed {seed}.\nSDM volume 3, chapters 2 to 7; volume 2 by instruction."


class Maker:
    """Makes one kernel. `level` is that at which the next test runs."""

    def __init__(self, seed):
        self.random = random.Random(seed)
        tails = {UP: "movl $stack,%esp; movl (%ebp),%ecx; jmp *%ecx"}
        self.kernel = Kernel(user=2 | self.random.choice((0, 0x1000, 0x3000)), pages=4, tails=tails)
        self.level = 3
        self.tables()

    def tables(self):
        """Four tables of four pages each, every word with random rights."""
        for i in range(4):
            self.kernel.begin(f"movl ${(0x30 + i) << 12 | self.random.choice(WORDS):#x},{DIRECTORY + 4 * i:#x}")
            for j in range(4):
                self.kernel.begin(f"movl ${(0x40 + 4 * i + j) << 12 | self.random.choice(WORDS):#x},{TABLES + 4096 * i + 4 * j:#x}")
        if self.random.random() < 0.5:
            self.kernel.begin(WP)

    def stack(self):
        return "ustack" if self.level else "stack"

    def selector(self, *without):
        """A selector of the GDT, or beyond it, with a random RPL, but none of these kinds."""
        while True:
            found = self.random.choice((0, *range(8, LIMIT, 8), LIMIT + 1, 0x7F8)) | self.random.randrange(4)
            if not any(kind(name_of(found)) for kind in without):
                return found

    def address(self):
        """One in a page of the tables, near its end at times."""
        page = BASE + (self.random.randrange(4) << 22) + (self.random.randrange(4) << 12)
        return page + self.random.choice((0, 8, 0x7FC, 0xFFC, 0xFFD, 0xFFE, 0xFFF))

    def flags(self):
        return self.random.getrandbits(22) & ~STOPPING | 2

    def load(self):
        seg = self.random.choice(("ds", "es", "ss"))
        chosen = self.selector(is_code) if seg != "ss" else self.selector()
        if self.random.random() < 0.5:
            return f"movl ${chosen:#x},%eax; movl %eax,%{seg}"
        return f"pushl ${chosen:#x}; popl %{seg}"

    def far_jump(self):
        def is_system(name):
            return not (is_code(name) or "data" in name or name in ("ss0fresh", "beyond", "null"))
        label = self.kernel.label()
        return f"ljmp ${self.selector(is_system):#x},${label}; {label}: movl %cs,%eax"

    def task_register(self):
        return f"movl ${self.selector():#x},%eax; ltr %ax"

    def inner_return(self):
        label = self.kernel.label()
        chosen = self.random.choice((8 | self.level and 0x1B, self.selector()))
        if not self.level and chosen & 3:
            chosen &= ~3            # none to level 3: going there is a test of its own
        return f"pushl ${self.flags():#x}; pushl ${chosen:#x}; pushl ${label}; iret; {label}: pushf; popl %eax"

    def interrupt(self):
        vectors = (3, 0x80, 0x81, 0x82, 0x23) if not self.level else (3, 0x80, 0x81, 0x82, 6, 8, 10, 13, 14, 0x20, 0x90, 0xFF)
        return self.random.choice(("int3", "ud2", f"int ${self.random.choice(vectors):#x}", "movl $0,%ecx; divl %ecx"))

    def flag(self):
        popped = f"pushl ${self.flags():#x}; popf; pushf; popl %edx"
        return self.random.choice(("cli", "sti", "pushf; popl %eax", popped, "stc", "std; cld"))

    def control(self):
        return self.random.choice((
            "movl %cr0,%eax", "movl %cr2,%ebx", "movl %cr3,%ecx", "movl %cr4,%edx",
            f"movl ${self.random.getrandbits(32):#x},%eax; movl %eax,%cr2",
            RELOAD, f"{WP}; {DEFINED}", f"movl %cr0,%eax; andl $0xFFFEFFFF,%eax; movl %eax,%cr0; {DEFINED}", "movl %cr0,%eax; movl %eax,%cr0",
            "lidt idtr", "lgdt gdtr", f"invlpg {self.address():#x}", "hlt" if self.level else "nop",
        ))

    def access(self):
        a = f"{self.address():#x}"
        return self.random.choice((
            "movl {a},%eax", "movl %eax,{a}", "addl $3,{a}", "cmpl %ebx,{a}", "xchgl %ecx,{a}", "movb %dl,{a}", "incl {a}", "movw %ax,{a}",
            "pushl {a}", "popl {a}", "movl %ds,{a}", "movl ${a},%edi; stosl", "movl ${a},%esi; lodsb", "negl {a}", "sete {a}",
            "movl ${a},%edi; movl $3,%ecx; rep stosb", "leal {a},%eax", "movl ${a},%ebx; subl %eax,(%ebx)", "jmp *{a}", "call *{a}",
        )).format(a=a)

    def change(self):
        """A table's word, and INVLPG. At level 3 the tables aren't in reach: #PF."""
        i, j = self.random.randrange(4), self.random.randrange(4)
        word = (0x40 + 4 * i + j) << 12 | self.random.choice(WORDS)
        return f"movl ${word:#x},{TABLES + 4096 * i + 4 * j:#x}; invlpg {BASE + (i << 22) + (j << 12):#x}"

    def restored(self):
        """Data segments and the stack as code at this level has them."""
        data = 0x23 if self.level else 0x10
        return f"movl ${data:#x},%eax; movl %eax,%ds; movl %eax,%es; movl ${self.stack()},%esp; cld"

    def turn(self):
        """Goes to the other level."""
        if self.level:
            self.kernel.test(f"int ${UP:#x}")
            self.level = 0
        else:
            label = self.kernel.label()
            flags = self.flags() & ~0x20000
            self.kernel.test(f"pushl $0x23; pushl $ustack; pushl ${flags:#x}; pushl $0x1B; pushl ${label}; iret; {label}: nop")
            self.level = 3
        self.kernel(self.restored())

    def made(self):
        kinds = (
            self.load, self.load, self.far_jump, self.task_register, self.inner_return, self.interrupt, self.flag, self.control,
            self.control, self.access, self.access, self.access, self.access, self.change,
        )
        for _ in range(TESTS):
            self.kernel.test(self.random.choice(kinds)())
            self.kernel(self.restored())
            if self.random.random() < 0.12:
                self.turn()
        return self.kernel


def kernel_of(seed):
    """The kernel of a seed, and what it asks."""
    kernel = Maker(seed).made()
    kernel.may_stop = True
    return kernel, ABOUT.format(seed=seed)
