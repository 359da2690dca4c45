"""Page walks: rights by directory and table, ranges over two pages, pages of 4 MB, tables that map themselves, control registers."""
from kernels.base import WP, Kernel

# Linear 0x08000000 has directory index 0x20. The tables of these kernels are frames 0x30 and up, the pages frames 0x40 and up.
BASE = 0x08000000
DIRECTORY = 0xC0001000 + 4 * 0x20
TABLES = 0xC0030000
PAGES = 0xC0040000

# present alone; and with write; and with user; with both; not present
PDES = (1, 3, 5, 7, 6)
PTES = (1, 3, 5, 7, 6)

# An access by name, with what stands first in each page. {a} is the page's address, {page} where it is written before.
ACCESSES = (
    ("read", "movl {a},%eax", ""), ("write", "movl %eax,{a}", ""), ("rmw", "addl $0,{a}", ""), ("cmp", "cmpl $0,{a}", ""),
    ("xchg", "xchgl %eax,{a}", ""), ("push", "pushl {a}", ""), ("pop", "pushl $7; popl {a}", ""), ("jmpm", "jmp *{a}", "movl $ud,{page}"),
    ("callm", "call *{a}", "movl $ud,{page}"), ("set", "sete {a}", ""), ("seg", "movl %ds,{a}", ""),
    ("ldseg", "movl {a},%es", "movl ${data},{page}"), ("fetch", "movl ${a},%eax; jmp *%eax", "movl $0x0B0F,{page}"),
    ("readwrite", "movl {a},%eax; movl %eax,{a}", ""), ("inc", "incb {a}", ""), ("neg", "negl {a}", ""),
    ("shl0", "movb $0,%cl; shll %cl,{a}", ""), ("test", "testl $5,{a}", ""),
    ("lgdt", "lidt {a}", "movl $0x07FF,{page}; movl $0x1100,{page4}; movl $idt,{page2}"), ("ltr", "ltr {a}", "movl $0x10,{page}"),
    ("movs", "movl ${a},%esi; movl $scratch,%edi; movsl", ""), ("movd", "movl $scratch,%esi; movl ${a},%edi; movsl", ""),
    ("stos", "movl ${a},%edi; stosb", ""), ("lods", "movl ${a},%esi; lodsl", ""), ("word", "movw %ax,{a}", ""),
    ("div", "movl $0,%edx; divl {a}", ""),
)
AT_LEVEL_0 = ("lgdt", "ltr")
MOVES_STACK = ("push", "callm")


def with_rights(access, test, content, user, wp):
    """A kernel that does one access in 25 pages: each PDE of PDES with each PTE of PTES."""
    k = Kernel(user=user, pages=3)
    k.begin(f"movl ${TABLES:#x},%edi; cld")
    for i, pde in enumerate(PDES):
        k.begin(f"movl ${(0x30 + i) << 12 | pde:#x},{DIRECTORY + 4 * i:#x}")
        for j, pte in enumerate(PTES):
            k.begin(f"movl ${(0x40 + 5 * i + j) << 12 | pte:#x},{TABLES + 4096 * i + 4 * j:#x}")
            if content:
                page = PAGES + 4096 * (5 * i + j)
                places = {"page": f"{page:#x}", "page2": f"{page + 2:#x}", "page4": f"{page + 4:#x}"}
                k.begin(content.format(data="0x23" if user else "0x10", **places))
    if wp:
        k.begin(WP)
    for i in range(len(PDES)):
        for j in range(len(PTES)):
            k.test(test.format(a=f"{BASE + (i << 22) + (j << 12):#x}"))
            if access in MOVES_STACK:
                k(f"movl ${'ustack' if user else 'stack'},%esp")
    if content.startswith("movl $ud"):
        k.end("ud: ud2")
    return k


def rights():
    """Each kind of access to pages with each pair of rights in PDE and PTE, at both levels, with CR0.WP 0 and 1: what is granted, the
    error code and CR2 where it isn't, and the accessed and dirty flags that are set.
    SDM volume 3, 4.6 (access rights), 4.7 (page-fault exceptions), 4.8 (accessed and dirty flags)."""
    for user in (False, True):
        for wp in (False, True):
            for access, test, content in ACCESSES:
                if access not in AT_LEVEL_0 or not user:
                    yield f"rights-{access}-{'u' if user else 'k'}{'-wp' if wp else ''}", with_rights(access, test, content, user, wp)


# An access by name, and where it begins before the second page. {a} is its address.
CROSSINGS = (
    ("read", "movl {a},%eax", -2), ("write", "movl %eax,{a}", -1), ("rmw", "addl $1,{a}", -3), ("readb", "movb {a},%al", 0),
    ("movw", "movw %ax,{a}", -1), ("push", "movl %esp,%edi; movl ${a},%esp; pushl %eax", 2), ("pop", "movl ${a},%esp; popl %eax", -2),
    ("pusha", "movl ${a},%esp; pusha", 16), ("popa", "movl ${a},%esp; popa", -16),
    ("movs", "movl ${a},%esi; movl $scratch,%edi; movsl", -2), ("movd", "movl ${a},%edi; movl $scratch,%esi; movsl", -2),
    ("popseg", "movl ${a},%esp; popl %es", -2), ("ret", "movl ${a},%esp; ret", -2), ("call", "movl ${a},%esp; call done", 2),
    ("movseg", "movl %ds,{a}", -1), ("ldseg", "movl {a},%es", -1), ("iret", "movl ${a},%esp; iret", -8),
    ("both", "movl ${a},%esi; movl ${b},%edi; movsl", -2), ("pushm", "pushl {a}", -2), ("popm", "popl {a}", -2),
)
ON_STACK = ("push", "pop", "pusha", "popa", "popseg", "ret", "call", "iret")


def over_two_pages():
    """Each kind of access over two pages, of which none, one or both deny: which page's fault comes, and what was set before.
    SDM volume 3, 4.7 (CR2); volume 3, 6.15 (interrupt 14: the saved machine is that before the instruction)."""
    words = (7, 5, 3, 6)                # all rights, no write, no user, not present
    for user in (False, True):
        for access, test, offset in CROSSINGS:
            if not user and access in ON_STACK:
                continue                # a stack that denies at level 0: the run here stops at the delivery
            k = Kernel(user=user, pages=3)
            k.begin(f"movl $0x30007,{DIRECTORY:#x}")
            pairs = [(first, second) for first in words for second in words]
            for n, pair in enumerate(pairs):
                for area in (0, 1):     # the second area is 0x8000 bytes on, for the destination of `both`
                    for page, word in enumerate(pair):
                        place = TABLES + 4 * (16 * n + 8 * area + page)
                        k.begin(f"movl ${(0x40 + 2 * n + 32 * area + page) << 12 | word:#x},{place:#x}")
            k.begin(WP)
            for n in range(len(pairs)):
                at = BASE + 0x10000 * n + 0x1000 + offset
                k.test(test.format(a=f"{at:#x}", b=f"{at + 0x8000:#x}"))
                k(f"movl ${'ustack' if user else 'stack'},%esp; movl $resume,%ebp")
            yield f"cross-{access}-{'u' if user else 'k'}", k


def tables_over_two_pages():
    """LIDT, LGDT and LTR whose operand lies over two pages, one of them absent.
    SDM volume 2, LGDT/LIDT and LTR (#PF)."""
    for name, test in (("lidt", "lidt 0x08000FFD"), ("ltr", "ltr 0x08000FFF"), ("lgdt", "lgdt 0x08000FFB")):
        k = Kernel()
        k.begin("movl $0x30007,0xC0001080; movl $0x40007,0xC0030000; movl $0x41006,0xC0030004")
        k.test(test)
        k.test("movl $0x40006,0xC0030000; movl $0x41007,0xC0030004; invlpg 0x08000000; " + test)
        yield f"cross-{name}", k


def large_pages():
    """Pages of 4 MB: rights, flags, accesses over their ends, bit 7 while CR4.PSE is 0 and 1, and bit 12, which has no effect.
    SDM volume 3, 4.3 (32-bit paging, tables 4-4 and 4-5)."""
    for user in (False, True):
        for wp in (False, True):
            k = Kernel(user=user, pages=2)
            k.begin("movl $0x10,%eax; movl %eax,%cr4")
            if wp:
                k.begin(WP)
            for i, pde in enumerate((0x81, 0x83, 0x85, 0x87, 0x86, 0x187, 0x97, 0x8F, 0xE7, 0x87)):
                k.begin(f"movl ${pde:#x},{DIRECTORY + 4 * i:#x}")
            for i in range(10):
                k.test(f"movl {BASE + (i << 22) + 0x43210:#x},%eax")
            for i in range(10):
                k.test(f"movl %eax,{BASE + (i << 22) + 0x43214 + 16 * i:#x}")
            for i in range(10):
                k.test(f"addl $1,{BASE + (i << 22) + 0x43214 + 16 * i:#x}")
            for test in ("movl 0x08042FFE,%eax", "movl 0x083FFFFE,%eax", "movl %eax,0x087FFFFE", "movl %eax,0x08BFFFFE"):
                k.test(test)
            yield f"pse-{'u' if user else 'k'}{'-wp' if wp else ''}", k
    k = Kernel()
    k("movl $0x300E7,0xC0001080; movl $0x400E7,0xC0030000; movl $0x12345,0xC0040010")
    k.test("movl 0x08000010,%eax")
    k("movl $0x10,%eax; movl %eax,%cr4; movl $0xE7,0xC0001080")
    k.test("movl 0x08000010,%eax")
    k("invlpg 0x08000000")
    k.test("movl 0x08000010,%eax")
    k("movl $0,%eax; movl %eax,%cr4; movl $0x300E7,0xC0001080; movl %cr3,%eax; movl %eax,%cr3")
    k.test("movl 0x08000010,%eax")
    yield "pse-bit", k
    k = Kernel()
    k.begin("movl $0x30087,0xC0001080; movl $0x40007,0xC0030000")
    k.test("movl 0x08000000,%eax")
    k.test("movl %eax,0x08000000")
    yield "pde-bit7", k
    k = Kernel()
    k.begin("movl $0x10,%eax; movl %eax,%cr4; movl $0x401087,0xC0001080")
    k.test("movl 0x08000000,%eax")
    k.test("movl %eax,0x08000000")
    yield "pse-bit12", k
    k = Kernel()
    k.begin("movl $0x10,%eax; movl %eax,%cr4; movl $0x87,0xC0001080; movl $0x1111,0xC0200010; movl $0x2222,0xC03FF020")
    for at in (0x08200010, 0x083FF020, 0x08000010, 0x081FF020):
        k.test(f"movl {at:#x},%eax")
    yield "pse-halves", k


def other_bits():
    """PWT, PCD, bit 7 of a PTE, bit 8 and bits 9 to 11 change neither rights nor flags.
    SDM volume 3, 4.3 (tables 4-5 and 4-6)."""
    bits = (0x7, 0x0F, 0x17, 0x1F, 0x87, 0x107, 0x187, 0xE07, 0xF9F)
    for user in (False, True):
        k = Kernel(user=user, pages=2)
        for i, pde in enumerate(bits):
            k.begin(f"movl ${0x30000 + 4096 * i | (pde & ~0x80):#x},{DIRECTORY + 4 * i:#x}")
            for j, pte in enumerate(bits):
                k.begin(f"movl ${(0x40 + i) << 12 | pte:#x},{TABLES + 4096 * i + 4 * j:#x}")
        for i in range(len(bits)):
            for j in range(len(bits)):
                at = BASE + (i << 22) + (j << 12) + 16 * j
                k.test(f"movl {at:#x},%eax" if (i + j) % 2 else f"movl %eax,{at:#x}")
        yield f"pte-bits-{'u' if user else 'k'}", k


def tables_in_sight():
    """Accesses to words of the tables that map them: whether flags are set before the data are read.
    SDM volume 3, 4.8 (accessed and dirty flags) leaves the order open."""
    for name, test in (
        ("read", "movl 0xC0004010,%eax"), ("write", "movl $0x4003,0xC0004010"), ("or", "orl $0,0xC0004010"),
        ("xchg", "movl $0x4003,%eax; xchgl %eax,0xC0004010"), ("add", "addl $0,0xC0004010"), ("pdread", "movl 0xC0001C00,%eax"),
        ("pdwrite", "movl $0x4003,0xC0001C00"), ("inc", "incb 0xC0004011"), ("cmp", "cmpl $0x4003,0xC0004010"),
        ("push", "movl $0xC0005000,%esp; pushl $0; movl $stack,%esp"),
        (
            "pushm", "movl $0x40003,0xC0004100; movl $0xC0040800,%esp; invlpg 0xC0040000; "
            "pushl 0xC0004100; movl 0xC00407FC,%eax; movl $stack,%esp",
        ),
        ("movs", "cld; movl $0xC0004100,%esi; movl $0xC0040000,%edi; movsl; movl 0xC0040000,%eax"),
        ("popm", "pushl $5; movl $0x40003,0xC0004100; invlpg 0xC0040000; popl 0xC0040000; movl 0xC0004100,%eax"),
        ("callm", "movl $0xC0040800,%esp; movl $X1,%eax; jmp X1; X1: nop"),
    ):
        k = Kernel()
        k("movl $0x4003,0xC0004010; movl $0x40003,0xC0004100; invlpg 0xC0004000; invlpg 0xC0040000")
        k(test)
        k("movl 0xC0004010,%ebx; movl 0xC0001C00,%ecx; movl 0xC0004100,%edx")
        yield f"self-{name}", k
    k = Kernel(pages=2)
    k("movl $0x30007,0xC0001080; movl $0x40007,0xC0030000; movl $0x30003,0xC0030004")
    for test in (
        "movl $0x41007,0x08001000", "invlpg 0x08000000", "movl 0x08000000,%eax", "movl $0,0x08001004", "invlpg 0x08001000",
        "movl $0,0x08001004", "movl $0,0x08001008",
    ):
        k.test(test)
    yield "self-map", k


def control_registers():
    """The values that MOV to CR0, CR2, CR3 and CR4 takes here, and what reads back; a new directory.
    SDM volume 3, 2.5 (control registers); 4.1 (paging modes and control bits)."""
    k = Kernel()
    for value in (0x80000011, 0x80010011, 0x8001003F, 0x8005003F, 0x80000031, 0x80040013, 0x80000001, 0x80000019, 0x80000011):
        k(f"movl ${value:#x},%eax; movl %eax,%cr0; movl %cr0,%ebx")
    for value in (0x1000, 0x1008, 0x1010, 0x1018, 0x1000):
        k(f"movl ${value:#x},%eax; movl %eax,%cr3; movl %cr3,%ebx")
    for value in (0, 0x10, 0):
        k(f"movl ${value:#x},%eax; movl %eax,%cr4; movl %cr4,%ebx")
    for value in (0, 0xFFFFFFFF, 0x12345678):
        k(f"movl ${value:#x},%eax; movl %eax,%cr2; movl %cr2,%ebx")
    yield "control", k
    k = Kernel()
    k("movl $0xC0001000,%esi; movl $0xC0030000,%edi; movl $1024,%ecx; cld")
    k("movl 0xC0001100,%eax; movl %eax,0xC0030100; movl 0xC0001110,%eax; movl %eax,0xC0030110; movl $0x4003,0xC0030C00")
    k("movl $0x30000,%eax; movl %eax,%cr3; movl gdt,%eax; movl %eax,scratch")
    k.test("movl 0xC0400000,%eax")
    yield "cr3", k


FAMILIES = (rights, over_two_pages, tables_over_two_pages, large_pages, other_bits, tables_in_sight, control_registers)
