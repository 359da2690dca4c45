"""Table words that are changed under translations that are cached, with and without INVLPG and MOV to CR3."""
from kernels.base import RELOAD, WP, Kernel

# A table for 0x08000000, with pages 0x40 and 0x41, and one for 0x08400000; CR0.WP is 1.
SETUP = (
    "movl $0x30007,0xC0001080; movl $0x40007,0xC0030014; movl $0x41007,0xC0030018; movl $0x1111,0xC0040000; movl $0x2222,0xC0041000; "
    "movl $0x31007,0xC0001084; movl $0x43007,0xC003101C; movl $0x42007,0xC0031014; movl $0x3333,0xC0042000; " + WP
)
READ, WRITE, DROP = "movl 0x08005000,%eax", "movl %ebx,0x08005000", "invlpg 0x08005000"
NO_WP = "movl %cr0,%eax; andl $0xFFFEFFFF,%eax; movl %eax,%cr0"


def to(word):
    """A statement that changes the page's PTE."""
    return f"movl ${word:#x},0xC0030014"


def dropped():
    """What INVLPG and MOV to CR3 drop; more rights need neither; flags that are cleared by hand are set again.
    SDM volume 3, 4.10.4 (invalidation of TLBs)."""
    k = Kernel()
    k("movl $0x30007,0xC0001080; movl $0x40067,0xC0030000; movl $0x41067,0xC0030004; movl $0x1111,0xC0040000; movl $0x2222,0xC0041000")
    k("movl 0x08000000,%eax; movl $0x41067,0xC0030000; invlpg 0x08000123; movl 0x08000000,%ebx")
    k(f"movl $0x40067,0xC0030000; {RELOAD}; movl 0x08000000,%ebx")
    # to absent, and back
    k("movl $0x40006,0xC0030000; invlpg 0x08000FFF")
    k.test("movl 0x08000000,%ebx")
    k("movl $0x40007,0xC0030000")
    k.test("movl 0x08000000,%ebx")
    # to fewer rights, and back
    k(f"{WP}; movl $0x40005,0xC0030000; invlpg 0x08000000")
    k.test("movl 0x08000000,%ebx")
    k.test("movl %ebx,0x08000000")
    k("movl $0x40007,0xC0030000")
    k.test("movl %ebx,0x08000000")
    # a write through an entry that a read has filled, then flags that are cleared
    k("movl $0x40027,0xC0030000; invlpg 0x08000000; movl 0x08000000,%eax; movl %eax,0x08000000; movl 0xC0030000,%eax")
    k("movl $0x40007,0xC0030000; invlpg 0x08000000; movl %eax,0x08000000; movl 0xC0030000,%eax")
    k("movl $0x40007,0xC0030000; invlpg 0x08000000; movl 0x08000000,%eax; movl 0xC0030000,%eax")
    yield "stale-invlpg", k


def not_dropped():
    """Words that are changed without INVLPG. The SDM allows either translation; Bochs and the machine here both keep the old one of
    pages that don't meet in their tables (64 places here, 1,024 there), and drop one that denies.
    SDM volume 3, 4.10.2.3 (details of TLB use), 4.10.4.3 (optional invalidation)."""
    for name, tests in (
        ("frame", [READ, to(0x41007), READ, WRITE, DROP, READ]),
        ("clean-to-ro", [READ, to(0x40005), READ, WRITE, to(0x40007), WRITE]),
        ("dirty-to-ro", [WRITE, to(0x40005), WRITE, READ, DROP, WRITE]),
        ("dirty-to-absent", [WRITE, to(0x40006), WRITE, READ, DROP, WRITE, READ]),
        ("clean-to-absent", [READ, to(0x40006), READ, WRITE, READ]),
        ("ro-to-rw", [to(0x40005), READ, to(0x40007), WRITE, READ]),
        ("absent-to-present", [to(0x40006), READ, to(0x40007), READ, WRITE]),
        ("flags-cleared", [WRITE, to(0x40007), READ, WRITE, "movl 0xC0030014,%ecx", DROP, READ, "movl 0xC0030014,%ecx", WRITE]),
        ("clean-flags-cleared", [READ, to(0x40007), WRITE, "movl 0xC0030014,%ecx"]),
        ("clean-new-frame-write", [READ, to(0x41007), WRITE, READ, "movl 0xC0041000,%ecx", "movl 0xC0040000,%ecx"]),
        ("directory", [READ, WRITE, "movl $0x31007,0xC0001080", READ, WRITE, DROP, READ, WRITE]),
        ("directory-cr3", [READ, WRITE, "movl $0x31007,0xC0001080", READ, RELOAD, READ, WRITE]),
        ("directory-absent", [WRITE, "movl $0,0xC0001080", WRITE, READ, "movl 0x08006000,%eax", RELOAD, READ]),
        ("wp", [NO_WP, to(0x40005), WRITE, WP, WRITE, READ]),
        ("other-page", [READ, to(0x41007), "invlpg 0x08006000", READ, "movl 0x08407000,%eax", READ]),
        ("pse", [READ, to(0x41007), "movl $0x10,%eax; movl %eax,%cr4", READ]),
    ):
        k = Kernel(pages=2)
        k.begin(SETUP)
        for test in tests:
            k.test(test)
        yield f"unflushed-{name}", k


def not_dropped_at_level_3():
    """A page that is taken from level 3 by a handler, without INVLPG.
    SDM volume 3, 4.10.2.3, 4.10.4.3."""
    for name, tests in (("user-to-super", [READ, WRITE, "int $0x83", READ, WRITE]), ("user-clean", [READ, "int $0x83", WRITE, READ])):
        k = Kernel(user=True, pages=2, tails={0x83: f"{to(0x40003)}; iret"})
        k.begin(SETUP)
        for test in tests:
            k.test(test)
        yield f"unflushed-{name}", k


def write_protection():
    """CR0.WP turned on and off over entries that are cached.
    SDM volume 3, 4.6.1; 4.10.4.1 (MOV to CR0 that changes WP needn't drop)."""
    k = Kernel(pages=2)
    k("movl $0x30007,0xC0001080; movl $0x40005,0xC0030000; movl $0x41001,0xC0030004")
    for _ in range(2):
        k.test("movl %eax,0x08000000")
        k.test("movl %eax,0x08001000")
        k(WP)
        k.test("movl %eax,0x08000000")
        k.test("movl %eax,0x08001000")
        k.test("movl 0x08001000,%eax")
        k(NO_WP)
    yield "wp-toggle", k


FAMILIES = (dropped, not_dropped, not_dropped_at_level_3, write_protection)
