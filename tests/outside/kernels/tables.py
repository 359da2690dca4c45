"""GDT, IDT, TSS and stack in pages of their own: the flags that implicit accesses set, and tables that deny."""
from kernels.base import LIMIT, SEL, WP, Kernel

# 0x08000000 is the GDT (frame 0x40), 0x08001000 the IDT (0x41), 0x08002000 the TSS (0x42), 0x08003000 the stack (0x43).
SETUP = "; ".join((
    "movl $0x30003,0xC0001080; movl $0x40003,0xC0030000; movl $0x41003,0xC0030004; movl $0x42003,0xC0030008",
    "movl $0x43003,0xC003000C; movl $0x44003,0xC0030010",
    "cld; movl $gdt,%esi; movl $0xC0040000,%edi; movl $64,%ecx; rep movsl",
    "movl $idt,%esi; movl $0xC0041000,%edi; movl $300,%ecx; rep movsl",
    "movl $tss,%esi; movl $0xC0042000,%edi; movl $26,%ecx; rep movsl",
    "movl $0x08004000,0xC0042004; movl $0x20000067,0xC0040090; movl $0x08008900,0xC0040094",
    f"movw ${LIMIT:#x},scratch; movl $0x08000000,scratch+2; movw $0x7FF,scratch+8; movl $0x08001000,scratch+10",
))
LOAD = "lgdt scratch; lidt scratch+8; movl $0x90,%eax; ltr %ax"


def implicit_accesses():
    """Deliveries and loads read GDT, IDT and TSS with the rights of level 0, whatever the level, and set the accessed flags of pages.
    SDM volume 3, 4.6.1 (implicit supervisor-mode accesses), 4.8."""
    for user in (False, True):
        for name, test in (
            ("int", "int $0x80"), ("ud2", "ud2"), ("gp", "movl $0x7F8,%eax; movl %eax,%ds"), ("load", "movl $0xAB,%eax; movl %eax,%ds"),
            ("none", "nop"),
        ):
            k = Kernel(user=user, pages=2)
            k.begin(SETUP)
            k.begin(LOAD)
            k.test(test)
            yield f"implicit-{name}-{'u' if user else 'k'}", k


def accessed_flag_denied():
    """A load meets a clear accessed flag (or LTR an available TSS) in a GDT whose page is read-only or of level 3, with WP 0 and 1.
    SDM volume 3, 3.4.5.1 (accessed bit), 4.6.1 (writes at level 0 and CR0.WP)."""
    for what, word in (("ro", 0x40001), ("user", 0x40005)):
        for wp in (False, True):
            for name, test in (
                ("ds", f"movl ${SEL['freshdata0']},%eax; movl %eax,%ds"), ("ss", f"movl ${SEL['freshdata0']},%eax; movl %eax,%ss"),
                ("es-used", "movl $0x10,%eax; movl %eax,%es"), ("ljmp", f"ljmp ${SEL['freshcode0']},$T1; T1: nop"),
                ("ltr", "movl $0x28,%eax; ltr %ax"), ("iret", f"pushl $2; pushl ${SEL['freshcode0']}; pushl $T1; iret; T1: nop"),
                (
                    "iret-outer",
                    f"pushl ${SEL['data3b'] | 3}; pushl $ustack; pushl $2; pushl ${SEL['code3b'] | 3}; pushl $0x1000; iret",
                ),
                ("popds", f"pushl ${SEL['freshdata0']}; popl %ds"),
            ):
                # the handlers' own code segment is used already, so the fault can be delivered through this table
                k = Kernel(tails={14: "jmp done"})
                k(SETUP)
                k(LOAD)
                k("movl $0,%eax")
                if wp:
                    k(WP)
                k(f"movl ${word:#x},0xC0030000; invlpg 0x08000000")
                k.test(test)
                yield f"gdt-{what}-{name}{'-wp' if wp else ''}", k


def accessed_flag_from_level_3():
    """The same by a load at level 3: the write of the flag has the rights of level 0.
    SDM volume 3, 4.6.1 (implicit supervisor-mode accesses)."""
    for wp in (False, True):
        k = Kernel(user=True, tails={14: "jmp done"})
        k.begin(SETUP)
        k.begin(LOAD)
        if wp:
            k.begin(WP)
        # the descriptors that the way to level 3 needs are used; data3b isn't
        k.begin("movl $0xCFFB00,0xC004001C; movl $0xCFF300,0xC0040024")
        k.begin("movl $0x40001,0xC0030000; invlpg 0x08000000")
        k.test(f"movl ${SEL['data3b'] | 3},%eax; movl %eax,%ds")
        k("movl %ds,%eax")
        yield f"gdt-user-load{'-wp' if wp else ''}", k


def descriptors_over_two_pages():
    """A descriptor in a page that isn't there, and one that lies over two pages, whose second is taken away later.
    SDM volume 3, 3.5.1; 4.7."""
    k = Kernel(tails={14: "jmp done"})
    k(SETUP)
    k("movw $0x1FFF,scratch")
    k(LOAD)
    k("movl $0,0xC0030004; lidt idtr; invlpg 0x08001000")
    k.test("movl $0x1000,%eax; movl %eax,%ds")
    yield "gdt-second-page", k
    for offset in (4, 5, 6, 1):
        k = Kernel(tails={14: "jmp done"})
        k(SETUP)
        base = 0x08001000 - offset - SEL["freshdata0"]
        k(f"cld; movl $gdt,%esi; movl ${0xC0041000 - offset - SEL['freshdata0']:#x},%edi; movl $48,%ecx; rep movsl")
        k(f"movl ${base:#x},scratch+2; lgdt scratch; lidt idtr")
        k("movl $0xCF9200,%eax")
        k.test(f"movl ${SEL['freshdata0']},%eax; movl %eax,%ds")
        # the descriptor of the handlers' code lies before it
        k("movl $0x41002,0xC0030004; invlpg 0x08001000")
        k.test(f"movl ${SEL['freshdata0']},%eax; movl %eax,%es")
        yield f"gdt-split-{offset}", k


FAMILIES = (implicit_accesses, accessed_flag_denied, accessed_flag_from_level_3, descriptors_over_two_pages)
