"""What level 3 may do at each IOPL, and the flags that POPF and IRET take."""
from kernels.base import Kernel, gate

PRIVILEGED = (
    "cli", "sti", "cli", "hlt", "movl %cr0,%eax", "movl %cr2,%eax", "movl %cr3,%eax", "movl %cr4,%eax", "movl %eax,%cr0",
    "movl %eax,%cr2", "movl %eax,%cr3", "movl %eax,%cr4", "lgdt gdtr", "lidt idtr", "lgdt 0x66666666", "lidt 0x66666666", "invlpg gdt",
    "invlpg 0x66666666", "movl $0x28,%eax; ltr %ax", "ltr 0x66666666", "inb $0x84,%al", "outb %al,$0x84", "outl %eax,$0x84",
    "movl $0x84,%edx; outb %al,%dx", "outl %eax,%dx", "pushf", "popf", "ud2", "int $0x80", "int $0x81", "int3", "int $0x82", "int $13",
    "int $14", "int $3", "int $6", "movl $0,%eax; movl $0,%edx; movl $0,%ecx; divl %ecx", "divb %cl",
    "movl $0x80000000,%eax; cltd; movl $-1,%ecx; idivl %ecx", "movl %cs,%eax; movl %ss,%ebx; movl %ds,%ecx; movl %es,%esi",
    "pushl %cs; pushl %ss; pushl %ds; pushl %es; popl %es; popl %ds; popl %ss; popl %eax",
)

# EFLAGS words: single flags, all of them, IOPL, RF, and bits that are always 0 (SDM volume 3, 2.3)
IMAGES = (0, 2, 0x8D5, 0x8D7, 0xCD5, 0x202, 0x1002, 0x2002, 0x3002, 0x3202, 0x3ED7, 0x8000, 0x8028, 0xFFC08028, 0x10002, 0x13ED7, 0x28)


def level_3_by_iopl():
    """Each privileged or IOPL-sensitive instruction at level 3, and INT with gates of both levels.
    SDM volume 3, 5.9 (privileged instructions); volume 1, 19.5.1 (IOPL); volume 3, 6.12.1.1 (protection of handlers)."""
    for iopl in range(4):
        k = Kernel(user=2 | iopl << 12, pages=2)
        for test in PRIVILEGED:
            # a HLT whose IF an STI at IOPL 3 may have set, and ports that a read of 0x84 would show, are left out
            left_out = test == "hlt" and iopl > 0 or test == "inb $0x84,%al" and iopl == 3
            k.test("nop" if left_out else test)
        yield f"user-iopl{iopl}", k


def level_0():
    """The same kinds of instructions at level 0, with what they read and store.
    SDM volume 2, MOV (control and segment registers), PUSH, POP, INT; volume 3, 2.5 (control registers)."""
    k = Kernel(pages=2)
    for test in (
        "cli", "sti", "cli", "movl %cr0,%eax", "movl %cr2,%eax", "movl %cr3,%eax", "movl %cr4,%eax",
        "movl $0x12345678,%ebx; movl %ebx,%cr2; movl %cr2,%esi", "ud2", "int $0x80", "int $0x81", "int3", "int $0x82",
        "movl $0,%edx; movl $0,%ecx; divl %ecx", "divb %cl", "movl $0x80000000,%eax; cltd; movl $-1,%ecx; idivl %ecx",
        "movl %cs,%eax; movl %ss,%ebx; movl %ds,%ecx; movl %es,%esi", "movl $-1,scratch; movl %cs,scratch",
        "pushl $0x12340010; popl %es", "movl $0xABCD0010,%eax; movl %eax,%es",
    ):
        k.test(test)
    yield "kernel-basics", k
    k = Kernel()
    for test in (
        "pushl $-1; popl %eax; pushl %cs; popl %eax", "pushl $-1; popl %eax; pushl %ds; popl %ds",
        "pushl $-1; pushl %cs; pushl %ds; pushl %es; pushl %ss; popl %ss; popl %es; popl %ds; popl %eax; popl %eax",
    ):
        k.test(test)
    yield "push-segment", k


def int_vectors():
    """INT of every vector at level 3: a gate that isn't there has DPL 0, so the error code names it.
    SDM volume 3, 6.12.1.1; 6.13 (error code)."""
    for begin in range(0, 256, 64):
        k = Kernel(user=True, pages=2)
        for vector in range(begin, begin + 64):
            if vector not in (3, 0x80, 0x82, 0x83, 0x84):
                k.test(f"int ${vector}")
        yield f"user-int-{begin:x}", k


def ports_at_level_3():
    """IN and OUT of 8 and 32 bits at IOPL 3, where no I/O map is asked.
    SDM volume 1, 19.5 (protected-mode I/O)."""
    k = Kernel(user=0x3002)
    k("movl $0x12345680,%edx; movl $0x99,%eax; outb %al,%dx; movb $0x21,%dl; movb $0,%dh; inb %dx,%al; movb $0xA1,%dl; inb %dx,%al")
    yield "ports-u", k


def popped_flags():
    """Which flags POPF and an IRET within a level take, at both levels and each IOPL, with IF 0 and 1 before.
    SDM volume 2, POPF and IRET; volume 3, 2.3 (system flags)."""
    k = Kernel(pages=2)
    for image in IMAGES:
        k.test(f"pushl ${image:#x}; popf; pushf; popl %eax")
    for image in IMAGES:
        label = k.label()
        k.test(f"pushl ${image:#x}; pushl $8; pushl ${label}; iret; {label}: pushf; popl %eax")
    k("pushl $2; popf")
    yield "flags-k", k
    for iopl in range(4):
        for interrupts in (0, 1):
            k = Kernel(user=2 | iopl << 12 | interrupts << 9, pages=2)
            for image in IMAGES:
                k.test(f"pushl ${image:#x}; popf; pushf; popl %eax")
            for image in IMAGES:
                label = k.label()
                k.test(f"pushl ${image:#x}; pushl $0x1B; pushl ${label}; iret; {label}: pushf; popl %eax")
            yield f"flags-u{iopl}{interrupts}", k


def flags_of_outer_returns():
    """Which flags an IRET from level 0 to 3 takes, and what interrupts through both kinds of gates make of them.
    SDM volume 2, IRET (return to outer privilege level); volume 3, 6.12.1.3 (flag usage by handlers)."""
    for image in IMAGES:
        k = Kernel(user=image)
        k("pushf; popl %eax; int $0x80; pushf; popl %eax; int $0x82; int3")
        yield f"outer-flags-{image:x}", k


def flags_of_gates():
    """An interrupt gate clears IF and a trap gate doesn't; both clear TF and NT.
    SDM volume 3, 6.12.1.3."""
    for kind in (0xEE, 0xEF):
        for flags in (0x202, 0x3ED7, 0x0ED7):
            k = Kernel(user=flags, gates={0x80: gate(8, 0x80, kind)}, tails={0x80: "pushf; popl %eax; iret"})
            k.test("int $0x80; pushf; popl %ebx")
            yield f"gate-if-{kind:x}-{flags:x}", k


FAMILIES = (level_3_by_iopl, level_0, int_vectors, ports_at_level_3, popped_flags, flags_of_outer_returns, flags_of_gates)
