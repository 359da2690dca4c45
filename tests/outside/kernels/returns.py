"""IRET: its selectors, its stack, the accessed flags that it sets, and what DS and ES become."""
from kernels.base import SEL, Kernel, selectors


def selectors_of_cs():
    """Which CS an IRET takes, at levels 0 and 3, and what each other one raises.
    SDM volume 2, IRET (protected mode: CS's tests); volume 3, 5.8.6."""
    for user, stack in ((False, "stack"), (True, "ustack")):
        k = Kernel(user=user, pages=4)
        for selector in selectors():
            label = k.label()
            # a CS of level 3 at level 0 is an outer return: its SS, 0x99, is refused then
            k.test(f"pushl $0x99; pushl $0x99; pushl $0xCD6; pushl ${0x77770000 | selector:#x}; pushl ${label}; iret")
            k(f"{label}: movl ${stack},%esp")
        yield f"iret-cs-{'u' if user else 'k'}", k


def selectors_of_ss():
    """Which SS a return to level 3 takes, and what each other one raises: those of data at level 3 that isn't present apart.
    SDM volume 2, IRET (return to outer privilege level: SS's tests)."""
    taken = [SEL["data3"] | 3, SEL["data3b"] | 3]       # these go through
    absent = [SEL["absdata3"] | 3]
    others = [selector for selector in selectors() if selector not in taken + absent]
    for name, tried in (("iret-ss-k", others), ("iret-ss-absent-k", absent)):
        k = Kernel(pages=3)
        for selector in tried:
            k.test(f"pushl ${selector:#x}; pushl $ustack; pushl $0xCD6; pushl $0x1B; pushl $0x12345; iret")
            k("movl $stack,%esp")
        yield name, k


def segments_at_level_3():
    """On a return to level 3 DS and ES of a lower level become null, null ones stay, and those of level 3 stay.
    SDM volume 2, IRET (the loop over ES, FS, GS and DS)."""
    for selector in (0, 3, 0x10, 0x20, 0x23, SEL["data3b"] | 3):
        k = Kernel(user=True, data=selector)
        k.begin("movl $2,%edi")
        k("movl %ds,%eax; movl %es,%ebx; int $0x80; movl %ds,%eax")
        yield f"outer-ds-{selector:x}", k


def accessed_flags():
    """The accessed flags of CS and SS are set by a return that is granted, and by no other.
    SDM volume 3, 3.4.5.1 (accessed bit)."""
    k = Kernel(tails={14: "jmp done"})
    k(f"pushl ${SEL['data3b'] | 3:#x}; pushl $ustack; pushl $2; pushl ${SEL['code3b'] | 3:#x}; pushl $0x1000; iret")
    yield "iret-accessed-outer", k
    k = Kernel(tails={13: "jmp done"})
    k(f"pushl ${SEL['data3b'] | 2:#x}; pushl $ustack; pushl $2; pushl ${SEL['code3b'] | 3:#x}; pushl $0x1000; iret")
    yield "iret-accessed-bad-ss", k
    k = Kernel()
    label = k.label()
    k(f"pushl $2; pushl ${SEL['freshcode0']:#x}; pushl ${label}; iret; {label}: movl %cs,%eax")
    yield "iret-accessed-same", k


def stack_over_two_pages():
    """A return to level 3 whose five words lie over two pages: the second is absent, read-only, or of level 3.
    SDM volume 2, IRET (#PF); volume 3, 4.6 (access rights)."""
    for what, word in (("absent", 0), ("readonly", 1), ("user", 7)):
        for offset in (0, 4, 8, 12, 16):
            k = Kernel(tails={14: "jmp done"})
            # the first page of the zeroed data is the stack's; the PTE of the page after it is changed
            k("movl $zeros+0x1000,%esp")
            k(f"addl ${offset},%esp")
            k("pushl $0x23; pushl $ustack; pushl $2; pushl $0x1B; pushl $0x1000")
            k(f"movl 0xC0018010,%eax; andl $0xFFFFF000,%eax; orl ${word},%eax; movl %eax,0xC0018010")
            k("invlpg zeros+0x1000; iret")
            yield f"iret-page-{what}-{offset}", k


def stack_of_level_0():
    """At level 3, with ESP in a page of level 0: POP, POPF, RET, PUSH, POPA and CALL, and PUSHA and IRET apart, raise #PF by its rights.
    SDM volume 3, 4.6.1 (user-mode accesses)."""
    others = (
        (20, "popl %eax"), (20, "popl %ds"), (20, "popf"), (20, "ret"), (20, "pushl %eax"), (40, "popa"), (40, "call done"),
    )
    for name, tests in (("", others), ("iret-", ((20, "iret"),)), ("pusha-", ((20, "pusha"),))):
        k = Kernel(user=True)
        for offset, test in tests:
            k.test(f"movl $stack-{offset},%esp; {test}")
            k("movl $ustack,%esp")
        k("movl $0x23,%eax; movl %eax,%ds")
        yield f"stack-super-{name}u", k


def virtual_8086_mode():
    """At level 0 an EFLAGS word with VM whose CS, beyond the GDT's limit, is refused: the fault comes first here.
    SDM volume 2, IRET (return to virtual-8086 mode)."""
    k = Kernel(tails={13: "jmp done"})
    k.test("pushl $0x20002; pushl $0x7F8; pushl $0x1000; iret")
    yield "iret-vm-bad-cs", k


FAMILIES = (
    selectors_of_cs, selectors_of_ss, segments_at_level_3, accessed_flags, stack_over_two_pages, stack_of_level_0, virtual_8086_mode,
)
