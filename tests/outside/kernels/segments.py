"""Loads of segment registers, far jumps and LTR, and accesses through null segments."""
from kernels.base import GDT, SEL, Kernel, is_code, is_data, name_of, selectors

NULL_DS = "movl $0,%eax; movl %eax,%ds; "


def data_segments():
    """Which selectors DS, ES and SS take, at levels 0 and 3, and what each other one raises, with its error code.
    SDM volume 2, MOV and POP (protected mode exceptions); volume 3, 5.6 and 5.7 (privilege checks), 3.4.2 (null selectors)."""
    for seg in ("ds", "es", "ss"):
        for how in ("mov", "movm", "pop"):
            for user in (False, True):
                k = Kernel(user=user, pages=3)
                for selector in selectors():
                    if selector >= 4 and seg != "ss" and is_code(name_of(selector)):
                        continue        # code in a data segment: the run here stops by name
                    if how == "pop":
                        k.test(f"pushl ${selector:#x}; popl %{seg}")
                        k(f"movl ${'ustack' if user else 'stack'},%esp")
                    elif how == "mov":
                        k.test(f"movl ${0x12340000 | selector:#x},%eax; movl %eax,%{seg}")
                    else:
                        # through SS, since DS may be null
                        k.test(f"movl ${selector:#x},4(%ebp); movl 4(%ebp),%{seg}")
                    k(f"movl %{seg},%ebx")
                yield f"load-{seg}-{how}-{'u' if user else 'k'}", k


def null_accesses():
    """What an access through a null DS or ES raises, by each kind of instruction; LEA, INVLPG and a REP of no turns make none.
    SDM volume 3, 5.4.1 (null segment selector checking)."""
    for user in (False, True):
        k = Kernel(user=user)
        for selector in [0, 3] + ([0x23] if user else [0x10, 0x13, 0x23, 0x20]):
            for seg in ("ds", "es"):
                k.test(f"movl ${selector},%eax; movl %eax,%{seg}")
                k.test("movl zeros-8192,%eax")
                k.test("movl %eax,scratch")
                k.test("movl $scratch,%edi; cld; stosb")
                k.test("movl $scratch,%edi; movl $scratch+4,%esi; movsb")
                k.test("movl $scratch,%esi; lodsl")
                k.test("movl $scratch,%ebx; movl (%ebx),%eax")
                k.test("pushl scratch")
                k.test("popl scratch")
                k.test("movl %ds,scratch; movl %es,scratch+4")
                k.test("leal scratch,%eax")
                k.test("movl $0,%ecx; rep stosb")
                k.test("jmp *scratch+100")
                k.test("invlpg scratch")
                if not user:
                    k.test("lidt idtr")
                    k.test("movl $0x10,%eax; movl %eax,%ds; movl %eax,%es")
                else:
                    k.test("movl $0x23,%eax; movl %eax,%ds; movl %eax,%es")
        yield f"null-access-{'u' if user else 'k'}", k


def null_and_other_causes():
    """A null segment together with a page that isn't there, or with a divisor of 0: which of the two is raised.
    SDM volume 3, 6.9 (priority among exceptions) leaves the order within an instruction open: segment checks come first here."""
    for name, test in (
        ("movs-es", "movl $0,%eax; movl %eax,%es; movl $0x66666666,%esi; movl $scratch,%edi; movsl"),
        ("movs-both", "movl $0,%eax; movl %eax,%es; movl %eax,%ds; movl $0x66666666,%esi; movl $scratch,%edi; movsl"),
        ("pushm", NULL_DS + "pushl 0x66666666"),
        ("div", NULL_DS + "movl $0,%edx; divl 0x66666666"),
        ("rep0", NULL_DS + "movl %eax,%es; movl $0,%ecx; rep movsl"),
        ("lea", NULL_DS + "leal 0x66666666,%eax"),
        ("invlpg", NULL_DS + "invlpg 0x66666666"),
        ("lidt", NULL_DS + "lidt 0x66666666"),
        ("ltr", NULL_DS + "ltr 0x66666666"),
        ("movseg", NULL_DS + "movl %ds,0x66666666"),
        ("movss", NULL_DS + "movl 0x66666666,%ss"),
        ("jmp", NULL_DS + "jmp *0x66666666"),
        ("call", NULL_DS + "call *0x66666666"),
        ("popm", NULL_DS + "pushl $1; popl 0x66666666"),
        ("ebp", NULL_DS + "movl (%ebp),%ecx; movl (%esp),%ecx; movl 4(%ebp,%eax,1),%ecx"),
        ("ebpindex", NULL_DS + "movl 4(%eax,%ebp,1),%ecx"),
    ):
        k = Kernel()
        k.test(test)
        k("movl $stack,%esp; movl $0x10,%eax; movl %eax,%ds")
        yield f"null-{name}", k


def far_jumps():
    """Which selectors a far JMP takes, and what each other one raises; CS gets the level as its RPL.
    SDM volume 2, JMP (far, protected mode); volume 3, 5.8.1 (direct calls or jumps to code segments)."""
    for user in (False, True):
        k = Kernel(user=user, pages=3)
        for selector in selectors():
            name = name_of(selector)
            if selector >= 4 and name != "beyond" and not is_code(name) and not is_data(name):
                continue                # to a gate or a TSS: the run here stops by name
            label = k.label()
            k.test(f"ljmp ${selector:#x},${label}; {label}: movl %cs,%eax")
        yield f"ljmp-{'u' if user else 'k'}", k


def task_registers():
    """Which selectors LTR takes, that it sets the busy flag, and that a busy TSS is refused; at level 3 all are #GP(0).
    SDM volume 2, LTR; volume 3, 7.2.2 (TSS descriptor)."""
    for how in ("reg", "mem"):
        k = Kernel(pages=3)
        for selector in selectors() + [0x2C, 0x44, 4, 7, 0x94]:
            k.test(f"movl ${0x5550000 | selector:#x},%eax; ltr %ax" if how == "reg" else f"movl ${selector:#x},scratch; ltr scratch")
        # the busy flag is cleared by hand: the first load goes, the second finds it busy
        k("andl $0xFFFFFDFF,gdt+0x94")
        k.test(f"movl ${SEL['task2']},%eax; ltr %ax")
        k.test(f"movl ${SEL['task2']},%eax; ltr %ax")
        yield f"ltr-{how}", k
    k = Kernel(user=True)
    for selector in (0, 0x28, 0x90, 0x2C, 0x7F8):
        k.test(f"movl ${selector:#x},%eax; ltr %ax")
    yield "ltr-u", k


def table_limits():
    """A descriptor counts as beyond the limit where its last byte is, for SS, LTR and IRET.
    SDM volume 3, 3.5.1 (segment descriptor tables)."""
    for cut in (0, 1, 6, 7, 8):
        k = Kernel()
        k(f"movw ${8 * len(GDT) - 1 - cut:#x},gdtr; lgdt gdtr")
        for selector in (8 * (len(GDT) - 1), 8 * (len(GDT) - 2), 8 * (len(GDT) - 3) | 3):
            k.test(f"movl ${selector},%eax; movl %eax,%ss")
            k.test(f"movl ${selector},%eax; ltr %ax")
            k.test(f"pushl $2; pushl ${selector}; pushl $0x1000; iret")
        yield f"gdt-limit-{cut}", k


LOADS = (
    ("freshdata0", "movl ${s},%eax; movl %eax,%ds"), ("freshdata0", "movl ${s},%eax; movl %eax,%es"),
    ("freshdata0", "movl ${s},%eax; movl %eax,%ss"),
    ("freshcode0", "ljmp ${s},$E{n}; E{n}: movl %cs,%eax"), ("freshcode0", "pushl $2; pushl ${s}; pushl $E{n}; iret; E{n}: movl %cs,%eax"),
    ("task2", "movl ${s},%eax; ltr %ax"),
)


def last_descriptors():
    """A descriptor whose last byte the limit has is loaded into DS, ES, SS, CS and TR; with a lower limit it is beyond.
    SDM volume 3, 3.5.1 (segment descriptor tables)."""
    for cut in (0, 1, 7, 8):
        k = Kernel()
        for number, (name, test) in enumerate(LOADS):
            k(f"movw ${SEL[name] + 7 - cut:#x},gdtr; lgdt gdtr")
            k.test(test.format(s=f"{SEL[name]:#x}", n=number))
            k("movl %ds,%eax; movl %es,%ebx; movl %ss,%ecx; movl $0x10,%eax; movl %eax,%ds; movl %eax,%es; movl %eax,%ss; movl $stack,%esp")
        yield f"gdt-end-{cut}", k


FAMILIES = (data_segments, null_accesses, null_and_other_causes, far_jumps, task_registers, table_limits, last_descriptors)
