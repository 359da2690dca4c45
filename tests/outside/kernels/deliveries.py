"""Deliveries of events through the IDT: gates, stacks, saved words, and those that fail."""
from kernels.base import LIMIT, NOT_DELIVERED, SEL, WITH_CODE, WP, Kernel, gate

# an instruction that raises or asks for each vector; that of 12 depends on the level
RAISED = (
    (0, "movl $0,%ecx; divl %ecx"), (3, "int3"), (6, "ud2"), (13, "movl $0x7F8,%eax; movl %eax,%ds"), (14, "movl 0x66666666,%eax"),
    (0x80, "int $0x80"), (11, f"movl ${SEL['absdata3'] | 3:#x},%eax; movl %eax,%es"), (12, None),
)


def gates_and_levels():
    """Each vector through each kind of gate, from levels 0 and 3, to a used and to a fresh code segment: saved words, CS, SS, flags.
    SDM volume 3, 6.11 to 6.13 (descriptors, handling, error code), 3.4.5.1 (accessed bit)."""
    for user in (False, True):
        for vector, how in RAISED:
            how = how or f"movl ${SEL['absdata3'] | 3 if user else SEL['absdata0']:#x},%eax; movl %eax,%ss"
            for kind in (0x8E, 0x8F, 0xEE, 0xEF):
                for selector in (8, 0xB, SEL["freshcode0"], SEL["freshcode0"] | 2):
                    if selector in (0xB, SEL["freshcode0"] | 2) and kind != 0x8F:
                        continue
                    flags = 0x3ED7 if kind & 1 else 0xCD7
                    for ss0 in (0x10, SEL["ss0fresh"]) if user and kind in (0x8E, 0xEF) else (0x10,):
                        k = Kernel(user=flags if user else False, gates={vector: gate(selector, vector, kind)}, ss0=ss0)
                        if not user:
                            k(f"pushl ${flags:#x}; popf")
                        k.test(how)
                        k("movl %cs,%eax; movl %ss,%ebx; pushf; popl %ecx")
                        yield f"deliver-{'u' if user else 'k'}-{vector:x}-{kind:x}-{selector:x}-{ss0:x}", k


def stack_over_two_pages():
    """The pushed words lie over two pages, with and without an error code.
    SDM volume 3, 6.12.1 (figure 6-4, stack usage)."""
    for user in (False, True):
        for offset in (4, 8, 12, 16, 20, 24):
            for vector, how in ((0x80, "int $0x80"), (13, "movl $0x7F8,%eax; movl %eax,%ds"), (6, "ud2")):
                k = Kernel(user=user, esp0=0x11004000 + offset)
                if not user:
                    k(f"movl ${0x11004000 + offset:#x},%esp")
                k.test(how)
                yield f"deliver-cross-{'u' if user else 'k'}-{vector:x}-{offset}", k


def task_segments():
    """The TSS's limit from just below what SS0 needs, and a limit in pages.
    SDM volume 3, 7.2.1 and 7.2.2 (TSS and its descriptor)."""
    for limit in (0x9, 0xA, 0xB, 0x66, 0x67):
        k = Kernel(user=True, gates={10: gate(8, 13, 0x8E)}, gdt={"task": f"0x0300{limit:04x},0x11008900"})
        k.test("int $0x80")
        yield f"tss-limit-{limit:x}", k
    k = Kernel(user=True, gdt={"task": "0x03000000,0x11808900"})
    k.test("int $0x80")
    yield "tss-granular", k


def fourth_bytes():
    """Byte 4 of an interrupt gate has no effect.
    SDM volume 3, 6.11 (figure 6-2)."""
    for byte in (0x1F, 0xE0, 0xFF):
        k = Kernel(user=True, gates={0x80: gate(8, 0x80, 0xEE, byte)})
        k.test("int $0x80")
        yield f"gate-byte4-{byte:x}", k


def nested():
    """Faults and INTs within handlers, from both levels and back, and a page fault in a page fault's kernel code.
    SDM volume 3, 6.12.1; 6.15 (interrupt 14)."""
    k = Kernel(
        user=2, pages=2, tails={
            6: "movl 0x77777777,%eax; X6: movl (%ebp),%ecx; movl %ecx,(%esp); iret",
            14: "movl %cr2,%eax; movl $X6,4(%esp); addl $4,%esp; iret",
        },
    )
    k.test("ud2")
    yield "fault-in-handler", k
    tail = "int $0x82; int3; pushf; popl %eax; ud2; movl $0x7F8,%eax; iret"
    k = Kernel(user=0x3202, pages=2, gates={0x80: gate(8, 0x80, 0xEF)}, tails={0x80: tail, 6: "addl $2,(%esp); iret"})
    k("int $0x80; int3; int $0x82; pushf; popl %eax; int $0x80")
    yield "nested", k


def last_entries():
    """A gate, a code segment and a stack segment whose last byte the limit of their table has are taken; `fails-` has those that aren't.
    SDM volume 3, 6.10 (IDT), 3.5.1 (segment descriptor tables)."""
    k = Kernel(user=True)
    k.begin(f"movw ${8 * 0x83 + 7:#x},idtr; lidt idtr")
    k.test("int $0x83")
    yield "last-gate", k
    for what, name, others in (
        ("code", "freshcode0", {"gates": {0x83: gate(SEL["freshcode0"], 0x83, 0xEE)}}), ("stack", "ss0fresh", {"ss0": SEL["ss0fresh"]}),
    ):
        k = Kernel(user=True, **others)
        k.begin(f"movw ${SEL[name] + 7:#x},gdtr; lgdt gdtr")
        k.test("int $0x83; movl %ss,%eax")
        yield f"last-{what}", k


def error_codes():
    """Error codes, which these handlers take into ECX: of page faults by access, page, level and WP, of loads of segments, and of INT.
    SDM volume 3, 4.7 (page-fault exceptions), 6.13 (error code)."""
    tail = "popl %ecx; movl (%ebp),%ebx; movl %ebx,(%esp); iret"
    for user in (False, True):
        for wp in (False, True):
            k = Kernel(user=user, pages=4, tails={vector: tail for vector in WITH_CODE})
            k.begin("movl $0x30007,0xC0001080")
            for at, word in enumerate((1, 3, 5, 7, 6)):
                k.begin(f"movl ${0x40000 + 4096 * at | word:#x},{0xC0030000 + 4 * at:#x}; movl $0x0B0F,{0xC0040124 + 4096 * at:#x}")
            if wp:
                k.begin(WP)
            for address in (*range(0x08000124, 0x08005124, 0x1000), 0x08400124):
                for test in ("movl {a},%eax", "movl %eax,{a}", "cmpl $0,{a}", "movl ${a},%eax; jmp *%eax"):
                    k.test("movl $0x0B0F,%eax; " + test.format(a=f"{address:#x}"))
            for selector in (SEL["absdata0"], SEL["absdata3"] | 3, SEL["code0"], SEL["task"], 0x7F8, 0x7FB, SEL["data0"] | 3):
                for seg in ("ds", "es", "ss"):
                    if seg == "ss" or selector != SEL["code0"]:
                        k.test(f"movl ${selector:#x},%eax; movl %eax,%{seg}")
                        k(f"movl ${0x23 if user else 0x10:#x},%eax; movl %eax,%ds; movl %eax,%es; movl %eax,%ss")
            if user:
                for vector in (0x81, 13, 0xFF, 0):
                    k.test(f"int ${vector:#x}")
            yield f"codes-{'u' if user else 'k'}{'-wp' if wp else ''}", k


def that_fail():
    """Each test of a delivery that stops the run here (DeliveryFailed): the outside model has to meet a fault there too.
    SDM volume 3, 6.11 to 6.13, 6.15 (interrupts 8 and 10 to 13)."""
    more = {vector: gate(8, vector, 0x8E) for vector in NOT_DELIVERED}

    def failing(word, user, begin=(), **others):
        k = Kernel(user=user, gates={0x83: word, **more}, after_stop=True, **others)
        for text in begin:
            k.begin(text)
        k.test("int $0x83")
        return k

    good = gate(8, 0x83, 0xEE)
    for user in (False, True):
        level = "u" if user else "k"
        for kind in (0x6E, 0x6F, 0xE0, 0xE4, 0xE5, 0xE6, 0xE7, 0xE9, 0xEB, 0xEC, 0xFE, 0xFF, 0xF0):
            yield f"fails-type-{kind:x}-{level}", failing(gate(8, 0x83, kind), user)
        for selector in (
            0, 3, 0xC, SEL["data0"], SEL["task"], SEL["ldt"], SEL["abscode0"], SEL["code3"] | 3, SEL["abscode3"], SEL["gate"], LIMIT + 1,
            0x7F8, SEL["data3"],
        ):
            yield f"fails-sel-{selector:x}-{level}", failing(gate(selector, 0x83, 0xEE), user)
        yield f"fails-idt-limit-{level}", failing(good, user, [f"movw ${8 * 0x83 + 6:#x},idtr; lidt idtr"])
    begin = [f"movw ${SEL['freshcode0'] + 6:#x},gdtr", "lgdt gdtr"]
    yield "fails-gdt-limit-k", failing(gate(SEL["freshcode0"], 0x83, 0xEE), False, begin)
    for ss0 in (0, 3, 0x13, SEL["data3"], SEL["data3"] | 3, SEL["code0"], SEL["absdata0"], LIMIT + 1, 0x14, SEL["task"]):
        # the handlers of 8 and 10 need a stack too: the outside model shuts down
        yield f"fails-ss0-{ss0:x}", failing(good, True, ss0=ss0)
    for limit in (3, 4, 7, 8):
        yield f"fails-tss-limit-{limit}", failing(good, True, gdt={"task": f"0x0300{limit:04x},0x11008900"})
    yield "fails-esp0-absent", failing(good, True, esp0=0x0A000000)


FAMILIES = (gates_and_levels, stack_over_two_pages, task_segments, fourth_bytes, nested, last_entries, error_codes, that_fail)
