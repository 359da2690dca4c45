"""Instructions whose fetch, stack or repetition meets an edge."""
from kernels.base import WP, Kernel


def repeated():
    """String instructions that meet a page which denies, forwards and backwards, and with ECX 0: what ECX, ESI and EDI are then.
    SDM volume 2, REP (a fault leaves the registers of the turn before it)."""
    for user in (False, True):
        k = Kernel(user=user, pages=2)
        k.begin("movl $0x30007,0xC0001080; movl $0x40007,0xC0030000; movl $0x41005,0xC0030004; movl $0x42007,0xC003000C; " + WP)
        for name in ("stosb", "stosl", "movsb", "movsl", "lodsb", "lodsl"):
            k.test(f"cld; movl $0x08000FFA,%edi; movl $0x08000FF9,%esi; movl $9,%ecx; rep {name}")
            k.test(f"cld; movl $0x08001FFA,%esi; movl $scratch,%edi; movl $9,%ecx; rep {name}")
            k.test(f"std; movl $0x08003005,%edi; movl $0x08003003,%esi; movl $9,%ecx; rep {name}; cld")
            k.test(f"cld; movl $0x66666666,%edi; movl $0x66666666,%esi; movl $0,%ecx; rep {name}")
            k.test(f"movl $0x66666666,%edi; movl $0x77777777,%esi; {name}")
            k.test(f"movl $0x08000000,%edi; movl $0x77777777,%esi; {name}")
            k.test(f"movl $0x77777777,%edi; movl $0x08000000,%esi; {name}")
            k.test("cld")
        yield f"rep-{'u' if user else 'k'}", k


# The last four bytes of a page of code, and what the next page begins with: MOV, MOV to memory, UD2, REP LODSB, JMP, NOPs, MOV.
FETCHES = (
    (0xB8909090, 0x90900B0F), (0xC7909090, 0x00038405), (0x0F909090, 0x0B0F0B), (0xF3909090, 0x0B0FAC), (0xE9909090, 5),
    (0x90909090, 0x90900B0F), (0x05C79090, 0x11000384),
)


def fetched_over_two_pages():
    """Instructions at level 3 that lie over two pages, of which the second is of level 0, absent, or of level 3.
    SDM volume 3, 4.6.1 (instruction fetches), 4.7 (CR2 is the second page's first byte)."""
    for name, word in (("sup", 0x41003), ("abs", 0x41006), ("user", 0x41007)):
        for at, (last, next_page) in enumerate(FETCHES):
            k = Kernel(user=True, tails={13: "jmp done"})
            k.begin(f"movl $0x30007,0xC0001080; movl $0x40007,0xC0030000; movl ${word:#x},0xC0030004; movl ${last:#x},0xC0040FFC")
            k.begin(f"movl ${next_page:#x},0xC0041000; movl $0x34561100,0xC0041004; movl $0x0B0F1278,0xC0041008")
            k.test("movl $0x08000FFC,%eax; jmp *%eax")
            yield f"fetch-{name}-{at}", k


def code_in_data():
    """Code at level 3 that the kernel wrote into a page: INT, and HLT, which is #GP(0). Accessed flags of its pages.
    SDM volume 3, 4.8; volume 2, HLT."""
    k = Kernel(user=True, pages=2, tails={13: "jmp done"})
    k.begin("movl $0x30007,0xC0001080; movl $0x40007,0xC0030000; movl $0x41007,0xC0030004")
    k.begin("movl $0x80CD9090,0xC0040000; movl $0xF4F4,0xC0040004")
    k("movl $0x08000000,%eax; movl $0x08001800,%esp; jmp *%eax")
    yield "user-page", k


def stacks():
    """PUSH and POP of ESP and through ESP, PUSHA and POPA, RET with a number, LEAVE, segments on the stack (4 bytes) and in memory (2).
    SDM volume 2, PUSH, POP, PUSHAD, RET, LEAVE, MOV."""
    k = Kernel(pages=2)
    k("pushl %esp; popl %eax; pushl $5; popl %esp; movl $stack,%esp")
    k("pushl $7; popl (%esp); pushl $8; popl 4(%esp); pushl $zeros; popl %esp; movl $stack,%esp")
    k("pusha; popa; movl %esp,%ebx; pushl %ebx; popl %ebx")
    k("pushl 4(%esp); pushl (%esp); call A1; A1: addl $4,%esp; pushl $0; pushl $0; pushl $0; pushl $A2; ret $12; A2: nop")
    k("pushl $A3; movl %esp,%eax; jmp *(%eax); A3: movl $A4,(%esp); call *(%esp); A4: movl $A5,%esp; call A5; A5: movl $stack,%esp")
    k("pushl $8; pushl $0x12340010; pushl $0xFFFF0010; pushl $0x10; popl %ss; popl %es; popl %ds; popl %eax")
    k("movl $-1,scratch; movl $-1,scratch+4; movl %ss,scratch; movl %cs,scratch+5; movl $-1,%eax; movl %ds,%eax")
    k("movl $-1,(%esp); movl %cs,(%esp); movl %ss,2(%esp)")
    k("movl $stack,%ebp; pushl $3; movl %esp,%ebp; leave; movl $resume,%ebp; movl $stack,%esp")
    k("pushl $A6; ret $1; A6: movl $stack,%esp")
    k("xchgl %esp,%eax; xchgl %esp,%eax; xchgl %eax,(%esp); lea 4(%esp),%esp; movl $stack,%esp")
    k("pushf; popl %eax; stc; pushf; popl %eax; std; pushf; popl %eax; cld; sti; pushf; popl %eax; cli; pushf; popl %eax")
    yield "stack-ops", k
    k = Kernel()
    k("pushl $A1; ret $0x7FFF; A1: movl $stack,%esp; pushl $A2; ret $0xFFFF; A2: movl $stack,%esp")
    yield "ret-number", k


def quotients():
    """DIV and IDIV by 0 and with quotients at and past their ends: registers and flags stay as they were.
    SDM volume 2, DIV and IDIV (#DE); volume 3, 6.5 (faults)."""
    k = Kernel(pages=2)
    for test in (
        "movl $5,%edx; movl $0,%eax; movl $5,%ecx; divl %ecx", "movl $4,%edx; movl $5,%ecx; divl %ecx",
        "movl $0xFF05,%eax; movb $5,%cl; divb %cl", "movl $0x4FF,%eax; movb $5,%cl; divb %cl",
        "movl $0x8000,%eax; movb $-1,%cl; idivb %cl", "movl $0xFF80,%eax; movb $-1,%cl; idivb %cl",
        "movl $0xFF80,%eax; movb $1,%cl; idivb %cl", "movl $0x3FC0,%eax; movb $0x7F,%cl; idivb %cl",
        "movl $-1,%edx; movl $0x80000000,%eax; movl $1,%ecx; idivl %ecx",
        "movl $0x3FFFFFFF,%edx; movl $0x80000000,%eax; movl $0x7FFFFFFF,%ecx; idivl %ecx",
    ):
        k.test(test)
    yield "divide", k


FAMILIES = (repeated, fetched_over_two_pages, code_in_data, stacks, quotients)
