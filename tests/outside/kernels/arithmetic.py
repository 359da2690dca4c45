"""Results and flags of the instructions of arithmetic, of shifts and of moves between sizes."""
from kernels.base import Kernel

LONGS = (
    (0, 0), (1, 0xFFFFFFFF), (0x7FFFFFFF, 1), (0x80000000, 0x80000000), (0xFFFFFFFF, 0xFFFFFFFF), (0x12345678, 0x9ABCDEF0), (0x0F, 1),
    (0x10, 1), (0x80000000, 0x7FFFFFFF),
)
BYTES = ((0, 0), (1, 0xFF), (0x7F, 1), (0x80, 0x80), (0xFF, 0xFF), (0x3C, 0xC3), (0x0F, 1), (0x10, 1))
TWO = ("add", "adc", "sub", "sbb", "cmp", "and", "or", "xor", "test")
ONE = ("inc", "dec", "neg", "not")
SHIFTS = ("shl", "shr", "sar", "rol", "ror")
CONDITIONS = ("o", "no", "b", "ae", "e", "ne", "be", "a", "s", "ns", "p", "np", "l", "ge", "le", "g")


def sums():
    """Sums, differences, bitwise results and comparisons of 8 and 32 bits, with CF 0 and 1 before.
    SDM volume 2, ADD, ADC, SUB, SBB, CMP, AND, OR, XOR, TEST, INC, DEC, NEG, NOT (flags affected)."""
    for name in TWO:
        k = Kernel(pages=2)
        for carry in ("clc", "stc"):
            for a, b in LONGS:
                k(f"movl ${a:#x},%eax; movl ${b:#x},%ecx; {carry}; {name}l %ecx,%eax")
            for a, b in BYTES:
                k(f"movl ${a << 8 | b:#x},%eax; {carry}; {name}b %al,%ah")
        k(f"movl $0x70000000,scratch; movl $0x90000000,%eax; {name}l %eax,scratch; {name}l $5,scratch; {name}b $-1,scratch+3")
        yield f"alu-{name}", k
    k = Kernel(pages=2)
    for name in ONE:
        for carry in ("clc", "stc"):
            for value in (0, 1, 0xF, 0x10, 0x7F, 0x80, 0xFF, 0x7FFFFFFF, 0x80000000, 0xFFFFFFFF):
                k(f"movl ${value:#x},%eax; {carry}; {name}l %eax; movl ${value:#x},%edx; {carry}; {name}b %dh")
    yield "alu-one", k


def shifts():
    """Shifts and rotations of 8 and 32 bits by 1, by a number and by CL, whose low five bits count: where a count is 0 no flag changes.
    SDM volume 2, SAL/SAR/SHL/SHR and RCL/RCR/ROL/ROR (flags affected)."""
    for name in SHIFTS:
        k = Kernel(pages=2)
        for value in (1, 0x80, 0x80000000, 0xC0000001, 0x5A5AA5A5, 0xFFFFFFFF, 0x7FFFFF7F):
            k(f"movl ${value:#x},%eax; movl %eax,%edx; {name}l $1,%eax; {name}b $1,%dl")
            for count in (0, 1, 2, 7, 8, 9, 31, 32, 33, 255):
                k(f"movl ${value:#x},%eax; movl %eax,%edx; movb ${count},%cl; {name}l %cl,%eax; {name}b %cl,%dl")
            k(f"movl ${value:#x},scratch; {name}l $3,scratch; {name}b $3,scratch+1; cmpl $7,scratch")
        yield f"alu-{name}", k


def products():
    """Products and quotients of 8 and 32 bits, with and without a sign.
    SDM volume 2, MUL, IMUL, DIV, IDIV."""
    k = Kernel(pages=2)
    for name in ("mul", "imul", "div", "idiv"):
        for a, b in ((3, 5), (0xFFFFFFFF, 0xFFFFFFFF), (0x10000, 0x10000), (0x7FFFFFFF, 2), (0x80000000, 0xFFFFFFFF), (0xFFFFFFF9, 2)):
            for high in (0, 0xFFFFFFFF) if "div" in name else (0,):
                k.test(f"movl ${a:#x},%eax; movl ${b:#x},%ecx; movl ${high:#x},%edx; {name}l %ecx; cmpl $0,%eax")
        for a, b in ((0x0F, 0x10), (0x80, 0x80), (0xFF, 0xFF), (0x7F, 2), (0xFFF9, 2), (0xFF80, 0xFF)):
            k.test(f"movl ${a:#x},%eax; movb ${b:#x},%cl; {name}b %cl; cmpb $0,%al")
    for a, b in ((3, 5), (0xFFFFFFFF, 0xFFFFFFFF), (0x10000, 0x10000), (0x7FFFFFFF, 2), (0x80000000, 0xFFFFFFFF)):
        k(f"movl ${a:#x},%eax; movl ${b:#x},%ecx; imull %ecx,%eax; imull $-3,%ecx,%edx; imull $0x12345,%ecx,%edx; cmpl $0,%eax")
    yield "alu-products", k


def conditions():
    """SETcc and Jcc of each condition, by flags from comparisons with all kinds of results.
    SDM volume 1, appendix B (condition codes)."""
    k = Kernel(pages=4)
    for a, b in ((0, 0), (1, 2), (2, 1), (0x80000000, 1), (1, 0x80000000), (0x7FFFFFFF, 0xFFFFFFFF), (3, 0), (0xFFFFFFFF, 0)):
        k(f"movl ${a:#x},%esi; movl ${b:#x},%edi; cmpl %edi,%esi")
        for condition in CONDITIONS:
            label = k.label()
            k(f"set{condition} %bl; j{condition} {label}; {label}: nop")
    yield "alu-conditions", k


def moves():
    """Moves between sizes and the high bytes of registers, XCHG, LEA with each scale, CWDE, CDQ.
    SDM volume 2, MOV, MOVZX, MOVSX, XCHG, LEA, CBW/CWDE, CWD/CDQ."""
    k = Kernel(pages=2)
    for value in (0x12345678, 0x80FF7F80, 0xFFFFFFFF, 0x7FFF8000):
        k(f"movl ${value:#x},%eax; movl %eax,scratch")
        k("movb %ah,%bl; movb %al,%bh; movb %bh,%ch; movb $0x5A,%dh; xchgb %ah,%dl; xchgb %cl,scratch+1; movw %ax,scratch+2")
        k("movw scratch,%cx; movw $0x1234,%dx; movzbl %ah,%esi; movsbl %ah,%edi; movzwl %ax,%esi; movswl %ax,%edi")
        k("movzbl scratch+3,%esi; movsbl scratch+3,%edi; movzwl scratch+1,%esi; movswl scratch+1,%edi; xchgl %esi,%edi; cltd; cwtl; cltd")
        k("movl $3,%ebx; leal 5(%eax,%ebx,1),%ecx; leal -5(%eax,%ebx,2),%ecx; leal (%eax,%ebx,4),%ecx; leal 0x7FFFFFFF(,%ebx,8),%ecx")
    yield "alu-moves", k


FAMILIES = (sums, shifts, products, conditions, moves)
