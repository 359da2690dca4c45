"""The timer: whether its request is there well before and well after the edge that is due.

Bochs' timer goes by its instructions too, but with a start and a grain of its own. So a request is read in the middle between two
edges, and no interrupt is taken. QEMU's timer goes by real time: these kernels aren't run there.
"""
from kernels.base import Kernel

START = (
    "movb $0x11,%al; outb %al,$0x20; movb $0x20,%al; outb %al,$0x21; movb $4,%al; outb %al,$0x21; movb $1,%al; outb %al,$0x21; "
    "movb $0xFF,%al; outb %al,$0x21"
)
SITE = 5        # steps of a site: an instruction and its NOPs


def count(value, mode=0x34):
    return (
        f"movb ${mode:#x},%al; outb %al,$0x43; movb ${value & 0xFF:#x},%al; outb %al,$0x40; movb ${value >> 8:#x},%al; outb %al,$0x40"
    )


def wait(kernel, steps):
    """Lets about so many steps pass."""
    label = kernel.label()
    kernel(f"movl ${steps // 2},%ecx; {label}: decl %ecx; jnz {label}")


def timed():
    """Counts from 40 to 300, and 0, which is 65,536: when the request comes first, and when it comes again.
    8254 data sheet, mode 2 (rate generator), write operations."""
    for value in (40, 100, 256, 300):
        k = Kernel(pages=2)
        k.timer = True
        k(START)
        k(count(value))
        wait(k, 4 * value)
        k("inb $0x20,%al")
        wait(k, 8 * value)
        k("inb $0x20,%al")
        k(START)
        wait(k, 8 * value)
        k("inb $0x20,%al")
        yield f"timer-{value}", k
    k = Kernel(pages=2)
    k.timer = True
    k(START)
    k(count(0))
    for _ in range(4):
        wait(k, 1500)
        k("inb $0x20,%al")
    yield "timer-0", k


FAMILIES = (timed,)
