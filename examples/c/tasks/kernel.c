/* A kernel to learn from: two tasks at level 3, each in an address space of its own, that the timer interrupts; calls by
   int $0x80; the console and the keyboard at the serial port; a task that faults is ended.

   From top to bottom: instructions that C has no words for; what the processor finds in memory (the frame of a trap, the
   TSS, the tables); the console; frames and tables; a task; changes from task to task; what each trap does. */
#include <stdint.h>
#include <stddef.h>

static inline void outb(uint16_t port, uint8_t v) {
    __asm__ volatile("outb %0, %1" : : "a"(v), "Nd"(port));
}

static inline uint8_t inb(uint16_t port) {
    uint8_t v;
    __asm__ volatile("inb %1, %0" : "=a"(v) : "Nd"(port));
    return v;
}

static inline uint32_t read_cr2(void) {
    uint32_t v;
    __asm__ volatile("movl %%cr2, %0" : "=r"(v));
    return v;
}

static inline uint32_t read_cr3(void) {
    uint32_t v;
    __asm__ volatile("movl %%cr3, %0" : "=r"(v));
    return v;
}

static inline void write_cr3(uint32_t v) {
    __asm__ volatile("movl %0, %%cr3" : : "r"(v) : "memory");
}

/* Linear addresses: all of memory, the program of a task, the end of its stack. */
enum { DIRECT = 0xC0000000, USER = 0x40000000, USER_STACK = 0x50000000 };

/* Vectors, and the ports of the controllers, the timer and the serial port. */
enum { DIVIDE = 0, OPCODE = 6, PROTECTION = 13, PAGE = 14, TIMER = 32, SERIAL = 36, CALL = 0x80 };
enum { SPURIOUS_MASTER = 39, SPURIOUS_SLAVE = 47 };
enum { PIC = 0x20, PIC_MASK = 0x21, SLAVE = 0xa0, SLAVE_MASK = 0xa1, COUNT = 0x40, COUNT_MODE = 0x43, EOI = 0x20 };
enum { DATA = 0x3f8, RECEIVE_INTERRUPT = 0x3f9, LINE_CONTROL = 0x3fb, LINE_STATUS = 0x3fd };

/* What a task wants of the kernel, in EAX: put the character in EBX, get one, let the other task go on, end; put a line, at EBX and of ECX
   bytes, with the task's number before it, that no other task's output parts (the packages of examples/packages do). */
enum { PUT, GET, PASS, END, LINE };

#ifndef STACK_PAGES
#define STACK_PAGES 1
#endif

/* What entry.s and the processor have pushed when on_trap is called, lowest address first. */
struct trap {
    uint32_t es, ds, edi, esi, ebp, esp0, ebx, edx, ecx, eax, vector, code;
    uint32_t eip, cs, eflags, esp, ss;
};

struct task {
    uint32_t stack, cr3, *directory;
    int number, over;
    uint32_t ticks, calls;
    uint8_t kernel_stack[4096] __attribute__((aligned(16)));
};

/* The TSS: where the stack of level 0 is, when the processor comes from level 3. */
struct tss {
    uint32_t back, esp0, ss0, rest[23];
};

extern void on_divide(void), on_opcode(void), on_protection(void), on_page(void), on_timer(void),
    on_serial(void), on_call(void), on_spurious_master(void), on_spurious_slave(void), leave_trap(void);
extern void change_stack(uint32_t *save, uint32_t load);
extern const uint8_t user_image[];
extern const uint32_t user_image_size, user_memory_size;

static struct task tasks[2], *now;
static uint32_t idle_stack;
static struct tss tss;
static uint64_t gdt[6] __attribute__((aligned(8)));
static uint32_t idt[256][2] __attribute__((aligned(8)));
static uint32_t next_frame, ticks, switches;
static uint8_t typed[16];
static unsigned typed_n;

/* The serial port: 115,200 bits a second, eight bits a byte. This machine's sends without, others cut a byte to five bits. */
static void line(void) {
    outb(LINE_CONTROL, 0x83);
    outb(DATA, 1);
    outb(RECEIVE_INTERRUPT, 0);
    outb(LINE_CONTROL, 3);
}

static void putch(int c) {
    while (!(inb(LINE_STATUS) & 0x20))
        ;
    outb(DATA, c);
}

static void put(const char *s) {
    while (*s)
        putch(*s++);
}

static void put_number(uint32_t v) {
    char b[10];
    int n = 0;
    do
        b[n++] = '0' + v % 10;
    while ((v /= 10) != 0);
    while (n)
        putch(b[--n]);
}

static void put_hex(uint32_t v) {
    for (int i = 28; i >= 0; i -= 4)
        putch("0123456789abcdef"[v >> i & 15]);
}

/* A frame as an address, and a free frame, with zeros. */
static void *direct(uint32_t physical) {
    return (void *)(DIRECT + physical);
}

static uint32_t frame(void) {
    uint32_t f = next_frame;
    next_frame += 4096;
    uint32_t *p = direct(f);
    for (int i = 0; i < 1024; i++)
        p[i] = 0;
    return f;
}

static void load_table(const char *which, const void *base, uint16_t limit) {
    uint8_t form[6];
    *(uint16_t *)form = limit;
    *(uint32_t *)(form + 2) = (uint32_t)base;
    if (*which == 'g')
        __asm__ volatile("lgdt (%0)" : : "r"(form) : "memory");
    else
        __asm__ volatile("lidt (%0)" : : "r"(form) : "memory");
}

/* A gate to a handler at level 0 that clears IF; INT may use it from this level. */
static void gate(int vector, void (*handler)(void), int level) {
    uint32_t at = (uint32_t)handler;
    idt[vector][0] = 0x08u << 16 | (at & 0xffff);
    idt[vector][1] = (at & 0xffff0000) | 0x8e00 | level << 13;
}

/* Flat code and data of both levels, as at boot, and a TSS; the gates; both tables loaded. */
static void tables(void) {
    gdt[1] = 0x00cf9a000000ffffull;
    gdt[2] = 0x00cf92000000ffffull;
    gdt[3] = 0x00cffa000000ffffull;
    gdt[4] = 0x00cff2000000ffffull;
    uint32_t base = (uint32_t)&tss, *d = (uint32_t *)&gdt[5];
    d[0] = base << 16 | (sizeof tss - 1);
    d[1] = (base & 0xff000000) | 0x8900 | (base >> 16 & 0xff);
    tss.ss0 = 0x10;
    load_table("gdt", gdt, sizeof gdt - 1);
    gate(DIVIDE, on_divide, 0);
    gate(OPCODE, on_opcode, 0);
    gate(PROTECTION, on_protection, 0);
    gate(PAGE, on_page, 0);
    gate(TIMER, on_timer, 0);
    gate(SERIAL, on_serial, 0);
    gate(CALL, on_call, 3);
    gate(SPURIOUS_MASTER, on_spurious_master, 0);
    gate(SPURIOUS_SLAVE, on_spurious_slave, 0);
    load_table("idt", idt, sizeof idt - 1);
    __asm__ volatile("ltr %w0" : : "r"(0x28));
}

/* The controllers, with the timer's and the serial port's line open; an edge of the timer every 3,200 steps. */
static void devices(void) {
    outb(PIC, 0x11);
    outb(PIC_MASK, TIMER);
    outb(PIC_MASK, 4);
    outb(PIC_MASK, 1);
    outb(SLAVE, 0x11);
    outb(SLAVE_MASK, TIMER + 8);
    outb(SLAVE_MASK, 2);
    outb(SLAVE_MASK, 1);
    outb(PIC_MASK, 0xee);
    outb(SLAVE_MASK, 0xff);
    outb(RECEIVE_INTERRUPT, 1);
    outb(COUNT_MODE, 0x34);
    outb(COUNT, 400 & 255);
    outb(COUNT, 400 >> 8);
}

/* One page of a task; rights are 2 for write and 4 for the user. */
static void map(struct task *t, uint32_t at, uint32_t physical, uint32_t rights) {
    uint32_t *entry = &t->directory[at >> 22];
    if (!(*entry & 1))
        *entry = frame() | 7;
    uint32_t *table = direct(*entry & ~0xfffu);
    table[at >> 12 & 1023] = physical | rights | 1;
}

/* A task: a copy of the kernel's directory, its program and its stack in frames of its own, and on its stack of level 0 what
   leave_trap pops, so that it begins as if it came back from a trap. The flags are IF alone: a kernel that
   runs patched returns to level 3 with IF 1 and IOPL 0. */
static void make(struct task *t, int number) {
    t->number = number;
    t->cr3 = frame();
    t->directory = direct(t->cr3);
    uint32_t *old = direct(read_cr3() & ~0xfffu);
    for (int i = 0; i < 1024; i++)
        t->directory[i] = old[i];
    for (uint32_t at = 0; at < user_memory_size; at += 4096) {
        uint32_t f = frame();
        uint8_t *p = direct(f);
        for (uint32_t i = 0; i < 4096 && at + i < user_image_size; i++)
            p[i] = user_image[at + i];
        map(t, USER + at, f, 6);
    }
    for (int i = 1; i <= STACK_PAGES; i++)
        map(t, USER_STACK - 4096 * i, frame(), 6);
    struct trap *f = (struct trap *)(t->kernel_stack + sizeof t->kernel_stack) - 1;
    *f = (struct trap){.es = 0x23,
        .ds = 0x23,
        .eax = number,
        .eip = USER,
        .cs = 0x1b,
        .eflags = 0x202,
        .esp = USER_STACK,
        .ss = 0x23};
    uint32_t *s = (uint32_t *)f;
    *--s = (uint32_t)leave_trap;
    s -= 4;
    t->stack = (uint32_t)s;
}

/* To another task, or to where kernel_main stands, for 0: the stack of level 0, the address space, the kernel's registers. */
static void go(struct task *to) {
    struct task *from = now;
    if (to == from)
        return;
    now = to;
    switches++;
    if (to) {
        tss.esp0 = (uint32_t)(to->kernel_stack + sizeof to->kernel_stack);
        write_cr3(to->cr3);
    }
    change_stack(from ? &from->stack : &idle_stack, to ? to->stack : idle_stack);
}

/* The other task if it goes on, else the same; after the last one kernel_main. */
static void go_on(void) {
    int i = now ? now->number : 0;
    struct task *other = &tasks[!i];
    if (!other->over)
        go(other);
    else if (now && now->over)
        go(0);
}

static void end(const char *why, struct trap *f) {
    put("\n<task ");
    put_number(now->number);
    put(" ended: ");
    put(why);
    if (f->vector != CALL) {
        put(" code ");
        put_hex(f->code);
        put(" at ");
        put_hex(f->eip);
        if (f->vector == PAGE) {
            put(" address ");
            put_hex(read_cr2());
        }
    }
    put(">\n");
    now->over = 1;
    go_on();
}

/* A byte of the task's own memory, or 0: the kernel reads no other for a task. */
static uint8_t user_byte(uint32_t at) {
    return at >= USER && at < USER_STACK ? *(uint8_t *)at : 0;
}

void on_trap(struct trap *f) {
    switch (f->vector) {
    case TIMER:
        outb(PIC, EOI);
        ticks++;
        if (now) {
            now->ticks++;
            go_on();
        }
        break;
    case SERIAL:
        outb(PIC, EOI);
        while (inb(LINE_STATUS) & 1) {
            uint8_t c = inb(DATA);
            if (typed_n < sizeof typed)
                typed[typed_n++] = c;
        }
        break;
    case CALL:
        now->calls++;
        switch (f->eax) {
        case PUT:
            putch(f->ebx);
            break;
        case GET:
            f->eax = typed_n ? typed[0] : (uint32_t)-1;
            if (typed_n) {
                typed_n--;
                for (unsigned i = 0; i < typed_n; i++)
                    typed[i] = typed[i + 1];
            }
            break;
        case PASS:
            go_on();
            break;
        case END:
            end("as it wanted", f);
            break;
        case LINE:
            put_number(now->number);
            putch(' ');
            for (uint32_t i = 0; i < f->ecx; i++)
                putch(user_byte(f->ebx + i));
            break;
        default:
            end("an unknown call", f);
        }
        break;
    case DIVIDE:
        end("division", f);
        break;
    case OPCODE:
        end("no instruction", f);
        break;
    case PROTECTION:
        end("protection", f);
        break;
    case PAGE:
        end("page fault", f);
        break;
    }
}

void kernel_main(uint32_t memory, uint32_t first_free) {
    next_frame = first_free;
    line();
    put("memory ");
    put_number(memory >> 20);
    put(" MB, free from ");
    put_hex(first_free);
    put("\n");
    tables();
    make(&tasks[0], 0);
    make(&tasks[1], 1);
    devices();
    go(&tasks[0]);
    put("\nall over; ticks seen ");
    put(ticks > 3 ? "more than three" : "too few");
    put(", calls ");
    put_number(tasks[0].calls + tasks[1].calls);
    put("\n");
}
