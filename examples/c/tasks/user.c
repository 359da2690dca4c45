/* The program of both tasks, at the same addresses in each task's own space: it counts, prints, and ends by a fault. The
   first uses CLI, which level 3 may not; the second echoes four characters and then reads the kernel's data. */
enum { PUT, GET, PASS, END };

static inline unsigned call(unsigned what, unsigned with) {
    unsigned r;
    __asm__ volatile("int $0x80" : "=a"(r) : "0"(what), "b"(with) : "memory");
    return r;
}

static int own = 100;
static int cells[300];
static int number_;
void main_(int number) {
    number_ = number;
    for (int round = 0; round < 6; round++) {
        for (int i = 0; i < 300; i++)
            cells[i] = cells[(i + 7) % 300] * 3 + i + number;
        own += number + 1;
        call(PUT, "ab"[number_]);
        call(PUT, '0' + round);
        call(PUT, ' ');
    }
    int sum = 0;
    for (int i = 0; i < 300; i++)
        sum += cells[i];
    call(PUT, "AB"[number]);
    for (int i = 28; i >= 0; i -= 4)
        call(PUT, "0123456789abcdef"[(unsigned)(sum + own) >> i & 15]);
    if (number) {
        for (int i = 0; i < 4; i++) {
            unsigned c;
            while ((c = call(GET, 0)) == (unsigned)-1)
                call(PASS, 0);
            call(PUT, c);
        }
        call(PUT, *(volatile int *)0x11000000);
    } else
        __asm__ volatile("cli");
    call(END, 0);
}
