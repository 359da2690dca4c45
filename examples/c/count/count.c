/* A first kernel in C: the squares of 1 to 9, by the serial port. */
#include <stdint.h>

static inline void outb(uint16_t port, uint8_t value) {
    __asm__ volatile("outb %0, %1" : : "a"(value), "Nd"(port));
}

static inline uint8_t inb(uint16_t port) {
    uint8_t value;
    __asm__ volatile("inb %1, %0" : "=a"(value) : "Nd"(port));
    return value;
}

static void putch(int c) {
    while (!(inb(0x3fd) & 0x20)) /* the transmitter's holding register is empty */
        ;
    outb(0x3f8, c);
}

static void put_number(unsigned n) {
    if (n >= 10)
        put_number(n / 10);
    putch('0' + n % 10);
}

int main(void) {
    for (unsigned i = 1; i < 10; i++) {
        put_number(i * i);
        putch(i < 9 ? ' ' : '\n');
    }
    return 0;
}
