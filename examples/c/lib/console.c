/* The console of these kernels, at the serial port. start.s has set the line; a byte is sent when the transmitter's holding
   register is empty, which is at once on this machine and only in time on others. */
#include "k.h"

enum { DATA = 0x3f8, LINE_STATUS = 0x3fd, HOLDING_REGISTER_EMPTY = 0x20 };

static inline void outb(uint16_t port, uint8_t v) {
    __asm__ volatile("outb %0, %1" : : "a"(v), "Nd"(port));
}

static inline uint8_t inb(uint16_t port) {
    uint8_t v;
    __asm__ volatile("inb %1, %0" : "=a"(v) : "Nd"(port));
    return v;
}

void putch(int c) {
    while (!(inb(LINE_STATUS) & HOLDING_REGISTER_EMPTY))
        ;
    outb(DATA, c);
}
