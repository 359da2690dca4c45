/* The end of a package at level 0; the console is that of the examples in C. */
#include "package.h"

void stop(int status) {
    for (;;)
        __asm__ volatile("cli\n\thlt");
}
