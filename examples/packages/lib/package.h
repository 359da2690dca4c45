/* What the mains and the library want beside the C library. */
#ifndef PACKAGE_H
#define PACKAGE_H
#include <stddef.h>
#include <stdint.h>

/* The end, in machine.c, native.c and user.c: one each for level 0, for Linux, and for level 3. */
void stop(int status) __attribute__((noreturn));

/* FNV-1a of 32 bits, so that much output is compared by one word. */
uint32_t sum_of(const void *bytes, size_t n);
#endif
