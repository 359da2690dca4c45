/* What packages want of <stdlib.h>, <assert.h>, <time.h> and <unistd.h>, beside memory.c; and a checksum for the mains. */
#include "package.h"
#include <assert.h>
#include <ctype.h>
#include <errno.h>
#include <stdio.h>
#include <stdlib.h>
#include <sys/time.h>
#include <time.h>
#include <unistd.h>

int errno;

void exit(int status) {
    stop(status);
}

void abort(void) {
    puts("abort");
    stop(134);
}

void assertion_failed(const char *what, const char *file, int line) {
    printf("assertion failed: %s\n", what);
    abort();
}

char *getenv(const char *name) {
    return 0;
}

/* One and the same second and process, so that each run does the same. */
enum { NOW = 1700000000 };

time_t time(time_t *to) {
    if (to)
        *to = NOW;
    return NOW;
}

int gettimeofday(struct timeval *to, void *zone) {
    to->tv_sec = NOW;
    to->tv_usec = 0;
    return 0;
}

pid_t getpid(void) {
    return 1;
}

int rand(void) {
    static unsigned state = 1;
    state = state * 1103515245 + 12345;
    return state >> 1 & 0x3fffffff;
}

int abs(int n) {
    return n < 0 ? -n : n;
}

static int digit_of(int c) {
    return isdigit(c) ? c - '0' : isalpha(c) ? tolower(c) - 'a' + 10 : 99;
}

unsigned long strtoul(const char *s, char **end, int base) {
    unsigned long value = 0;
    while (isspace(*s))
        s++;
    int minus = *s == '-';
    if (*s == '-' || *s == '+')
        s++;
    if ((base == 0 || base == 16) && s[0] == '0' && tolower(s[1]) == 'x') {
        s += 2;
        base = 16;
    }
    if (base == 0)
        base = *s == '0' ? 8 : 10;
    for (; digit_of(*s) < base; s++)
        value = value * base + digit_of(*s);
    if (end)
        *end = (char *)s;
    return minus ? -value : value;
}

long strtol(const char *s, char **end, int base) {
    return strtoul(s, end, base);
}

int atoi(const char *s) {
    return strtol(s, 0, 10);
}

static void exchange(char *a, char *b, size_t n) {
    for (size_t i = 0; i < n; i++) {
        char c = a[i];
        a[i] = b[i];
        b[i] = c;
    }
}

/* Shell's sort: short, and in place. */
void qsort(void *base, size_t n, size_t size, int (*compare)(const void *, const void *)) {
    char *a = base;
    for (size_t gap = n / 2; gap; gap /= 2)
        for (size_t i = gap; i < n; i++)
            for (size_t j = i; j >= gap && compare(a + (j - gap) * size, a + j * size) > 0; j -= gap)
                exchange(a + (j - gap) * size, a + j * size, size);
}

void *bsearch(const void *key, const void *base, size_t n, size_t size, int (*compare)(const void *, const void *)) {
    const char *a = base;
    while (n) {
        const char *middle = a + n / 2 * size;
        int order = compare(key, middle);
        if (order == 0)
            return (void *)middle;
        if (order > 0) {
            a = middle + size;
            n -= n / 2 + 1;
        } else
            n /= 2;
    }
    return 0;
}

uint32_t sum_of(const void *bytes, size_t n) {
    const unsigned char *s = bytes;
    uint32_t sum = 2166136261u;
    for (size_t i = 0; i < n; i++)
        sum = (sum ^ s[i]) * 16777619u;
    return sum;
}
