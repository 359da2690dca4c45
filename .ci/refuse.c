/* Has one call of a program fail or fall short: `.ci/refused_memory` loads this in front of the C library.

   REFUSED says which calls are counted from the program's start, and REFUSED_AT which of them it is, from 1:
   memory       malloc and realloc: there is none
   read, write  reads or writes: the device fails
   short_read, short_write  reads or writes of several bytes: one byte is moved
   Where that call came, a line is written to descriptor 9. */
#define _GNU_SOURCE
#include <errno.h>
#include <stdlib.h>
#include <string.h>
#include <sys/syscall.h>
#include <unistd.h>

void *__libc_malloc(size_t size);
void *__libc_realloc(void *old, size_t size);

static char counted[16];
static unsigned long ahead;

/* What the system's libraries take before the program starts is not counted. */
__attribute__((constructor)) static void begin(void) {
    const char *kind = getenv("REFUSED"), *number = getenv("REFUSED_AT");
    if (kind == NULL || number == NULL)
        return;
    strncpy(counted, kind, sizeof counted - 1);
    ahead = strtoul(number, NULL, 10);
}

static int is_the_call(const char *kind) {
    if (ahead == 0 || strcmp(counted, kind) != 0)
        return 0;
    ahead -= 1;
    if (ahead > 0)
        return 0;
    syscall(SYS_write, 9, "refused\n", 8);
    return 1;
}

void *malloc(size_t size) {
    if (is_the_call("memory")) {
        errno = ENOMEM;
        return NULL;
    }
    return __libc_malloc(size);
}

void *realloc(void *old, size_t size) {
    if (is_the_call("memory")) {
        errno = ENOMEM;
        return NULL;
    }
    return __libc_realloc(old, size);
}

static ssize_t move(long call, const char *kind, int file, const void *bytes, size_t count) {
    if (is_the_call(kind)) {
        errno = EIO;
        return -1;
    }
    if (count > 1 && is_the_call(call == SYS_read ? "short_read" : "short_write"))
        count = 1;
    return syscall(call, file, bytes, count);
}

ssize_t read(int file, void *bytes, size_t count) { return move(SYS_read, "read", file, bytes, count); }

ssize_t write(int file, const void *bytes, size_t count) { return move(SYS_write, "write", file, bytes, count); }

ssize_t __write(int file, const void *bytes, size_t count) { return move(SYS_write, "write", file, bytes, count); }
