/* pForth at a terminal at which recipe's file is typed. */
#include "package.h"
#include <stdio.h>
#include <stdlib.h>

extern const char typed[];
extern const uint32_t typed_size;

int pfDoForth(const char *dictionary, const char *source, int initialize);

static uint32_t at;

int sdTerminalOut(char c) {
    return putchar(c);
}

int sdTerminalEcho(char c) {
    return 0;
}

int sdTerminalIn(void) {
    if (at == typed_size)
        exit(0);
    return typed[at++];
}

int sdQueryTerminal(void) {
    return at < typed_size;
}

int sdTerminalFlush(void) {
    return 0;
}

void sdTerminalInit(void) {
}

void sdTerminalTerm(void) {
}

int sdSleepMillis(int milliseconds) {
    return 0;
}

int main(void) {
    return pfDoForth(0, 0, 1);
}
