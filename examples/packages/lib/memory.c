/* malloc and what goes with it: blocks whose sizes are powers of two, and a list of the free ones of each size. */
#include <stdint.h>
#include <stdlib.h>
#include <string.h>

#ifndef HEAP
#define HEAP (12 << 20)
#endif

/* Before each block; its 16 bytes keep what follows aligned. */
struct head {
    uint32_t class;
    struct head *next;
    uint32_t rest[2];
};

static char heap[HEAP] __attribute__((aligned(16)));
static size_t used;
static struct head *free_of_class[32];

void *malloc(size_t n) {
    if (n > HEAP)
        return 0;
    uint32_t class = 5;
    while (((size_t)1 << class) < n + sizeof(struct head))
        class++;
    struct head *it = free_of_class[class];
    if (it)
        free_of_class[class] = it->next;
    else {
        if (((size_t)1 << class) > HEAP - used)
            return 0;
        it = (struct head *)(heap + used);
        used += (size_t)1 << class;
        it->class = class;
    }
    return it + 1;
}

void free(void *it) {
    if (!it)
        return;
    struct head *head = (struct head *)it - 1;
    head->next = free_of_class[head->class];
    free_of_class[head->class] = head;
}

void *calloc(size_t n, size_t size) {
    if (size && n > HEAP / size)
        return 0;
    void *it = malloc(n * size);
    return it ? memset(it, 0, n * size) : 0;
}

void *realloc(void *old, size_t n) {
    if (!old)
        return malloc(n);
    size_t room = ((size_t)1 << ((struct head *)old)[-1].class) - sizeof(struct head);
    if (n <= room)
        return old;
    void *it = malloc(n);
    if (it) {
        memcpy(it, old, room);
        free(old);
    }
    return it;
}
