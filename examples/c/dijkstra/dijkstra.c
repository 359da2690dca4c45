/* Shortest ways in a graph of 64 places with random roads, by a heap. */
#include "../lib/k.h"
#define N 64
#define E 400
struct road {
    uint8_t from, to;
    uint16_t length;
    int next;
};

static struct road roads[E];
static int first[N];
static uint32_t far[N];
static int8_t before[N];
static uint8_t heap[N];
static int16_t where[N];
static int count;
static void swap(int a, int b) {
    uint8_t t = heap[a];
    heap[a] = heap[b];
    heap[b] = t;
    where[heap[a]] = a;
    where[heap[b]] = b;
}

static void up(int i) {
    while (i && far[heap[i]] < far[heap[(i - 1) / 2]]) {
        swap(i, (i - 1) / 2);
        i = (i - 1) / 2;
    }
}

static void down(int i) {
    for (;;) {
        int c = 2 * i + 1;
        if (c >= count)
            return;
        if (c + 1 < count && far[heap[c + 1]] < far[heap[c]])
            c++;
        if (far[heap[i]] <= far[heap[c]])
            return;
        swap(i, c);
        i = c;
    }
}

static void shortest(int start) {
    for (int i = 0; i < N; i++) {
        far[i] = 0xffffffff;
        where[i] = -1;
        before[i] = -1;
    }
    far[start] = 0;
    heap[0] = start;
    where[start] = 0;
    count = 1;
    while (count) {
        int p = heap[0];
        swap(0, count - 1);
        count--;
        where[p] = -2;
        down(0);
        for (int r = first[p]; r >= 0; r = roads[r].next) {
            int q = roads[r].to;
            uint32_t d = far[p] + roads[r].length;
            if (d < far[q]) {
                far[q] = d;
                before[q] = p;
                if (where[q] == -1) {
                    heap[count] = q;
                    where[q] = count;
                    count++;
                }
                up(where[q]);
            }
        }
    }
}

int main(void) {
    for (int i = 0; i < N; i++)
        first[i] = -1;
    for (int i = 0; i < E; i++) {
        roads[i].from = next_random() % N;
        roads[i].to = next_random() % N;
        roads[i].length = 1 + next_random() % 999;
        roads[i].next = first[roads[i].from];
        first[roads[i].from] = i;
    }
    for (int s = 0; s < 4; s++) {
        shortest(s);
        uint32_t sum = 0;
        for (int i = 0; i < N; i++)
            if (far[i] != 0xffffffff)
                sum += far[i];
        kprintf("from %d: sum %u; way to 63 (%d):", s, sum, (int)far[63]);
        for (int p = 63; p >= 0; p = before[p])
            kprintf(" %d", p);
        put("\n");
    }
    return 0;
}
