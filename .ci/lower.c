/* Functions for which GCC writes what lower.awk rewrites, over random numbers: a line and a sum for each. .ci/lower runs this
   program as GCC wrote it and as it is rewritten. */
typedef unsigned long long wide;
typedef long long signed_wide;

static int call(int number, int a, const void *b, int c) {
    int result;
    __asm__ volatile("int $0x80" : "=a"(result) : "0"(number), "b"(a), "c"(b), "d"(c) : "memory");
    return result;
}

static void print(const char *name, wide sum) {
    char line[64];
    int n = 0;
    while (*name)
        line[n++] = *name++;
    line[n++] = ' ';
    for (int i = 0; i < 16; i++) {
        unsigned half = i < 8 ? ((unsigned *)&sum)[1] : ((unsigned *)&sum)[0];
        line[n++] = "0123456789abcdef"[half >> (28 - 4 * (i & 7)) & 15];
    }
    line[n++] = '\n';
    call(4, 1, line, n);
}

static wide random_wide(void) {
    static unsigned state = 12345;
    unsigned part[3];
    for (int i = 0; i < 3; i++) {
        state = state * 1664525 + 1013904223;
        part[i] = state >> 8;
    }
    return (wide)part[0] << 40 ^ (wide)part[1] << 20 ^ part[2];
}

#define TRIED __attribute__((noinline)) static

TRIED wide left(wide a, wide b, unsigned n) {
    return a << (n & 63);
}

TRIED wide right(wide a, wide b, unsigned n) {
    return a >> (n & 63);
}

TRIED wide right_signed(wide a, wide b, unsigned n) {
    return (signed_wide)a >> (n & 63);
}

TRIED wide rotated(wide a, wide b, unsigned n) {
    n = n % 63 + 1;
    return a << n | a >> (64 - n);
}

TRIED wide by_constants(wide a, wide b, unsigned n) {
    wide s = 0;
#define BY(k) s += a << k ^ b >> k ^ (wide)((signed_wide)(a ^ b) >> k);
    BY(1) BY(2) BY(3) BY(5) BY(8) BY(13) BY(15) BY(16) BY(17) BY(24) BY(29) BY(31) BY(32) BY(33) BY(47) BY(62) BY(63)
    return s;
}

/* More numbers than there are registers, so that some stand at ESP. */
TRIED wide on_the_stack(wide a, wide b, unsigned n) {
    volatile wide kept[6];
    wide c = a * 3, d = b ^ a, e = a << 3 ^ b, f = b >> 7 ^ c, g = (signed_wide)c >> 9 ^ d, h = d << 31 ^ a;
    for (int i = 0; i < 4; i++) {
        kept[i] = e;
        e = e << 1 | f >> 63;
        f = f << 1 | g >> 63;
        g = g << 1 | h >> 63;
        h = h << (n & 63) ^ kept[i];
        a += e ^ (b << i);
    }
    return a + e * 3 + f * 5 + g * 7 + h;
}

TRIED wide in_memory(wide a, wide b, unsigned n) {
    static wide cells[8];
    wide *at = cells + (n & 3);
    at[0] ^= a;
    at[1] ^= b;
    at[0] <<= n & 63;
    at[1] >>= n & 63;
    *(signed_wide *)&at[2] >>= n & 63;
    at[3] ^= at[0] << 5 ^ at[1] >> 13;
    return at[0] ^ at[1] ^ at[2] ^ at[3];
}

TRIED wide of_bytes(wide a, wide b, unsigned n) {
    signed char x = a, y = b ? b : 1;
    if (y == 0 || y == -1)
        y = 7;
    short z = (signed char)n;
    return (x / y) * 1000 + (x % y) * 10 + (short)(z * 3);
}

TRIED wide lowest(wide a, wide b, unsigned n) {
    unsigned x = a & b;
    return x ? __builtin_ctz(x) : 32;
}

TRIED wide highest(wide a, wide b, unsigned n) {
    unsigned x = a >> (n & 31);
    return x ? __builtin_clz(x) : 32;
}

TRIED wide width(wide a, wide b, unsigned n) {
    unsigned x = (unsigned)a >> (n & 31);
    return x ? 32 - __builtin_clz(x) - __builtin_ctz(x) : 0;
}

TRIED wide first_set(wide a, wide b, unsigned n) {
    return __builtin_ffs(n & 7 ? (int)(a & b) : 0);
}

TRIED wide bytes_turned(wide a, wide b, unsigned n) {
    return __builtin_bswap16(a) + ((wide)__builtin_bswap32(b) << 16) + __builtin_bswap64(a ^ n);
}

static const struct {
    const char *name;
    wide (*it)(wide, wide, unsigned);
} tried[] = {{"left", left}, {"right", right}, {"right_signed", right_signed}, {"rotated", rotated}, {"by_constants", by_constants},
    {"on_the_stack", on_the_stack}, {"in_memory", in_memory}, {"of_bytes", of_bytes}, {"lowest", lowest}, {"highest", highest},
    {"width", width}, {"first_set", first_set}, {"bytes_turned", bytes_turned}};

void _start(void) {
    for (unsigned i = 0; i < sizeof tried / sizeof *tried; i++) {
        wide sum = 0;
        for (int k = 0; k < 100000; k++) {
            wide a = random_wide(), b = random_wide();
            sum = sum * 31 + tried[i].it(a, b, random_wide());
        }
        print(tried[i].name, sum);
    }
    call(1, 0, 0, 0);
}
