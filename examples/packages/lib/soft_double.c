/* The calls that GCC makes with -msoft-float, by libgcc's names: numbers of IEEE 754 with 64 and 32 bits, rounded to the
   nearest, ties to even. Numbers too small to be normal are 0; there is no NaN. Natively the processor's own arithmetic stands
   in their place, so each package that counts with fractions compares the two. */
#include <stdint.h>

typedef union {
    double number;
    uint64_t bits;
} wide;
typedef union {
    float number;
    uint32_t bits;
} narrow;

static const uint64_t SIGN = 1ull << 63, INFINITE = 2047ull << 52, ONE = 1ull << 52;

static int exponent(uint64_t bits) {
    return bits >> 52 & 2047;
}

/* Of a normal number, with its leading one. */
static uint64_t significand(uint64_t bits) {
    return (bits & (ONE - 1)) | ONE;
}

/* The number m / 2^62 * 2^(e - 1023); a bit of m that was lost stands for itself in m's lowest bit. */
static double rounded(uint64_t sign, int e, uint64_t m) {
    wide r = {.bits = sign};
    if (!m)
        return r.number;
    if (m >> 63) {
        m = m >> 1 | (m & 1);
        e++;
    }
    while (!(m >> 62)) {
        m <<= 1;
        e--;
    }
    uint64_t kept = m >> 10, rest = m & 1023;
    if (rest > 512 || (rest == 512 && (kept & 1)))
        kept++;
    if (kept >> 53) {
        kept >>= 1;
        e++;
    }
    if (e >= 2047)
        r.bits |= INFINITE;
    else if (e > 0)
        r.bits |= (uint64_t)e << 52 | (kept & (ONE - 1));
    return r.number;
}

double __adddf3(double p, double q) {
    wide a = {p}, b = {q};
    if (exponent(a.bits) < exponent(b.bits)) {
        a.number = q;
        b.number = p;
    }
    if (!exponent(b.bits)) {
        if (!exponent(a.bits))
            a.bits &= b.bits;
        return a.number;
    }
    if (exponent(a.bits) == 2047)
        return a.number;
    int apart = exponent(a.bits) - exponent(b.bits);
    uint64_t x = significand(a.bits) << 9, y = significand(b.bits) << 9, sign = a.bits & SIGN;
    if (apart > 62)
        y = 1;
    else if (apart)
        y = y >> apart | ((y & ((1ull << apart) - 1)) != 0);
    if (sign == (b.bits & SIGN))
        x += y;
    else if (x >= y)
        x -= y;
    else {
        x = y - x;
        sign ^= SIGN;
    }
    return rounded(x ? sign : 0, exponent(a.bits) + 1, x);
}

double __subdf3(double p, double q) {
    wide b = {q};
    b.bits ^= SIGN;
    return __adddf3(p, b.number);
}

double __muldf3(double p, double q) {
    wide a = {p}, b = {q};
    uint64_t sign = (a.bits ^ b.bits) & SIGN;
    if (!exponent(a.bits) || !exponent(b.bits))
        return rounded(sign, 0, 0);
    if (exponent(a.bits) == 2047 || exponent(b.bits) == 2047)
        return rounded(sign, 2047, 1ull << 62);
    uint64_t x = significand(a.bits), y = significand(b.bits);
    uint32_t x0 = x, x1 = x >> 32, y0 = y, y1 = y >> 32;
    uint64_t low = (uint64_t)x0 * y0, one = (uint64_t)x0 * y1, other = (uint64_t)x1 * y0;
    uint64_t middle = (low >> 32) + (uint32_t)one + (uint32_t)other;
    uint64_t high = (uint64_t)x1 * y1 + (one >> 32) + (other >> 32) + (middle >> 32);
    low = middle << 32 | (uint32_t)low;
    uint64_t m = high << 22 | low >> 42 | ((low & ((1ull << 42) - 1)) != 0);
    return rounded(sign, exponent(a.bits) + exponent(b.bits) - 1023, m);
}

double __divdf3(double p, double q) {
    wide a = {p}, b = {q};
    uint64_t sign = (a.bits ^ b.bits) & SIGN;
    if (!exponent(a.bits) || exponent(b.bits) == 2047)
        return rounded(sign, 0, 0);
    if (!exponent(b.bits) || exponent(a.bits) == 2047)
        return rounded(sign, 2047, 1ull << 62);
    uint64_t x = significand(a.bits), y = significand(b.bits), m = 0;
    for (int i = 0; i < 63; i++) {
        m <<= 1;
        if (x >= y) {
            x -= y;
            m |= 1;
        }
        x <<= 1;
    }
    return rounded(sign, exponent(a.bits) - exponent(b.bits) + 1023, m | (x != 0));
}

/* -1, 0 or 1, as a is below, at or above b. */
static int order(double p, double q) {
    wide a = {p}, b = {q};
    int64_t x = exponent(a.bits) ? a.bits & ~SIGN : 0, y = exponent(b.bits) ? b.bits & ~SIGN : 0;
    if (a.bits & SIGN)
        x = -x;
    if (b.bits & SIGN)
        y = -y;
    return (x > y) - (x < y);
}

int __eqdf2(double a, double b) {
    return order(a, b);
}

int __nedf2(double a, double b) {
    return order(a, b);
}

int __ltdf2(double a, double b) {
    return order(a, b);
}

int __ledf2(double a, double b) {
    return order(a, b);
}

int __gtdf2(double a, double b) {
    return order(a, b);
}

int __gedf2(double a, double b) {
    return order(a, b);
}

double __floatundidf(uint64_t n) {
    if (n >> 63)
        return rounded(0, 1023 + 63, n >> 1 | (n & 1));
    return rounded(0, 1023 + 62, n);
}

double __floatdidf(int64_t n) {
    return rounded(n < 0 ? SIGN : 0, 1023 + 62, n < 0 ? -(uint64_t)n : (uint64_t)n);
}

double __floatunsidf(uint32_t n) {
    return __floatundidf(n);
}

double __floatsidf(int n) {
    return __floatdidf(n);
}

/* Towards 0, as C has it. */
int64_t __fixdfdi(double p) {
    wide a = {p};
    int shift = exponent(a.bits) - 1023 - 52;
    if (shift < -52)
        return 0;
    uint64_t m = significand(a.bits);
    m = shift > 0 ? m << shift : m >> -shift;
    return a.bits & SIGN ? -m : m;
}

uint64_t __fixunsdfdi(double p) {
    return __fixdfdi(p);
}

int __fixdfsi(double p) {
    return __fixdfdi(p);
}

uint32_t __fixunsdfsi(double p) {
    return __fixdfdi(p);
}

double __extendsfdf2(float p) {
    narrow a = {p};
    int e = a.bits >> 23 & 255;
    wide r = {.bits = (uint64_t)(a.bits >> 31) << 63};
    if (e)
        r.bits |= (uint64_t)(e == 255 ? 2047 : e + 1023 - 127) << 52 | (uint64_t)(a.bits & 0x7fffff) << 29;
    return r.number;
}

float __truncdfsf2(double p) {
    wide a = {p};
    narrow r = {.bits = (uint32_t)(a.bits >> 63) << 31};
    int e = exponent(a.bits) - 1023 + 127;
    uint32_t rest = a.bits & 0x1fffffff, magnitude = (uint32_t)e << 23 | (uint32_t)(a.bits >> 29 & 0x7fffff);
    if (e <= 0)
        return r.number;
    if (rest > 0x10000000 || (rest == 0x10000000 && (magnitude & 1)))
        magnitude++;
    r.bits |= e >= 255 || magnitude >> 23 >= 255 ? 255u << 23 : magnitude;
    return r.number;
}

/* 53 bits are more than twice 24 and two, so rounding a sum, a product or a quotient twice is rounding it once. */
float __addsf3(float a, float b) {
    return __truncdfsf2(__adddf3(__extendsfdf2(a), __extendsfdf2(b)));
}

float __subsf3(float a, float b) {
    return __truncdfsf2(__subdf3(__extendsfdf2(a), __extendsfdf2(b)));
}

float __mulsf3(float a, float b) {
    return __truncdfsf2(__muldf3(__extendsfdf2(a), __extendsfdf2(b)));
}

float __divsf3(float a, float b) {
    return __truncdfsf2(__divdf3(__extendsfdf2(a), __extendsfdf2(b)));
}

/* Bits that a wide number has no room for stand for themselves in its lowest, so that this too rounds once. */
float __floatundisf(uint64_t n) {
    if (n >> 53 && (n & 2047))
        n = (n & ~2047ull) | 2048;
    return __truncdfsf2(__floatundidf(n));
}

int __eqsf2(float a, float b) {
    return order(__extendsfdf2(a), __extendsfdf2(b));
}

int __ltsf2(float a, float b) {
    return order(__extendsfdf2(a), __extendsfdf2(b));
}

int __lesf2(float a, float b) {
    return order(__extendsfdf2(a), __extendsfdf2(b));
}

int __gtsf2(float a, float b) {
    return order(__extendsfdf2(a), __extendsfdf2(b));
}

int __gesf2(float a, float b) {
    return order(__extendsfdf2(a), __extendsfdf2(b));
}

/* Whether one of them is no number. */
int __unordsf2(float a, float b) {
    return 0;
}

int __unorddf2(double a, double b) {
    return 0;
}
