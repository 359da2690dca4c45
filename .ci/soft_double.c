/* The functions of examples/packages/lib/soft_double.c against the processor's own, over random numbers: normal ones and zeros,
   as they are meant for. .ci/packages compiles and runs it for the host. */
#include <math.h>
#include <stdint.h>
#include <stdio.h>
#include <stdlib.h>
#include <string.h>

double __adddf3(double, double), __subdf3(double, double), __muldf3(double, double), __divdf3(double, double);
double __floatsidf(int), __floatunsidf(uint32_t), __floatdidf(int64_t), __floatundidf(uint64_t), __extendsfdf2(float);
float __addsf3(float, float), __subsf3(float, float), __mulsf3(float, float), __divsf3(float, float);
float __truncdfsf2(double), __floatundisf(uint64_t);
int __ltdf2(double, double), __gedf2(double, double), __eqdf2(double, double), __fixdfsi(double);
uint32_t __fixunsdfsi(double);
int64_t __fixdfdi(double);

static int tried, wrong;

static uint64_t random_bits(void) {
    return (uint64_t)random() << 33 ^ (uint64_t)random() << 11 ^ random();
}

/* With an exponent near another's, in the middle, or anywhere but at the ends. */
static double random_wide(void) {
    static const int from[] = {1021, 963, 600}, width[] = {5, 120, 800};
    int kind = random() % 3;
    uint64_t exponent = from[kind] + random() % width[kind], bits = random_bits();
    if (random() % 50 == 0)
        bits &= ~0x3fffffffull;
    bits = (bits & 0x800fffffffffffff) | exponent << 52;
    if (random() % 40 == 0)
        bits &= 1ull << 63;
    double it;
    memcpy(&it, &bits, sizeof it);
    return it;
}

static float random_narrow(void) {
    uint32_t bits = ((uint32_t)random_bits() & 0x807fffff) | (uint32_t)(97 + random() % 60) << 23;
    float it;
    memcpy(&it, &bits, sizeof it);
    return it;
}

static void same(const char *what, int is_same) {
    tried++;
    if (!is_same && wrong++ < 20)
        printf("%s: another result\n", what);
}

/* Bit by bit; what is too small to be normal is a zero. */
static void wide(const char *what, double found, double wanted) {
    same(what, memcmp(&found, &wanted, sizeof found) == 0 || (fpclassify(wanted) == FP_SUBNORMAL && found == 0));
}

static void narrow(const char *what, float found, float wanted) {
    same(what, memcmp(&found, &wanted, sizeof found) == 0 || (fabsf(wanted) <= 0x1p-126f && found == 0));
}

static void try_wide(double a, double b) {
    wide("sum", __adddf3(a, b), a + b);
    wide("difference", __subdf3(a, b), a - b);
    wide("product", __muldf3(a, b), a * b);
    if (b != 0)
        wide("quotient", __divdf3(a, b), a / b);
    same("below", (__ltdf2(a, b) < 0) == (a < b));
    same("at or above", (__gedf2(a, b) >= 0) == (a >= b));
    same("equal", (__eqdf2(a, b) == 0) == (a == b));
    if (fabs(a) < 0x1p31)
        same("to int", __fixdfsi(a) == (int)a);
    if (a >= 0 && a < 0x1p32)
        same("to unsigned", __fixunsdfsi(a) == (uint32_t)a);
    if (fabs(a) < 0x1p63)
        same("to long long", __fixdfdi(a) == (int64_t)a);
    narrow("to float", __truncdfsf2(a), (float)a);
}

static void try_narrow(float a, float b) {
    wide("to double", __extendsfdf2(a), (double)a);
    narrow("float sum", __addsf3(a, b), a + b);
    narrow("float difference", __subsf3(a, b), a - b);
    narrow("float product", __mulsf3(a, b), a * b);
    narrow("float quotient", __divsf3(a, b), a / b);
}

static void try_whole(uint64_t n) {
    wide("of int", __floatsidf((int)n), (double)(int)n);
    wide("of unsigned", __floatunsidf((uint32_t)n), (double)(uint32_t)n);
    wide("of long long", __floatdidf((int64_t)n), (double)(int64_t)n);
    wide("of unsigned long long", __floatundidf(n), (double)n);
    narrow("float of unsigned long long", __floatundisf(n), (float)n);
}

int main(void) {
    for (int i = 0; i < 1000000; i++) {
        try_wide(random_wide(), random_wide());
        try_narrow(random_narrow(), random_narrow());
        try_whole(random_bits() >> (random() & 63));
    }
    printf("soft_double: %d results, %d other than the processor's\n", tried, wrong);
    return wrong != 0;
}
