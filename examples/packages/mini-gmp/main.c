/* Long numbers by mini-gmp. */
#include "mini-gmp.h"
#include <stdio.h>

/* The spigot of Gibbons: a digit is sure when 3 and 4 give the same. */
static void pi(int digits) {
    mpz_t q, r, t, a, with_3, with_4;
    mpz_init_set_ui(q, 1);
    mpz_init_set_ui(r, 0);
    mpz_init_set_ui(t, 1);
    mpz_init(a);
    mpz_init(with_3);
    mpz_init(with_4);
    for (unsigned i = 1; digits;) {
        mpz_mul_ui(a, q, 3);
        mpz_add(a, a, r);
        mpz_fdiv_q(with_3, a, t);
        mpz_mul_ui(a, q, 4);
        mpz_add(a, a, r);
        mpz_fdiv_q(with_4, a, t);
        if (i > 1 && mpz_cmp(with_3, with_4) == 0) {
            unsigned digit = mpz_get_ui(with_3);
            putchar('0' + digit);
            digits--;
            mpz_submul_ui(r, t, digit);
            mpz_mul_ui(r, r, 10);
            mpz_mul_ui(q, q, 10);
        } else {
            mpz_addmul_ui(r, q, 2);
            mpz_mul_ui(r, r, 2 * i + 1);
            mpz_mul_ui(q, q, i);
            mpz_mul_ui(t, t, 2 * i + 1);
            i++;
        }
    }
    putchar('\n');
}

static void print(const char *what, const mpz_t n, int base) {
    static char digits[400];
    printf("%s %s\n", what, mpz_get_str(digits, base, n));
}

int main(void) {
    mpz_t a, b, m, x;
    pi(60);
    mpz_init_set_ui(a, 1);
    for (unsigned i = 2; i <= 150; i++)
        mpz_mul_ui(a, a, i);
    print("150!", a, 10);
    mpz_set_str(a, "123456789abcdef0123456789abcdef", 16);
    mpz_init_set_str(b, "fedcba9876543210fedcba9876543211", 16);
    mpz_init_set_str(m, "10000000000000000000000000000000000000000000000000000000000000000", 16);
    mpz_init(x);
    mpz_powm(x, a, b, m);
    print("power", x, 16);
    mpz_gcd(x, a, b);
    print("divisor", x, 10);
    mpz_sqrt(x, m);
    print("root", x, 10);
    return 0;
}
