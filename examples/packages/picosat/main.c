/* Pigeons and queens for picosat. */
#include "picosat.h"
#include <stdio.h>

/* Each of n + 1 pigeons has a hole of n, and no hole has two. */
static void pigeonholes(int n) {
    PicoSAT *it = picosat_init();
    for (int pigeon = 0; pigeon <= n; pigeon++) {
        for (int hole = 0; hole < n; hole++)
            picosat_add(it, 1 + pigeon * n + hole);
        picosat_add(it, 0);
    }
    for (int hole = 0; hole < n; hole++)
        for (int one = 0; one <= n; one++)
            for (int other = one + 1; other <= n; other++) {
                picosat_add(it, -(1 + one * n + hole));
                picosat_add(it, -(1 + other * n + hole));
                picosat_add(it, 0);
            }
    int result = picosat_sat(it, -1);
    printf("pigeonholes %d: %d, %d variables, %d clauses\n", n, result, picosat_variables(it), picosat_added_original_clauses(it));
    picosat_reset(it);
}

static int attacks(int row, int column, int other_row, int other_column) {
    return row == other_row || column == other_column || row - column == other_row - other_column || row + column == other_row + other_column;
}

/* Each row of a board of n by n has a queen, and none attacks another. */
static void queens(int n) {
    PicoSAT *it = picosat_init();
    for (int row = 0; row < n; row++) {
        for (int column = 0; column < n; column++)
            picosat_add(it, 1 + row * n + column);
        picosat_add(it, 0);
    }
    for (int one = 0; one < n * n; one++)
        for (int other = one + 1; other < n * n; other++)
            if (attacks(one / n, one % n, other / n, other % n)) {
                picosat_add(it, -(1 + one));
                picosat_add(it, -(1 + other));
                picosat_add(it, 0);
            }
    int result = picosat_sat(it, -1);
    printf("queens %d: %d\n", n, result);
    if (result == PICOSAT_SATISFIABLE)
        for (int row = 0; row < n; row++) {
            for (int column = 0; column < n; column++)
                putchar(picosat_deref(it, 1 + row * n + column) > 0 ? 'Q' : '.');
            putchar('\n');
        }
    picosat_reset(it);
}

int main(void) {
    pigeonholes(4);
    pigeonholes(5);
    queens(3);
    queens(8);
    queens(12);
    return 0;
}
