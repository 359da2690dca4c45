#ifndef INTTYPES_H
#define INTTYPES_H
#include <stdint.h>
#define PRId32 "ld"
#define PRIu32 "lu"
#define PRIx32 "lx"
#define PRIX32 "lX"
#endif
