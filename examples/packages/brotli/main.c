/* Decodes what recipe has packed, and a piece of it with one byte changed. */
#include "package.h"
#include <brotli/decode.h>
#include <stdio.h>
#include <string.h>

extern const uint8_t packed[];
extern const uint32_t packed_size;

static uint8_t plain[1 << 17];

int main(void) {
    size_t n = sizeof plain;
    BrotliDecoderResult result = BrotliDecoderDecompress(packed_size, packed, &n, plain);
    printf("result %d, %u bytes from %u, sum %08x\n", result, (unsigned)n, (unsigned)packed_size, sum_of(plain, n));
    printf("%.400s\n", (char *)plain);
    uint8_t damaged[64];
    memcpy(damaged, packed, sizeof damaged);
    damaged[20] ^= 0x55;
    n = sizeof plain;
    printf("damaged: result %d\n", BrotliDecoderDecompress(sizeof damaged, damaged, &n, plain));
    return 0;
}
